#!/usr/bin/env python3
"""Writes the wrappers of the capture layer from Vulkan's registry (vk.xml).

    vulkan/capture/generate.py VK_XML OUT_DIR

Commands that the layer looks at stand in HOOKS with the moment at which their hook is called. An alias (vkCmdDraw and its
like with KHR or EXT at the end) is an entry point of its own that leads to the same hook. Commands that are recorded and that
neither have a hook nor are known to touch no memory are counted by name (see `counted`). What is written:

    hooks.hpp      the declarations of the hooks, so that a hook with other parameters does not compile
    table.hpp      the table of the next layer's functions
    wrappers.cpp   the wrappers, the filling of the table, and the search of a wrapper by its name
    formats.cpp    the bytes and texels of a block of each format, plane by plane
"""

import argparse
import xml.etree.ElementTree as ElementTree
from pathlib import Path

BEFORE, AFTER, AROUND = "before", "after", "around"

HOOKS = {AFTER: """
    vkAllocateMemory vkCreateBuffer vkCreateImage vkBindBufferMemory vkBindImageMemory vkBindBufferMemory2
    vkBindImageMemory2 vkCreateImageView vkCreateBufferView vkCreateSwapchainKHR vkGetSwapchainImagesKHR
    vkCreateRenderPass vkCreateRenderPass2 vkCreateFramebuffer vkCreateShaderModule vkCreateShadersEXT
    vkCreateGraphicsPipelines vkCreateComputePipelines vkCreatePipelineLayout vkCreateDescriptorSetLayout
    vkCreateDescriptorUpdateTemplate vkAllocateDescriptorSets vkUpdateDescriptorSets
    vkUpdateDescriptorSetWithTemplate vkAllocateCommandBuffers vkBeginCommandBuffer vkCreateSemaphore vkCreateFence
    vkGetDeviceQueue vkGetDeviceQueue2 vkWaitForFences vkGetFenceStatus vkWaitSemaphores vkGetSemaphoreCounterValue
    vkSignalSemaphore vkAcquireNextImageKHR vkAcquireNextImage2KHR vkQueueWaitIdle vkDeviceWaitIdle
    vkGetBufferDeviceAddress vkSetDebugUtilsObjectNameEXT vkDebugMarkerSetObjectNameEXT
    """, BEFORE: """
    vkDestroyBuffer vkDestroyImage vkFreeMemory vkDestroyImageView vkDestroyBufferView vkDestroySwapchainKHR
    vkDestroyRenderPass vkDestroyFramebuffer vkDestroyShaderModule vkDestroyShaderEXT vkDestroyPipeline
    vkDestroyPipelineLayout vkDestroyDescriptorSetLayout vkDestroyDescriptorUpdateTemplate vkFreeDescriptorSets
    vkResetDescriptorPool vkDestroyDescriptorPool vkFreeCommandBuffers vkDestroyCommandPool vkDestroySemaphore
    vkDestroyFence vkResetFences
    vkCmdBindPipeline vkCmdBindShadersEXT vkCmdBindDescriptorSets vkCmdBindDescriptorSets2 vkCmdPushDescriptorSet
    vkCmdPushDescriptorSet2 vkCmdPushDescriptorSetWithTemplate vkCmdPushDescriptorSetWithTemplate2
    vkCmdBindVertexBuffers vkCmdBindVertexBuffers2 vkCmdBindIndexBuffer vkCmdBindIndexBuffer2 vkCmdSetVertexInputEXT
    vkCmdDraw vkCmdDrawIndexed vkCmdDrawIndirect vkCmdDrawIndexedIndirect vkCmdDrawIndirectCount
    vkCmdDrawIndexedIndirectCount vkCmdDrawMultiEXT vkCmdDrawMultiIndexedEXT vkCmdDrawMeshTasksEXT
    vkCmdDispatch vkCmdDispatchBase vkCmdDispatchIndirect
    vkCmdCopyBuffer vkCmdCopyBuffer2 vkCmdCopyImage vkCmdCopyImage2 vkCmdBlitImage vkCmdBlitImage2
    vkCmdCopyBufferToImage vkCmdCopyBufferToImage2 vkCmdCopyImageToBuffer vkCmdCopyImageToBuffer2
    vkCmdResolveImage vkCmdResolveImage2 vkCmdFillBuffer vkCmdUpdateBuffer vkCmdClearColorImage
    vkCmdClearDepthStencilImage vkCmdCopyQueryPoolResults
    vkCmdPipelineBarrier vkCmdPipelineBarrier2 vkCmdWaitEvents vkCmdWaitEvents2
    vkCmdBeginRendering vkCmdEndRendering vkCmdBeginRenderPass vkCmdBeginRenderPass2 vkCmdNextSubpass
    vkCmdNextSubpass2 vkCmdEndRenderPass vkCmdEndRenderPass2 vkCmdExecuteCommands
    vkCmdBeginDebugUtilsLabelEXT vkCmdEndDebugUtilsLabelEXT
    """, AROUND: """
    vkQueueSubmit vkQueueSubmit2 vkQueuePresentKHR vkQueueBindSparse
    """}

# Functions of the next layer that the layer itself calls.
CALLED = "vkGetBufferMemoryRequirements vkGetImageMemoryRequirements vkDeviceWaitIdle vkDestroyDevice".split()

# Recorded commands that touch no memory that a submission file speaks of.
HARMLESS_STARTS = ("vkCmdSet", "vkCmdPushConstants", "vkCmdWriteTimestamp", "vkCmdBeginQuery", "vkCmdEndQuery",
                   "vkCmdResetQueryPool", "vkCmdInsertDebugUtilsLabel", "vkCmdDebugMarker", "vkCmdClearAttachments")
NOT_HARMLESS = ("vkCmdSetEvent", "vkCmdSetDescriptorBufferOffsets")

# Commands of a device that an instance extension has: a layer below may have none for the device, and leads to it by the
# instance alone. Nothing needs them, so they end here then.
OF_INSTANCE_EXTENSIONS = ("vkCmdBeginDebugUtilsLabelEXT", "vkCmdEndDebugUtilsLabelEXT", "vkSetDebugUtilsObjectNameEXT")

DISPATCHABLE = ("VkDevice", "VkQueue", "VkCommandBuffer")


class Command:
    """A command of the registry: its result, its parameters as C has them, and the command that it is an alias of."""

    def __init__(self, name, canonical, node):
        self.name = name
        self.canonical = canonical
        self.result = node.find("proto/type").text
        params = [param for param in node.findall("param") if "vulkan" in param.get("api", "vulkan").split(",")]
        self.types = [param.find("type").text for param in params]
        self.names = [param.find("name").text for param in params]
        self.declared = ["".join(param.itertext()).replace("\n", " ") for param in params]

    @property
    def member(self):
        return self.name.removeprefix("vk")

    @property
    def hook(self):
        return self.canonical.removeprefix("vk")

    def parameters(self):
        return ", ".join(" ".join(text.split()) for text in self.declared)

    def arguments(self):
        return ", ".join(self.names)


def available_names(root):
    """The commands of features and extensions that vulkan_core.h has."""
    names = set()
    for feature in root.findall("feature"):
        if "vulkan" in feature.get("api").split(","):
            names |= {command.get("name") for command in feature.iter("command")}
    for extension in root.findall("extensions/extension"):
        if "vulkan" in extension.get("supported").split(",") and extension.get("platform") is None:
            names |= {command.get("name") for command in extension.iter("command")}
    return names


def without_suffix(name, when):
    """The name of the hook where an older registry knows the command by its extension's name alone."""
    for suffix in ("KHR", "EXT"):
        if name.removesuffix(suffix) in when:
            return name.removesuffix(suffix)
    return name


def device_commands(root, when):
    """All commands of a device by name."""
    nodes, aliases = {}, {}
    for node in root.findall("commands/command"):
        if "vulkan" not in node.get("api", "vulkan").split(","):
            continue
        if node.get("alias"):
            aliases[node.get("name")] = node.get("alias")
        else:
            nodes[node.find("proto/name").text] = node
    found = {}
    for name in sorted(available_names(root)):
        canonical = name
        while canonical in aliases:
            canonical = aliases[canonical]
        command = Command(name, canonical, nodes[canonical])
        command.canonical = command.canonical if command.canonical in when else without_suffix(command.canonical, when)
        if command.types[0] in DISPATCHABLE and name not in ("vkGetDeviceProcAddr", "vkDestroyDevice"):
            found[name] = command
    return found


def moments():
    return {name: moment for moment, names in HOOKS.items() for name in names.split()}


def counted(command):
    """Whether it is a recorded command without a hook that may touch memory."""
    if command.types[0] != "VkCommandBuffer" or not command.name.startswith("vkCmd"):
        return False
    return not command.name.startswith(HARMLESS_STARTS) or command.name.startswith(NOT_HARMLESS)


def hook_declaration(command, moment):
    result = "void"
    extra = ["Device &layer"]
    if moment == AROUND:
        result = command.result
        extra.append(f"PFN_{command.canonical} next")
    elif moment == AFTER and command.result == "VkResult":
        extra.append("VkResult result")
    return f"{result} {command.hook}({', '.join(extra)}, {command.parameters()});"


def wrapper(command, moment):
    """The text of one wrapper."""
    head = f"VKAPI_ATTR {command.result} VKAPI_CALL {command.member}({command.parameters()}) {{"
    lines = [head, f"    Device &layer = device_of({command.names[0]});"]
    call = f"layer.next.{command.member}({command.arguments()})"
    answers = command.result != "void"
    if command.name in OF_INSTANCE_EXTENSIONS:
        ended = "VK_SUCCESS" if answers else "void()"
        call = f"layer.next.{command.member} == nullptr ? {ended} : {call}"
    if moment == AROUND:
        lines.append(f"    return hook::{command.hook}(layer, layer.next.{command.member}, {command.arguments()});")
    elif moment == AFTER:
        lines.append(f"    {'const ' + command.result + ' result = ' if answers else ''}{call};")
        told = "result, " if command.result == "VkResult" else ""
        lines.append(f"    with_state(layer, [&] {{ hook::{command.hook}(layer, {told}{command.arguments()}); }});")
        if answers:
            lines.append("    return result;")
    else:
        hook = f"hook::{command.hook}(layer, {command.arguments()})"
        if moment is None:
            hook = f'hook::count(layer, commandBuffer, "{command.canonical}")'
        lines.append(f"    with_state(layer, [&] {{ {hook}; }});")
        lines.append(f"    {'return ' if answers else ''}{call};")
    return "\n".join(lines + ["}"])


def write_hooks(out, commands, when):
    lines = ["#pragma once", "#include <vulkan/vulkan.h>", "struct Device;", "namespace hook {",
             "void count(Device &layer, VkCommandBuffer commandBuffer, const char *command);"]
    for name in sorted({command.canonical for command in commands.values()}):
        if name in when:
            same = next(command for command in commands.values() if command.canonical == name)
            lines.append(hook_declaration(same, when[name]))
    (out / "hooks.hpp").write_text("\n".join(lines + ["}  // namespace hook", ""]))


def write_table(out, commands):
    lines = ["#pragma once", "#include <vulkan/vulkan.h>", "struct DeviceTable {"]
    lines += [f"    PFN_{command.name} {command.member} = nullptr;" for command in commands.values()]
    lines += ["    PFN_vkDestroyDevice DestroyDevice = nullptr;", "};",
              "void fill_table(DeviceTable &table, VkDevice device, PFN_vkGetDeviceProcAddr next);",
              "PFN_vkVoidFunction wrapper_of(const char *name);", ""]
    (out / "table.hpp").write_text("\n".join(lines))


def write_wrappers(out, commands, when):
    wrapped = [command for command in commands.values() if command.canonical in when or counted(command)]
    text = ['#include "device.hpp"', '#include "hooks.hpp"', "#include <string_view>", "#include <unordered_map>",
            "namespace {"]
    text += [wrapper(command, when.get(command.canonical)) for command in wrapped]
    text += ["}  // namespace", "",
             "void fill_table(DeviceTable &table, VkDevice device, PFN_vkGetDeviceProcAddr next) {"]
    text += [f'    table.{command.member} = reinterpret_cast<PFN_{command.name}>(next(device, "{command.name}"));'
             for command in commands.values()]
    text += ['    table.DestroyDevice = reinterpret_cast<PFN_vkDestroyDevice>(next(device, "vkDestroyDevice"));', "}", "",
             "PFN_vkVoidFunction wrapper_of(const char *name) {",
             "    static const std::unordered_map<std::string_view, PFN_vkVoidFunction> wrappers = {"]
    text += [f'        {{"{command.name}", reinterpret_cast<PFN_vkVoidFunction>({command.member})}},' for command in wrapped]
    text += ["    };", "    const auto found = wrappers.find(name);",
             "    return found == wrappers.end() ? nullptr : found->second;", "}", ""]
    (out / "wrappers.cpp").write_text("\n".join(text))


def block_of(node):
    extent = [int(side) for side in node.get("blockExtent", "1,1,1").split(",")]
    return f"{{{node.get('blockSize')}, {extent[0]}, {extent[1]}, {extent[2]}, 1, 1}}"


def write_formats(out, root):
    """Blocks of formats, and those of the planes of formats that have some."""
    formats = {node.get("name"): node for node in root.findall("formats/format")}
    text = ['#include "formats.hpp"', "Block block_of(VkFormat format, VkImageAspectFlags aspect) {",
            "    switch (format) {"]
    for name, node in formats.items():
        planes = node.findall("plane")
        if not planes:
            text.append(f"    case {name}: return {block_of(node)};")
            continue
        text.append(f"    case {name}:")
        for plane in planes:
            size = formats[plane.get("compatible")].get("blockSize")
            wide, high = plane.get("widthDivisor"), plane.get("heightDivisor")
            text.append(f"        if (aspect & VK_IMAGE_ASPECT_PLANE_{plane.get('index')}_BIT) "
                        f"return {{{size}, 1, 1, 1, {wide}, {high}}};")
        text.append(f"        return {block_of(node)};")
    text += ["    default: return {};", "    }", "}", "", "unsigned planes_of(VkFormat format) {", "    switch (format) {"]
    text += [f"    case {name}: return {len(node.findall('plane'))};" for name, node in formats.items()
             if node.findall("plane")]
    text += ["    default: return 1;", "    }", "}", ""]
    (out / "formats.cpp").write_text("\n".join(text))


def main():
    parser = argparse.ArgumentParser(description=__doc__.splitlines()[0])
    parser.add_argument("registry", type=Path)
    parser.add_argument("out", type=Path)
    args = parser.parse_args()
    root = ElementTree.parse(args.registry).getroot()
    when = moments()
    every = device_commands(root, when)
    wanted = {name: command for name, command in every.items()
              if command.canonical in when or counted(command) or name in CALLED}
    args.out.mkdir(parents=True, exist_ok=True)
    write_hooks(args.out, wanted, when)
    write_table(args.out, wanted)
    write_wrappers(args.out, wanted, when)
    write_formats(args.out, root)


if __name__ == "__main__":
    main()
