#include "submission.hpp"

namespace replay {

namespace {

OwnedSemaphore timeline(VkDevice device) {
    auto type = blank<VkSemaphoreTypeCreateInfo>(VK_STRUCTURE_TYPE_SEMAPHORE_TYPE_CREATE_INFO);
    type.semaphoreType = VK_SEMAPHORE_TYPE_TIMELINE;
    const auto info = blank<VkSemaphoreCreateInfo>(VK_STRUCTURE_TYPE_SEMAPHORE_CREATE_INFO, &type);
    return made<OwnedSemaphore>(device, vkCreateSemaphore, info, "vkCreateSemaphore");
}

VkSemaphoreSubmitInfo semaphore_info(VkSemaphore semaphore, uint64_t value, VkPipelineStageFlags2 stages) {
    auto info = blank<VkSemaphoreSubmitInfo>(VK_STRUCTURE_TYPE_SEMAPHORE_SUBMIT_INFO);
    info.semaphore = semaphore;
    info.value = value;
    info.stageMask = stages;
    return info;
}

} // namespace

Submission::Submission(Context &context, bool execution) : context(context), execution(execution), scratch(context.device) {
    for (size_t queue = 0; queue < context.program.queues.size(); ++queue)
        timelines.push_back(timeline(context.device.get()));
}

VkCommandPool Submission::pool(uint32_t family) {
    OwnedCommandPool &pool = pools[family];
    if (pool.get() == VK_NULL_HANDLE) {
        auto info = blank<VkCommandPoolCreateInfo>(VK_STRUCTURE_TYPE_COMMAND_POOL_CREATE_INFO);
        info.queueFamilyIndex = family;
        pool = made<OwnedCommandPool>(context.device.get(), vkCreateCommandPool, info, "vkCreateCommandPool");
    }
    return pool.get();
}

VkCommandBuffer Submission::begin(uint32_t family) {
    auto info = blank<VkCommandBufferAllocateInfo>(VK_STRUCTURE_TYPE_COMMAND_BUFFER_ALLOCATE_INFO);
    info.commandPool = pool(family);
    info.level = VK_COMMAND_BUFFER_LEVEL_PRIMARY;
    info.commandBufferCount = 1;
    VkCommandBuffer made = VK_NULL_HANDLE;
    succeed(vkAllocateCommandBuffers(context.device.get(), &info, &made), "vkAllocateCommandBuffers");
    const auto once = blank<VkCommandBufferBeginInfo>(VK_STRUCTURE_TYPE_COMMAND_BUFFER_BEGIN_INFO);
    succeed(vkBeginCommandBuffer(made, &once), "vkBeginCommandBuffer");
    return made;
}

void Submission::end(VkCommandBuffer made) { succeed(vkEndCommandBuffer(made), "vkEndCommandBuffer"); }

void Submission::record_command(VkCommandBuffer made, const Item &item) {
    const auto each = [&](const auto &command) {
        if constexpr (std::is_same_v<std::decay_t<decltype(command)>, Action>) {
            const size_t count = record(context, scratch, made, command);
            if (count > 1)
                context.note(item.path + ": the action is " + std::to_string(count) + " commands");
        } else {
            record(context, made, command);
        }
    };
    try {
        std::visit(each, std::get<Command>(item.what));
    } catch (const Ended &ended) {
        throw Ended(ended.ending, item.path + ": " + ended.what());
    }
}

VkCommandBuffer Submission::recorded(const Queue &queue, const Batch &batch) {
    const VkCommandBuffer made = begin(context.device.family_index(queue.family));
    Dependency dependency(context, execution);
    for (const Item &item : batch.items) {
        const auto *barrier = std::get_if<Barrier>(&item.what);
        if (barrier == nullptr || !barrier->joined)
            dependency.record(made);
        if (barrier != nullptr) {
            dependency.add(*barrier);
        } else {
            record_command(made, item);
        }
    }
    dependency.record(made);
    end(made);
    return made;
}

// Images with a layout before the file, and scratch images, get it in a submission of its own.
void Submission::first_layouts() {
    std::vector<VkImageMemoryBarrier2> images;
    const Masks nothing{};
    for (PieceNumber piece = 0; piece < context.program.pieces.size(); ++piece)
        if (const auto &layout = context.program.pieces[piece].initial_layout; layout && *layout != VK_IMAGE_LAYOUT_UNDEFINED)
            images.push_back(transition(context.resources.image(piece), {VK_IMAGE_LAYOUT_UNDEFINED, *layout}, nothing));
    for (const ImageResource &image : scratch.images())
        images.push_back(transition(image, {VK_IMAGE_LAYOUT_UNDEFINED, VK_IMAGE_LAYOUT_GENERAL}, nothing));
    if (images.empty() || context.program.queues.empty())
        return;
    const VkCommandBuffer made = begin(context.device.family_index(context.program.queues[0].family));
    auto dependency = blank<VkDependencyInfo>(VK_STRUCTURE_TYPE_DEPENDENCY_INFO);
    dependency.imageMemoryBarrierCount = static_cast<uint32_t>(images.size());
    dependency.pImageMemoryBarriers = images.data();
    vkCmdPipelineBarrier2(made, &dependency);
    end(made);
    auto recorded_info = blank<VkCommandBufferSubmitInfo>(VK_STRUCTURE_TYPE_COMMAND_BUFFER_SUBMIT_INFO);
    recorded_info.commandBuffer = made;
    auto info = blank<VkSubmitInfo2>(VK_STRUCTURE_TYPE_SUBMIT_INFO_2);
    info.commandBufferInfoCount = 1;
    info.pCommandBufferInfos = &recorded_info;
    succeed(vkQueueSubmit2(context.device.queue(0), 1, &info, VK_NULL_HANDLE), "vkQueueSubmit2");
    succeed(vkDeviceWaitIdle(context.device.get()), "vkDeviceWaitIdle");
}

void Submission::submit(const Run &run) {
    const Queue &queue = context.program.queues[run.queue];
    struct Parts {
        std::vector<VkSemaphoreSubmitInfo> waits, signals;
        VkCommandBufferSubmitInfo commands;
    };
    std::vector<Parts> parts(run.count);
    std::vector<VkSubmitInfo2> infos;
    for (size_t k = 0; k < run.count; ++k) {
        const Batch &batch = queue.batches[run.first + k];
        for (const Wait &wait : batch.waits)
            parts[k].waits.push_back(semaphore_info(timelines[wait.queue].get(), wait.value, wait.stages));
        if (batch.signal)
            parts[k].signals.push_back(semaphore_info(timelines[run.queue].get(), batch.signal->value, batch.signal->stages));
        parts[k].commands = blank<VkCommandBufferSubmitInfo>(VK_STRUCTURE_TYPE_COMMAND_BUFFER_SUBMIT_INFO);
        parts[k].commands.commandBuffer = commands[run.queue][run.first + k];
        auto info = blank<VkSubmitInfo2>(VK_STRUCTURE_TYPE_SUBMIT_INFO_2);
        info.waitSemaphoreInfoCount = static_cast<uint32_t>(parts[k].waits.size());
        info.pWaitSemaphoreInfos = parts[k].waits.data();
        info.commandBufferInfoCount = 1;
        info.pCommandBufferInfos = &parts[k].commands;
        info.signalSemaphoreInfoCount = static_cast<uint32_t>(parts[k].signals.size());
        info.pSignalSemaphoreInfos = parts[k].signals.data();
        infos.push_back(info);
    }
    succeed(vkQueueSubmit2(context.device.queue(run.queue), static_cast<uint32_t>(infos.size()), infos.data(), VK_NULL_HANDLE),
            "vkQueueSubmit2");
}

void Submission::go(const std::vector<Run> &runs) {
    for (const Queue &queue : context.program.queues) {
        commands.emplace_back();
        for (const Batch &batch : queue.batches)
            commands.back().push_back(recorded(queue, batch));
    }
    first_layouts();
    for (const Run &run : runs)
        submit(run);
    succeed(vkDeviceWaitIdle(context.device.get()), "vkDeviceWaitIdle");
}

} // namespace replay
