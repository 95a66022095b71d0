#include "operation.hpp"

#include <array>

namespace replay {

namespace {

struct RoleRow {
    std::string_view text;
    Role role;
    VkImageLayout layout;
};

constexpr std::array rows = {
    RoleRow{"indirect", Role::indirect, VK_IMAGE_LAYOUT_UNDEFINED},
    RoleRow{"index", Role::index, VK_IMAGE_LAYOUT_UNDEFINED},
    RoleRow{"vertex", Role::vertex, VK_IMAGE_LAYOUT_UNDEFINED},
    RoleRow{"uniform", Role::uniform, VK_IMAGE_LAYOUT_UNDEFINED},
    RoleRow{"sampled", Role::sampled, VK_IMAGE_LAYOUT_SHADER_READ_ONLY_OPTIMAL},
    RoleRow{"input", Role::input, VK_IMAGE_LAYOUT_SHADER_READ_ONLY_OPTIMAL},
    RoleRow{"storage_read", Role::storage_read, VK_IMAGE_LAYOUT_GENERAL},
    RoleRow{"storage_write", Role::storage_write, VK_IMAGE_LAYOUT_GENERAL},
    RoleRow{"storage", Role::storage, VK_IMAGE_LAYOUT_GENERAL},
    RoleRow{"color", Role::color, VK_IMAGE_LAYOUT_COLOR_ATTACHMENT_OPTIMAL},
    RoleRow{"depth", Role::depth, VK_IMAGE_LAYOUT_DEPTH_STENCIL_ATTACHMENT_OPTIMAL},
    RoleRow{"depth_read", Role::depth_read, VK_IMAGE_LAYOUT_DEPTH_STENCIL_READ_ONLY_OPTIMAL},
    RoleRow{"copy_read", Role::copy_read, VK_IMAGE_LAYOUT_TRANSFER_SRC_OPTIMAL},
    RoleRow{"blit_read", Role::blit_read, VK_IMAGE_LAYOUT_TRANSFER_SRC_OPTIMAL},
    RoleRow{"resolve_read", Role::resolve_read, VK_IMAGE_LAYOUT_TRANSFER_SRC_OPTIMAL},
    RoleRow{"copy_write", Role::copy_write, VK_IMAGE_LAYOUT_TRANSFER_DST_OPTIMAL},
    RoleRow{"blit_write", Role::blit_write, VK_IMAGE_LAYOUT_TRANSFER_DST_OPTIMAL},
    RoleRow{"resolve_write", Role::resolve_write, VK_IMAGE_LAYOUT_TRANSFER_DST_OPTIMAL},
    RoleRow{"present", Role::present, VK_IMAGE_LAYOUT_PRESENT_SRC_KHR},
    RoleRow{"clear_write", Role::clear_write, VK_IMAGE_LAYOUT_TRANSFER_DST_OPTIMAL},
};

} // namespace

std::optional<Role> role_of(std::string_view text) {
    for (const RoleRow &row : rows)
        if (row.text == text)
            return row.role;
    return std::nullopt;
}

VkImageLayout default_layout(Role role) {
    for (const RoleRow &row : rows)
        if (row.role == role)
            return row.layout;
    return VK_IMAGE_LAYOUT_UNDEFINED;
}

bool keeps_by_default(Role role) {
    switch (role) {
    case Role::color:
    case Role::depth:
    case Role::copy_write:
    case Role::blit_write:
    case Role::resolve_write:
    case Role::clear_write:
        return true;
    default:
        return false;
    }
}

bool has_stages(Role role) {
    switch (role) {
    case Role::uniform:
    case Role::sampled:
    case Role::storage_read:
    case Role::storage_write:
    case Role::storage:
        return true;
    default:
        return false;
    }
}

} // namespace replay
