// What this layer does in the place of the driver: three families of several queues.
#pragma once

#include "tables.hpp"

namespace families {

void VKAPI_CALL queue_family_properties(VkPhysicalDevice device, uint32_t *count, VkQueueFamilyProperties *properties);
void VKAPI_CALL queue_family_properties2(VkPhysicalDevice device, uint32_t *count, VkQueueFamilyProperties2 *properties);
VkResult VKAPI_CALL surface_support(VkPhysicalDevice device, uint32_t family, VkSurfaceKHR surface, VkBool32 *supported);
void VKAPI_CALL get_queue(VkDevice device, uint32_t family, uint32_t index, VkQueue *queue);
void VKAPI_CALL get_queue2(VkDevice device, const VkDeviceQueueInfo2 *info, VkQueue *queue);
VkResult VKAPI_CALL submit(VkQueue queue, uint32_t count, const VkSubmitInfo *submits, VkFence fence);
VkResult VKAPI_CALL submit2(VkQueue queue, uint32_t count, const VkSubmitInfo2 *submits, VkFence fence);
VkResult VKAPI_CALL wait_idle(VkQueue queue);
VkResult VKAPI_CALL present(VkQueue queue, const VkPresentInfoKHR *info);
VkResult VKAPI_CALL create_pool(VkDevice device, const VkCommandPoolCreateInfo *info, const VkAllocationCallbacks *allocator,
                                VkCommandPool *pool);
void VKAPI_CALL destroy_pool(VkDevice device, VkCommandPool pool, const VkAllocationCallbacks *allocator);
VkResult VKAPI_CALL allocate(VkDevice device, const VkCommandBufferAllocateInfo *info, VkCommandBuffer *buffers);
VkResult VKAPI_CALL create_buffer(VkDevice device, const VkBufferCreateInfo *info, const VkAllocationCallbacks *allocator,
                                  VkBuffer *buffer);
VkResult VKAPI_CALL create_image(VkDevice device, const VkImageCreateInfo *info, const VkAllocationCallbacks *allocator, VkImage *image);
void VKAPI_CALL barrier(VkCommandBuffer buffer, VkPipelineStageFlags src, VkPipelineStageFlags dst, VkDependencyFlags flags,
                        uint32_t memory_count, const VkMemoryBarrier *memory, uint32_t buffer_count, const VkBufferMemoryBarrier *buffers,
                        uint32_t image_count, const VkImageMemoryBarrier *images);
void VKAPI_CALL barrier2(VkCommandBuffer buffer, const VkDependencyInfo *info);
void VKAPI_CALL draw_nothing_indirect(VkCommandBuffer, VkBuffer, VkDeviceSize, uint32_t, uint32_t);
void VKAPI_CALL draw_nothing_indexed(VkCommandBuffer, uint32_t, uint32_t, uint32_t, int32_t, uint32_t);
void VKAPI_CALL dispatch_nothing_indirect(VkCommandBuffer, VkBuffer, VkDeviceSize);

} // namespace families
