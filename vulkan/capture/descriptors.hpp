#pragma once
#include "device.hpp"

// Writes of descriptors into a set, by the calls that do so and by those that push them.
void write_descriptors(const Objects &objects, DescriptorSet &set, const VkWriteDescriptorSet &write);
void write_with_template(const Objects &objects, DescriptorSet &set, const UpdateTemplate &layout, const void *data);
Ref<DescriptorSet> make_set(const Ref<SetLayout> &layout);
