// Records the batches of a program and submits them.
#pragma once

#include "actions.hpp"
#include "dependency.hpp"
#include "drain.hpp"
#include "operations.hpp"

namespace replay {

class Submission {
  public:
    Submission(Context &context, bool execution);

    // Records all batches, brings images to their first layouts, and submits the runs in turn. At its end the device is idle.
    void go(const std::vector<Run> &runs);

  private:
    VkCommandPool pool(uint32_t family);
    VkCommandBuffer begin(uint32_t family);
    void end(VkCommandBuffer commands);
    VkCommandBuffer recorded(const Queue &queue, const Batch &batch);
    void record_command(VkCommandBuffer commands, const Item &item);
    void first_layouts();
    void submit(const Run &run);

    Context &context;
    bool execution;
    Scratch scratch;
    std::vector<OwnedSemaphore> timelines; // one for each queue
    std::map<uint32_t, OwnedCommandPool> pools;
    std::vector<std::vector<VkCommandBuffer>> commands; // by queue and batch
};

} // namespace replay
