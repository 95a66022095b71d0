#pragma once
#include <atomic>

#include "settings.hpp"
#include "summary.hpp"
#include "timeline.hpp"

// What is captured of one device, and when.
class Capture {
  public:
    enum class State { before, running, done };

    State state() const { return now; }
    bool running() const { return now == State::running; }
    bool recording() const { return now != State::done; }

    // Counts a frame or a submission; true where the capture has to start with the next one.
    bool starts_behind(Settings::Unit unit);
    // True where it has to start with the very first one.
    bool starts_at_once() const;
    void start();
    // True where the last one that was asked for has been counted.
    bool complete() const;
    void finish();

    size_t queue_of(uint64_t key, FileQueue::Kind kind, const std::string &name, VkQueueFlags family);
    // A new batch of a queue, which waits for all that the host knows.
    Batch &open_batch(size_t queue);
    Point close_batch(size_t queue, VkPipelineStageFlags2 stages);

    void host_knows(const Points &points);
    Points known_to_host() const;
    Points all_of(size_t queue) const;
    Points all_of_device() const;

    // An image is seen for the first time in the file: its layouts are those before the file.
    void see(const Ref<Image> &image);
    bool has_seen(const Image &image) const { return first_layouts.contains(&image); }
    // Whether some image of the file lay or lies at this place.
    bool image_overlaps(const Resource &place) const;

    const std::vector<FileQueue> &queues() const { return file_queues; }
    const std::map<const Image *, std::vector<VkImageLayout>> &layouts_before() const { return first_layouts; }

    Summary summary;
    // What the device's queue families can do.
    std::vector<VkQueueFlags> families;
    // Stages before rasterization other than the vertex shader, of the pipelines in the file.
    VkPipelineStageFlags2 other_stages = 0;

  private:
    std::atomic<State> now = State::before;
    uint64_t counted = 0;
    uint64_t turns = 0;
    std::vector<FileQueue> file_queues;
    std::map<uint64_t, size_t> numbers;
    std::vector<uint64_t> host;
    std::map<const Image *, std::vector<VkImageLayout>> first_layouts;
    std::vector<Ref<Image>> seen;
};
