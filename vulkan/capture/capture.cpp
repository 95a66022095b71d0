#include "capture.hpp"

#include <algorithm>
#include <atomic>
#include <cstdio>

#include "writer.hpp"

namespace {

// A program may make several devices; the first one that comes so far is captured.
std::atomic<bool> claimed = false;

const char *unit_name() { return settings()->unit == Settings::Unit::frames ? "frame" : "submission"; }

bool overlap(const Resource &one, const Resource &other) {
    return one.memory == other.memory && one.offset < other.end() && other.offset < one.end();
}

}  // namespace

const Points *Semaphore::reaching(uint64_t value) const {
    for (const auto &[reached, points] : signals) {
        if (reached >= value) return &points;
    }
    return nullptr;
}

bool Capture::starts_behind(Settings::Unit unit) {
    if (unit != settings()->unit) return false;
    ++counted;
    return now == State::before && counted == settings()->first;
}

bool Capture::starts_at_once() const { return now == State::before && settings()->first == 0; }

void Capture::start() {
    if (claimed.exchange(true)) {
        now = State::done;
        return;
    }
    now = State::running;
    std::fprintf(stderr, "framec capture: begins with %s %llu\n", unit_name(), static_cast<unsigned long long>(counted));
}

bool Capture::complete() const { return running() && counted >= settings()->first + settings()->count; }

void Capture::finish() {
    if (now == State::before && counted > 0 && !claimed) {
        std::fprintf(stderr, "framec capture: the program ended before %s %llu: nothing is written\n", unit_name(),
                     static_cast<unsigned long long>(settings()->first));
    }
    if (!running()) return;
    const uint64_t got = counted - settings()->first;
    if (got < settings()->count) {
        std::fprintf(stderr, "framec capture: the program ended after %llu of %llu %ss\n", static_cast<unsigned long long>(got),
                     static_cast<unsigned long long>(settings()->count), unit_name());
    }
    std::fprintf(stderr, "framec capture: ends before %s %llu\n", unit_name(), static_cast<unsigned long long>(counted));
    write_file(*this);
    now = State::done;
}

size_t Capture::queue_of(uint64_t key, FileQueue::Kind kind, const std::string &name, VkQueueFlags family) {
    const auto [place, is_new] = numbers.try_emplace(key, file_queues.size());
    if (is_new) {
        file_queues.push_back({kind, name, family, {}, {}});
        host.push_back(0);
    }
    file_queues[place->second].family = family;
    return place->second;
}

Batch &Capture::open_batch(size_t queue) {
    FileQueue &own = file_queues[queue];
    Batch batch;
    batch.turn = turns++;
    batch.value = own.last_value() + 1;
    own.waited.resize(file_queues.size(), 0);
    for (size_t other = 0; other < file_queues.size(); ++other) {
        if (host[other] <= own.waited[other]) continue;
        own.waited[other] = host[other];
        batch.waits.push_back({Point{other, host[other]}, VK_PIPELINE_STAGE_2_ALL_COMMANDS_BIT});
    }
    own.batches.push_back(std::move(batch));
    return own.batches.back();
}

Point Capture::close_batch(size_t queue, VkPipelineStageFlags2 stages) {
    Batch &batch = file_queues[queue].batches.back();
    batch.signal_stages = stages;
    return {queue, batch.value};
}

void Capture::host_knows(const Points &points) {
    for (const Point &point : points) host[point.queue] = std::max(host[point.queue], point.value);
}

Points Capture::known_to_host() const {
    Points points;
    for (size_t queue = 0; queue < host.size(); ++queue) {
        if (host[queue] != 0) points.push_back({queue, host[queue]});
    }
    return points;
}

Points Capture::all_of(size_t queue) const {
    const uint64_t value = file_queues[queue].last_value();
    return value == 0 ? Points{} : Points{{queue, value}};
}

Points Capture::all_of_device() const {
    Points points;
    for (size_t queue = 0; queue < file_queues.size(); ++queue) {
        if (file_queues[queue].kind != FileQueue::Kind::device) continue;
        for (const Point &point : all_of(queue)) points.push_back(point);
    }
    return points;
}

void Capture::see(const Ref<Image> &image) {
    if (first_layouts.try_emplace(image.get(), image->layouts).second) seen.push_back(image);
}

bool Capture::image_overlaps(const Resource &place) const {
    for (const Ref<Image> &image : seen) {
        if (overlap(*image, place)) return true;
    }
    return false;
}
