#include "drain.hpp"

#include "ending.hpp"

#include <algorithm>

namespace replay {

namespace {

class Drain {
  public:
    Drain(const Program &program, Direction direction)
        : program(program), direction(direction), next(program.queues.size()), reached(program.queues.size()) {}

    std::vector<Run> runs() {
        std::vector<Run> found;
        while (const auto queue = ready_queue())
            take(found, *queue);
        for (size_t queue = 0; queue < next.size(); ++queue)
            if (next[queue] < program.queues[queue].batches.size())
                throw Ended(Ending::stuck, "queue " + std::to_string(queue) + " is stuck before batch " + std::to_string(next[queue]));
        return found;
    }

  private:
    void take(std::vector<Run> &found, uint32_t queue) {
        const Batch &batch = program.queues[queue].batches[next[queue]];
        if (batch.signal)
            reached[queue] = std::max(reached[queue], batch.signal->value);
        if (!found.empty() && found.back().queue == queue) {
            ++found.back().count;
        } else {
            found.push_back({queue, next[queue], 1});
        }
        ++next[queue];
    }

    bool is_ready(uint32_t queue) const {
        const auto &batches = program.queues[queue].batches;
        if (next[queue] == batches.size())
            return false;
        const auto &waits = batches[next[queue]].waits;
        return std::all_of(waits.begin(), waits.end(), [&](const Wait &wait) { return reached[wait.queue] >= wait.value; });
    }

    std::optional<uint32_t> ready_queue() const {
        const auto count = static_cast<uint32_t>(next.size());
        for (uint32_t k = 0; k < count; ++k) {
            const uint32_t queue = direction == Direction::lowest_first ? k : count - 1 - k;
            if (is_ready(queue))
                return queue;
        }
        return std::nullopt;
    }

    const Program &program;
    Direction direction;
    std::vector<size_t> next;
    std::vector<uint64_t> reached;
};

} // namespace

std::vector<Run> drain(const Program &program, Direction direction) { return Drain(program, direction).runs(); }

} // namespace replay
