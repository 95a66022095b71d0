#include "places.hpp"

#include <algorithm>
#include <map>

namespace replay {

namespace {

uint64_t rounded(uint64_t place, uint64_t alignment) { return (place + alignment - 1) / alignment * alignment; }

bool overlap(uint64_t first, uint64_t first_end, uint64_t second, uint64_t second_end) { return first < second_end && second < first_end; }

// Whether at these places the same pieces overlap as in the file, each at a place that the device takes.
bool fits(const std::vector<Wanted> &pieces, const std::vector<uint64_t> &starts) {
    for (size_t a = 0; a < pieces.size(); ++a) {
        if (starts[a] % pieces[a].alignment != 0)
            return false;
        for (size_t b = 0; b < a; ++b) {
            const bool told = overlap(pieces[a].start, pieces[a].end, pieces[b].start, pieces[b].end);
            if (told != overlap(starts[a], starts[a] + pieces[a].size, starts[b], starts[b] + pieces[b].size))
                return false;
        }
    }
    return true;
}

// Moves the starts and ends of pieces apart, in their order and no further than needed.
std::vector<uint64_t> moved_apart(const std::vector<Wanted> &pieces) {
    struct Point {
        uint64_t alignment = 1;
        std::vector<size_t> ending;
    };
    std::map<uint64_t, Point> points;
    for (size_t k = 0; k < pieces.size(); ++k) {
        Point &start = points[pieces[k].start];
        start.alignment = std::max(start.alignment, pieces[k].alignment);
        points[pieces[k].end].ending.push_back(k);
    }
    std::map<uint64_t, uint64_t> to;
    uint64_t place = 0;
    for (const auto &[from, point] : points) {
        for (const size_t k : point.ending)
            place = std::max(place, to.at(pieces[k].start) + pieces[k].size);
        place = rounded(place, point.alignment);
        to[from] = place;
    }
    std::vector<uint64_t> starts;
    for (const Wanted &piece : pieces)
        starts.push_back(to.at(piece.start));
    return starts;
}

} // namespace

Places places_of(const std::vector<Wanted> &pieces) {
    std::vector<uint64_t> told;
    for (const Wanted &piece : pieces)
        told.push_back(piece.start);
    if (fits(pieces, told))
        return {Placing::as_told, told};
    auto apart = moved_apart(pieces);
    if (fits(pieces, apart))
        return {Placing::spread, std::move(apart)};
    return {Placing::separate, std::vector<uint64_t>(pieces.size(), 0)};
}

} // namespace replay
