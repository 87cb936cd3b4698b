// A flow network with whole-number capacities, and its largest flows by Dinic's method.
#pragma once

#include <cstddef>
#include <cstdint>
#include <vector>

namespace oracle {

class Network {
public:
    explicit Network(std::size_t vertices) : arcs_(vertices) {}

    void add_arc(std::size_t from, std::size_t to, std::uint64_t capacity);

    // The size of the largest flow, found from an empty network; the flow stays in the network.
    std::uint64_t largest_flow(std::size_t source, std::size_t sink);

    // Which vertices a path with capacity left leads to. After largest_flow this is the smallest
    // source side of a least cut.
    std::vector<bool> reached_from(std::size_t source) const;

private:
    struct Arc {
        std::size_t to;
        std::size_t back;  // the index of the opposite arc among those of `to`
        std::uint64_t capacity;
        std::uint64_t left;
    };

    std::vector<std::size_t> distances_from(std::size_t source) const;
    std::uint64_t push(std::size_t at, std::size_t sink, std::uint64_t most, const std::vector<std::size_t>& distance,
                       std::vector<std::size_t>& next);

    std::vector<std::vector<Arc>> arcs_;
};

}  // namespace oracle
