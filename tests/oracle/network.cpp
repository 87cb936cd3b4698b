#include "network.h"

#include <algorithm>
#include <limits>

namespace oracle {

namespace {
constexpr std::size_t unreached = std::numeric_limits<std::size_t>::max();
}

void Network::add_arc(std::size_t from, std::size_t to, std::uint64_t capacity) {
    arcs_[from].push_back({to, arcs_[to].size(), capacity, capacity});
    arcs_[to].push_back({from, arcs_[from].size() - 1, 0, 0});
}

// In steps along arcs with capacity left.
std::vector<std::size_t> Network::distances_from(std::size_t source) const {
    std::vector<std::size_t> distance(arcs_.size(), unreached);
    std::vector<std::size_t> order{source};
    distance[source] = 0;
    for (std::size_t k = 0; k < order.size(); ++k)
        for (const Arc& arc : arcs_[order[k]]) {
            if (arc.left == 0 || distance[arc.to] != unreached) continue;
            distance[arc.to] = distance[order[k]] + 1;
            order.push_back(arc.to);
        }
    return distance;
}

// Pushes up to `most` units on towards the sink, one step further away from the source each time.
std::uint64_t Network::push(std::size_t at, std::size_t sink, std::uint64_t most,
                            const std::vector<std::size_t>& distance, std::vector<std::size_t>& next) {
    if (at == sink) return most;
    std::uint64_t sent = 0;
    for (; next[at] < arcs_[at].size(); ++next[at]) {
        Arc& arc = arcs_[at][next[at]];
        if (arc.left == 0 || distance[arc.to] != distance[at] + 1) continue;
        const std::uint64_t passed = push(arc.to, sink, std::min(most - sent, arc.left), distance, next);
        arc.left -= passed;
        arcs_[arc.to][arc.back].left += passed;
        sent += passed;
        if (sent == most) break;
    }
    return sent;
}

std::uint64_t Network::largest_flow(std::size_t source, std::size_t sink) {
    for (std::vector<Arc>& arcs : arcs_)
        for (Arc& arc : arcs) arc.left = arc.capacity;
    std::uint64_t flow = 0;
    for (;;) {
        const std::vector<std::size_t> distance = distances_from(source);
        if (distance[sink] == unreached) return flow;
        std::vector<std::size_t> next(arcs_.size(), 0);
        flow += push(source, sink, std::numeric_limits<std::uint64_t>::max(), distance, next);
    }
}

std::vector<bool> Network::reached_from(std::size_t source) const {
    std::vector<bool> reached;
    for (std::size_t distance : distances_from(source)) reached.push_back(distance != unreached);
    return reached;
}

}  // namespace oracle
