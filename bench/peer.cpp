// Whole builds (processor time) by the operation "build" and by FlipCut on LEMON's Preflow, a library of largest flows that a user could pick instead.
//   peer          the matrices of cases.h, 64 taxa and 256 columns: both times and the ratio build/LEMON; then the median and the largest ratio
//   peer growth   random and interval matrices of rising sizes: both times, and the factor to the size before
// LEMON's build reads the columns as lists: reading and checking a file is the operation's burden alone. Ends with 1 where the answers differ.
#include "turns.h"
#include "walk.h"
#include <algorithm>
#include <cstdio>
#include <lemon/preflow.h>
#include <lemon/smart_graph.h>
#include <vector>

using Graph = lemon::SmartDigraph;
using Node = Graph::Node;
using Limits = Graph::ArcMap<int>;
using Preflow = lemon::Preflow<Graph, Limits>;

// A group's network: a node for each taxon, and two for each column that can join taxa, with an arc between them.
struct Network {
    Graph graph;
    Limits limits{graph};
    Node taxon[N];

    explicit Network(uint64_t group) {
        for (uint64_t left = group; left; left = rest(left)) taxon[low(left)] = graph.addNode();
        for (int c = 0; c < columns; c++) {
            uint64_t joined = ones[c] & group;
            int z = (int)size_of(zeros[c] & group);
            if (z && rest(joined)) join(joined, weights[c], z);
        }
    }

    void arc(Node from, Node to, int limit) { limits[graph.addArc(from, to)] = limit; }

    void join(uint64_t joined, int weight, int z) {
        Node in = graph.addNode(), out = graph.addNode();
        arc(in, out, weight * z);
        for (; joined; joined = rest(joined)) {
            arc(taxon[low(joined)], in, weight);
            arc(out, taxon[low(joined)], weight);
        }
    }
};

// The nodes that are reached from one node past the flow.
class Reached {
    const Network &network;
    const Preflow &flow;
    Graph::NodeMap<bool> met;
    std::vector<Node> waiting;

    void meet(Node node) {
        if (met[node]) return;
        met[node] = true;
        waiting.push_back(node);
    }

    void expand(Node node) {
        const Graph &graph = network.graph;
        for (Graph::OutArcIt a(graph, node); a != lemon::INVALID; ++a)
            if (flow.flow(a) < network.limits[a]) meet(graph.target(a));
        for (Graph::InArcIt a(graph, node); a != lemon::INVALID; ++a)
            if (flow.flow(a) > 0) meet(graph.source(a));
    }

public:
    Reached(const Network &network, const Preflow &flow, Node start) : network(network), flow(flow), met(network.graph, false) {
        meet(start);
        while (!waiting.empty()) {
            Node node = waiting.back();
            waiting.pop_back();
            expand(node);
        }
    }

    uint64_t of(uint64_t group) const {
        uint64_t side = 0;
        for (uint64_t left = group; left; left = rest(left))
            if (met[network.taxon[low(left)]]) side |= single(low(left));
        return side;
    }
};

// A flow from the group's lowest taxon to each other one; the first least is run to its end, and what is reached past it is the smallest side.
static Split divide(uint64_t group) {
    uint64_t joined = whole_part(group & ~rest(group), group);
    if (joined != group) return {0, joined, low(group & ~joined)};
    Network network(group);
    Node s = network.taxon[low(group)];
    Preflow flow(network.graph, network.limits, s, s);
    unsigned best = 0;
    int cost = -1;
    for (uint64_t left = rest(group); left; left = rest(left)) {
        flow.target(network.taxon[low(left)]).runMinCut();
        if (cost >= 0 && cost <= flow.flowValue()) continue;
        cost = flow.flowValue();
        best = low(left);
    }
    flow.target(network.taxon[best]).run();
    return {(uint32_t)cost, Reached(network, flow, s).of(group), best};
}

static size_t lemon_build(uint8_t *out) { return build_by(divide, out); }

enum { LEMON, OURS };
static Build *const builds[] = {lemon_build, operation};

// The least times of case k with n taxa and m columns; false, and said so, where the answers differ.
static bool measure(int k, int n, int m, double least[2]) {
    make_case(k, n, m);
    bool same = take_turns(builds, least);
    if (!same) std::printf("%s %s, %d taxa, %d columns: the answers DIFFER\n", kind_name(k), weight_name(k), n, m);
    return same;
}

static int kinds() {
    std::vector<double> ratios;
    for (int k = 0; k < CASES; k++) {
        double least[2];
        if (!measure(k, N, M, least)) return 1;
        ratios.push_back(least[OURS] / least[LEMON]);
        std::printf("%-9s %-6s %2u groups  LEMON %8.2f ms  build %8.2f ms  ratio %.3f\n", kind_name(k), weight_name(k), found, 1e3 * least[LEMON],
                    1e3 * least[OURS], ratios.back());
        std::fflush(stdout);
    }
    std::sort(ratios.begin(), ratios.end());
    std::printf("ratio: median %.3f, largest %.3f\n", (ratios[CASES / 2 - 1] + ratios[CASES / 2]) / 2, ratios.back());
    return 0;
}

struct Size {
    int n, m;
};

// Case k at each size.
static bool series(int k, const std::vector<Size> &sizes) {
    double before[2] = {0, 0}, least[2];
    for (Size size : sizes) {
        if (!measure(k, size.n, size.m, least)) return false;
        std::printf("%-9s %-6s n %2d m %3d  LEMON %8.2f ms  build %8.2f ms", kind_name(k), weight_name(k), size.n, size.m, 1e3 * least[LEMON],
                    1e3 * least[OURS]);
        if (before[LEMON] > 0) std::printf("  LEMON x %.2f  build x %.2f", least[LEMON] / before[LEMON], least[OURS] / before[OURS]);
        std::printf("\n");
        std::fflush(stdout);
        std::copy(least, least + 2, before);
    }
    return true;
}

static int growth() {
    for (int kind : {RANDOM, INTERVAL})
        for (int k : {2 * kind, 2 * kind + 1})
            if (!series(k, {{16, M}, {32, M}, {64, M}}) || !series(k, {{N, 64}, {N, 128}, {N, 256}})) return 1;
    return 0;
}

int main(int count, char **words) {
    if (count == 1) return kinds();
    if (count == 2 && strcmp(words[1], "growth") == 0) return growth();
    return 2;
}
