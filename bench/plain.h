// The method of crate `search` as plain C, for comparison: the same flows, hops, order and stops, and the same places in the workspace.
#ifndef PLAIN_H
#define PLAIN_H

#include "walk.h"

// A group's network as the crate lends it: what each column joins, what it lets through, what of that is in use.
static uint64_t joined[M];
static uint32_t limits[M], used[M];

// Where each column's places in the workspace start, and how many all take.
static uint16_t offsets[M + 1];

// How each taxon was reached: from which, through which column, at which turn, and the least that a hop of the way carries.
static struct {
    uint32_t from, via, turn, width;
} tree[N];

// The weights, and a flow: what taxon i sends through column c, less what it takes, is *at(f, c, i).
typedef struct {
    const uint16_t *weights;
    int m;
    int32_t *ws;
} Flow;

static inline int32_t *at(Flow f, unsigned c, unsigned i) { return f.ws + offsets[c] + size_of(joined[c] & (single(i) - 1)); }

// The size of a flow, and the taxa reached from its sources.
typedef struct {
    uint32_t size;
    uint64_t side;
} Cut;

static const uint32_t UNBOUNDED = ~0u;
enum { NOBODY = 64 };

static uint32_t least(uint32_t x, uint32_t y) { return x < y ? x : y; }
static uint32_t most(uint32_t x, uint32_t y) { return x < y ? y : x; }
static uint32_t above(int32_t f) { return f > 0 ? (uint32_t)f : 0; }

static void network_of(Flow f, const uint64_t *ones, const uint64_t *zeros, uint64_t group) {
    for (int c = 0; c < f.m; c++) {
        uint32_t z = size_of(zeros[c] & group);
        joined[c] = z ? ones[c] & group : 0;
        limits[c] = f.weights[c] * z;
    }
    uint16_t sum = 0;
    for (int c = 0; c < f.m; c++) {
        offsets[c] = sum;
        sum = (uint16_t)(sum + size_of(joined[c]));
    }
    offsets[f.m] = sum;
}

// Of the taxa of x, one whose hop through column c leads wherever a hop of any of them leads.
static unsigned sender(Flow f, unsigned c, uint64_t x) {
    unsigned found = NOBODY;
    for (; x; x = rest(x)) {
        unsigned i = low(x);
        int32_t sent = *at(f, c, i);
        if (sent == f.weights[c]) continue;
        if (sent < 0 || used[c] < limits[c]) return i;
        found = i;
    }
    return found;
}

// The taxa that a hop from i through column c reaches join.
static uint64_t through(Flow f, uint64_t met, unsigned i, unsigned c) {
    int32_t w = f.weights[c], from = *at(f, c, i);
    uint32_t sends = least((uint32_t)(w - from), tree[i].width), room = most(above(-from), limits[c] - used[c]), turn = tree[i].turn + 1;
    uint64_t all = met;
    for (uint64_t left = joined[c] & ~met; left; left = rest(left)) {
        unsigned j = low(left);
        int32_t to = *at(f, c, j);
        uint32_t carries = least(least(sends, (uint32_t)(w + to)), most(room, above(to)));
        if (!carries) continue;
        tree[j].from = i;
        tree[j].via = c;
        tree[j].turn = turn;
        tree[j].width = carries;
        all |= single(j);
    }
    return all;
}

static uint64_t pass(Flow f, uint64_t met, unsigned c) {
    if (!(joined[c] & ~met) || !(joined[c] & met)) return met;
    unsigned i = sender(f, c, joined[c] & met);
    return i == NOBODY ? met : through(f, met, i, c);
}

static uint64_t sweep(Flow f, uint64_t met, uint64_t goal, unsigned first) {
    for (unsigned c = first; c < (unsigned)f.m && !(goal & met); c++) met = pass(f, met, c);
    return met;
}

static void plant(uint64_t sources) {
    for (; sources; sources = rest(sources)) {
        tree[low(sources)].turn = 0;
        tree[low(sources)].width = ~0u;
    }
}

// The taxa that hops reach from the sources; some of them, once one of the goal is among them.
static uint64_t reach(Flow f, uint64_t sources, uint64_t goal, unsigned first) {
    plant(sources);
    uint64_t met = 0, next = sweep(f, sources, goal, first);
    while (met < next) {
        met = next;
        next = sweep(f, met, goal, 0);
    }
    return met;
}

// d more from taxon i to taxon j through column c.
static void step(Flow f, unsigned c, unsigned i, unsigned j, uint32_t d) {
    int32_t *from = at(f, c, i), *to = at(f, c, j);
    uint32_t before = above(*from) + above(*to);
    *from += (int32_t)d;
    *to -= (int32_t)d;
    used[c] += above(*from) + above(*to) - before;
}

// If hops reach t, what the path to it carries is pushed along it. The first sweep starts where the last path came to t.
static Cut advance(Flow f, uint64_t sources, unsigned t, uint32_t size) {
    uint64_t met = reach(f, sources, single(t), tree[t].via);
    if (!(met & single(t))) return (Cut){size, met};
    uint32_t d = tree[t].width;
    for (unsigned j = t; tree[j].turn; j = tree[j].from) step(f, tree[j].via, tree[j].from, j, d);
    return (Cut){size + d, met};
}

static void clear(Flow f) {
    memset(f.ws, 0, sizeof *f.ws * offsets[f.m]);
    memset(used, 0, sizeof *used * (size_t)f.m);
}

// One hop from a source to t through each column that joins both; nothing runs yet, so it carries the column's weight.
static uint32_t direct_hops(Flow f, uint64_t sources, unsigned t) {
    uint32_t size = 0;
    for (int c = 0; c < f.m; c++) {
        uint64_t here = joined[c] & sources;
        if (!here || !(joined[c] & single(t))) continue;
        step(f, (unsigned)c, low(here), t, f.weights[c]);
        size += f.weights[c];
    }
    return size;
}

// A largest flow from the sources to t, or one that is no smaller than the bound.
static Cut largest(Flow f, uint64_t sources, unsigned t, uint32_t bound) {
    clear(f);
    Cut cut = {direct_hops(f, sources, t), single(t)};
    while (cut.side & single(t) && cut.size < bound) cut = advance(f, sources, t, cut.size);
    return cut;
}

// What ties each taxon to the lower ones: the weight of the columns that join it and that it is not the lowest of; and the weight of those that it is.
static uint32_t ties[N], own[N];

static void ties_of(Flow f) {
    memset(ties, 0, sizeof ties);
    memset(own, 0, sizeof own);
    for (int c = 0; c < f.m; c++) {
        if (!joined[c]) continue;
        own[low(joined[c])] += f.weights[c];
        for (uint64_t x = rest(joined[c]); x; x = rest(x)) ties[low(x)] += f.weights[c];
    }
}

// To part some taxon of the group but its lowest alone costs less than this.
static uint32_t bound_of(uint64_t group) {
    uint32_t bound = UNBOUNDED;
    for (uint64_t left = rest(group); left; left = rest(left)) bound = least(bound, ties[low(left)] + own[low(left)] + 1);
    return bound;
}

// The first taxon of the group that is parted from its lowest for the least. Of a taxon u, only what parts it from all below it can cost less than
// what was found for those: a flow from all of them decides, and where columns tie u to them for no less, none is needed.
static unsigned cheapest(Flow f, uint64_t group) {
    ties_of(f);
    uint32_t cost = bound_of(group);
    unsigned other = NOBODY;
    for (uint64_t left = rest(group); left; left = rest(left)) {
        unsigned u = low(left);
        if (cost <= ties[u]) continue;
        uint32_t size = largest(f, group & (single(u) - 1), u, cost).size;
        if (cost <= size) continue;
        cost = size;
        other = u;
    }
    return other;
}

static Split plain(const uint16_t *weights, const uint64_t *ones, const uint64_t *zeros, uint64_t group, int m, int32_t *ws) {
    Flow f = {weights, m, ws};
    unsigned s = low(group);
    network_of(f, ones, zeros, group);
    clear(f);
    // No path came before: the first sweep is left out, and whole ones do.
    uint64_t met = reach(f, single(s), 0, (unsigned)m);
    if (met != group) return (Split){0, met, low(group & ~met)};
    unsigned t = cheapest(f, group);
    Cut cut = largest(f, single(s), t, UNBOUNDED);
    return (Split){cut.size, cut.side, t};
}

#endif
