// A whole build, whatever divides its groups: the flips, the parts, the tree and its answer file. C and C++.
#ifndef WALK_H
#define WALK_H

#include "cases.h"

// What divides a group answers: the cost, the side of the group's lowest taxon, and the lowest taxon of the other side.
typedef struct {
    uint32_t cost;
    uint64_t side;
    unsigned other;
} Split;

// It reads the columns from `weights`, and from `ones` and `zeros`, where the flips of the groups before are done.
typedef Split Divide(uint64_t group);
static uint64_t ones[M], zeros[M];

// The tree: the groups as they are walked.
static struct Group {
    uint64_t members;
    uint32_t cost;
} groups[N];
static unsigned found;

static inline unsigned low(uint64_t x) { return (unsigned)__builtin_ctzll(x); }
static inline unsigned size_of(uint64_t x) { return (unsigned)__builtin_popcountll(x); }
static inline uint64_t single(unsigned i) { return 1ull << i; }
static inline uint64_t rest(uint64_t x) { return x & (x - 1); }

// The flips that side A and side B of a group need.
static inline void flip(uint64_t A, uint64_t B) {
    for (int c = 0; c < columns; c++) {
        uint64_t known_zeros = zeros[c] & (A | B);
        unsigned a = size_of(ones[c] & A), b = size_of(ones[c] & B), z = size_of(known_zeros);
        if (!z || !a || !b) continue;
        uint64_t change = z <= (a < b ? a : b) ? known_zeros : ones[c] & (a <= b ? A : B);
        ones[c] ^= change;
        zeros[c] ^= change;
    }
}

// The part of the group that holds its taxa `part`: whatever columns with a zero in the group join.
static inline uint64_t whole_part(uint64_t part, uint64_t group) {
    for (uint64_t before = 0; part != before;) {
        before = part;
        for (int c = 0; c < columns; c++)
            if (zeros[c] & group && ones[c] & part) part |= ones[c] & group;
    }
    return part;
}

static inline void grow(uint64_t group, Divide *divide) {
    if (!rest(group)) return;
    Split split = divide(group);
    groups[found].members = group;
    groups[found++].cost = split.cost;
    flip(split.side, group & ~split.side);
    uint64_t parts[N];
    int count = 0;
    for (uint64_t left = group; left; left &= ~parts[count++]) parts[count] = whole_part(left & ~rest(left), group);
    for (int i = 0; i < count; i++) grow(parts[i], divide);
}

static inline int stands_before(struct Group x, struct Group y) {
    return low(x.members) != low(y.members) ? low(x.members) < low(y.members) : size_of(x.members) > size_of(y.members);
}

// Sorts the groups as a file has them, and sums their costs.
static inline uint32_t sort_groups(void) {
    uint32_t total = 0;
    for (unsigned i = 0; i < found; i++) {
        struct Group next = groups[i];
        unsigned at = i;
        for (; at > 0 && stands_before(next, groups[at - 1]); at--) groups[at] = groups[at - 1];
        groups[at] = next;
        total += next.cost;
    }
    return total;
}

// The answer file; what the matrix held before stands in ones0. Returns its length.
static inline size_t write_answer(uint8_t *to) {
    uint32_t total = sort_groups();
    unsigned flipped = 0;
    for (int c = 0; c < columns; c++) flipped += ones[c] != ones0[c];
    uint8_t *at = number(number(number(head(to, 12, 17), (unsigned)taxa, 2), (unsigned)columns, 2), found, 2);
    at = number(number(at, flipped, 2), total, 4);
    for (unsigned i = 0; i < found; i++) at = number(number(head(at, 12, 18), groups[i].members, 8), groups[i].cost, 4);
    for (int c = 0; c < columns; c++)
        if (ones[c] != ones0[c])
            at = number(number(number(head(at, 18, 19), (unsigned)c, 2), ones[c] & ~ones0[c], 8), ones0[c] & ~ones[c], 8);
    return (size_t)(head(at, 0, 20) - to);
}

// The case's build: the length of the answer file written.
static inline size_t build_by(Divide *divide, uint8_t *to) {
    memcpy(ones, ones0, sizeof ones);
    memcpy(zeros, zeros0, sizeof zeros);
    found = 0;
    grow(~0ull >> (64 - taxa), divide);
    return write_answer(to);
}

#endif
