// Ten kinds of matrices of up to 64 taxa and 256 columns, and three of a tree of which more or less is known, fixed, as lists and as a matrix file.
// C and C++.
#ifndef CASES_H
#define CASES_H

#include "basics.h"

enum { N = 64, M = 256, MOST_FILE_LENGTH = 12 + 22 * M + 4 + N, OUT_LENGTH = 20 + 16 * (N - 1) + 22 * M };
enum { RANDOM, DENSE, SPARSE, INTERVAL, NESTED, NOISY, UNKNOWN, CLUSTERS, COMBS, PAIRS, KINDS, CASES = 2 * KINDS };
enum { KNOWN_5 = KINDS, KNOWN_20, KNOWN_100, ALL_KINDS, ALL_CASES = 2 * ALL_KINDS };  // so many entries of a hundred are known
static int taxa, columns;  // of the case made last
static uint8_t file[MOST_FILE_LENGTH];
static size_t file_length;
static uint16_t weights[M];
static uint64_t ones0[M], zeros0[M];
static int32_t ws[N * M];
static unsigned leaf[N];  // where each taxon stands among the leaves of the tree: 8, 16 or 32 in a row are a clade

// A case is a kind with light weights, all 1, then with heavy ones, 1 to 65535.
static inline int kind_of(int k) { return k / 2; }
static inline int is_heavy(int k) { return k % 2; }
static inline const char *weight_name(int k) { return is_heavy(k) ? "heavy" : "light"; }
static inline const char *kind_name(int k) {
    static const char *const names[] = {"random", "dense", "sparse", "interval", "nested", "noisy", "unknown", "clusters", "combs", "pairs",
                                        "known5", "known20", "known100"};
    return names[kind_of(k)];
}

// Whether taxon i has a 1 in column c; x is below 100, and a to b are drawn for each column.
static inline int is_one(int kind, unsigned c, unsigned i, uint64_t x, unsigned a, unsigned b) {
    switch (kind) {
    case RANDOM: case UNKNOWN: return x < 50;
    case DENSE: return x < 85;
    case SPARSE: return x < 8;
    case INTERVAL: return (a <= i && i <= b) != (x < 5);
    case NESTED: return i >= c % (unsigned)(taxa - 1);  // the deepest tree
    case NOISY: return (i >= c % (unsigned)(taxa - 1)) != (x < 5);
    case CLUSTERS: return (i / 8 == a / 8) != (x < 10);
    case COMBS: return (i % 2 == a % 2) != (x < 15);
    case PAIRS: return i == a || i == b;
    default: return (leaf[i] >> (3 + b % 3) == leaf[a] >> (3 + b % 3)) != (x < 5);
    }
}

static inline int is_known(int kind, int one) {
    if (kind == NESTED) return 1;
    uint64_t x = rnd() % 100;
    switch (kind) {
    case SPARSE: return x < 40 || one;
    case UNKNOWN: case KNOWN_20: return x < 20;
    case KNOWN_5: return x < 5;
    case KNOWN_100: return 1;
    default: return x < 95;
    }
}

static inline void column(int kind, int c) {
    unsigned n = (unsigned)taxa, a = (unsigned)(rnd() % n), b = (unsigned)(rnd() % n);
    if (a > b) { unsigned x = a; a = b; b = x; }
    ones0[c] = zeros0[c] = 0;
    for (unsigned i = 0; i < n; i++) {
        uint64_t x = rnd() % 100;
        int one = is_one(kind, (unsigned)c, i, x, a, b);
        if (!is_known(kind, one)) continue;
        if (one) ones0[c] |= 1ull << i; else zeros0[c] |= 1ull << i;
    }
}

// A tree of n taxa: they are shuffled.
static inline void shuffle_leaves(unsigned n) {
    for (unsigned i = 0; i < n; i++) {
        unsigned j = (unsigned)(rnd() % (i + 1));
        leaf[i] = leaf[j];
        leaf[j] = i;
    }
}

// Case k with n taxa and m columns into the lists and the file.
static inline void make_case(int k, int n, int m) {
    taxa = n;
    columns = m;
    state = 88172645463325252ull + (uint64_t)kind_of(k);
    if (kind_of(k) >= KINDS) shuffle_leaves((unsigned)n);
    uint8_t *at = number(number(head(file, 4, 1), (unsigned)n, 2), (unsigned)m, 2);
    for (int c = 0; c < m; c++) {
        uint64_t heavy = 1 + rnd() % 65535;  // drawn for light weights too, so that both have the same columns
        weights[c] = (uint16_t)(is_heavy(k) ? heavy : 1);
        column(kind_of(k), c);
        at = number(number(number(head(at, 18, 2), weights[c], 2), ones0[c], 8), zeros0[c], 8);
    }
    file_length = (size_t)(head(at, 0, 3) - file);
}

// Puts multiplicities of 1, 2 and 3 in turn into the file of the case made last: 64 taxa then stand for 127 specimens, the most there may be.
static inline void add_multiplicities(void) {
    uint8_t *at = file + 8;
    memmove(at + 4 + taxa, at, file_length - 8);
    at = head(at, (unsigned)taxa, 5);
    for (int i = 0; i < taxa; i++) *at++ = (uint8_t)(1 + i % 3);
    file_length += 4 + (size_t)taxa;
}

#endif
