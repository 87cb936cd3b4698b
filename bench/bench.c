// Whole trees of the matrices of cases.h: the search of each group (processor time), by plain C and, if linked, by crate `search`.
#define _GNU_SOURCE
#include "plain.h"
#include <stdio.h>

static Split plain_search(uint64_t group) { return plain(weights, ones, zeros, group, columns, ws); }

#ifdef RATTLE
// Writes cost, side and t to out; each slice is a pointer and a length, each array a pointer. The planes are those of multiplicities that are all 1.
static const uint64_t planes[72] = {[8 ... 71] = 1};
extern void search_group(const uint16_t *w, uint64_t, const uint64_t *planes, const uint64_t *ones, uint64_t, const uint64_t *zeros, uint64_t, uint64_t group,
                         uint64_t n, uint64_t m, int32_t *ws, uint64_t, uint32_t *paths, uint64_t *out, uint64_t);

// Of the crate's lists the one that tells a search how the last path went: it stands from group to group.
static uint32_t paths[256];

static Split search(uint64_t group) {
    uint64_t out[3];
    search_group(weights, M, planes, ones, M, zeros, M, group, N, M, ws, N * M, paths, out, 3);
    return (Split){(uint32_t)out[0], out[1], (unsigned)out[2]};
}
static Divide *const methods[] = {plain_search, search};
#else
static Divide *const methods[] = {plain_search};
#endif

enum { METHODS = sizeof methods / sizeof *methods };
static int method;
static double spent[METHODS];
static uint64_t sums[METHODS];  // of all that the searches answered

static Split divide(uint64_t group) {
    double at = now();
    Split s = methods[method](group);
    spent[method] += now() - at;
    sums[method] = sums[method] * 1000003 + s.cost + 31 * s.side + s.other;
    return s;
}

int main(void) {
    static uint8_t out[OUT_LENGTH];
    for (int k = 0; k < CASES; k++) {
        make_case(k, N, M);
        for (method = 0; method < METHODS; method++) {
            spent[method] = 0;
            sums[method] = 0;
            build_by(divide, out);
        }
        printf("%-9s %-6s %2u splits  plain C %.4f s", kind_name(k), weight_name(k), found, spent[0]);
#ifdef RATTLE
        printf("  search %.4f s  ratio %.2f%s", spent[1], spent[1] / spent[0], sums[0] == sums[1] ? "" : "  DIFFERENT");
#endif
        printf("\n");
        fflush(stdout);
    }
    return 0;
}
