// Whole builds of the matrices of cases.h by two libraries, an earlier one and this tree's, in turns. Prints the least processor time of each and the
// ratio new/old, how many numbers the workspace must have and the bytes that are lent with it and the output. Ends with 1 where the answers differ.
#define _GNU_SOURCE
#include "turns.h"
#include <stdio.h>

// The earlier library's flipcut_build, as bench/build.sh renames it.
extern Operation earlier_build;

static size_t earlier(uint8_t *out) { return build_with(earlier_build, out); }

enum { OLD, NEW };
static Build *const builds[] = {earlier, operation};

static size_t lent(size_t needed) { return sizeof *ws * needed + (size_t)(20 + 16 * (taxa - 1) + 22 * columns); }

int main(void) {
    double all[2] = {0, 0};
    for (int k = 0; k < ALL_CASES; k++) {
        double least[2];
        make_case(k, N, M);
        if (!take_turns(builds, least)) {
            printf("%s %s: the answers DIFFER\n", kind_name(k), weight_name(k));
            return 1;
        }
        for (int which = OLD; which <= NEW; which++) all[which] += least[which];
        size_t before = workspace_needed(earlier_build), needed = workspace_needed(flipcut_build);
        printf("%-9s %-6s old %.4f s  new %.4f s  ratio %.2f  workspace old %5zu new %5zu numbers  lent old %5zu new %5zu bytes\n", kind_name(k),
               weight_name(k), least[OLD], least[NEW], least[NEW] / least[OLD], before, needed, lent(before), lent(needed));
        fflush(stdout);
    }
    printf("all: old %.3f s  new %.3f s  ratio %.2f\n", all[OLD], all[NEW], all[NEW] / all[OLD]);
    return 0;
}
