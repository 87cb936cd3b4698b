// Whole builds of the matrices of cases.h (processor time): plain C of the same method, and the operation "build". Prints both times,
// their ratio, how many numbers the workspace of the operation must have, and the stack that it used, found by painting it. Ends with 1 where the
// answers differ.
#define _GNU_SOURCE
#include "plain.h"
#include "turns.h"
#include <stdio.h>

static Split divide(uint64_t group) { return plain(weights, ones, zeros, group, columns, ws); }
static size_t plain_build(uint8_t *out) { return build_by(divide, out); }

enum { PLAIN, OURS };
static Build *const builds[] = {plain_build, operation};

static void operation_alone(void) {
    static uint8_t out[OUT_LENGTH];
    operation(out);
}

int main(void) {
    double all[2] = {0, 0};
    size_t deepest = 0;
    for (int k = 0; k < ALL_CASES; k++) {
        double spent[2];
        make_case(k, N, M);
        if (!take_turns(builds, spent)) {
            printf("%s %s: the answers DIFFER\n", kind_name(k), weight_name(k));
            return 1;
        }
        size_t used_stack = stack_used(operation_alone);
        deepest = used_stack > deepest ? used_stack : deepest;
        for (int which = PLAIN; which <= OURS; which++) all[which] += spent[which];
        printf("%-9s %-6s %2u groups  plain C %.4f s  build %.4f s  ratio %.2f  workspace %5zu numbers  stack %zu bytes\n", kind_name(k), weight_name(k), found,
               spent[PLAIN], spent[OURS], spent[OURS] / spent[PLAIN], workspace_needed(flipcut_build), used_stack);
        fflush(stdout);
    }
    printf("all: plain C %.3f s  build %.3f s  ratio %.2f  stack at most %zu bytes\n", all[PLAIN], all[OURS], all[OURS] / all[PLAIN], deepest);
    return 0;
}
