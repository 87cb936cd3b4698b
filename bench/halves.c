// The operations "tree" and "flips", which are a build in two halves, and "build", in turns over the matrices of cases.h (processor time). Prints the least
// time of each and the ratios to the build's: of the tree, of the flips, of both. Ends with 1 where the halves do not give the build's answer.
#define _GNU_SOURCE
#include "turns.h"
#include <stdio.h>

enum { TREE, FLIPS, BUILD, OPERATIONS };
static uint8_t tree[FLIPCUT_MOST_TREE], written[2][OUT_LENGTH];
static size_t tree_length, length[2];  // 0 for a refusal

static void tree_alone(void) { tree_length = flipcut_written(flipcut_tree(file, file_length, ws, N * M, tree, sizeof tree)); }
static void flips_of_tree(void) {
    length[0] = flipcut_written(flipcut_flips(file, file_length, tree, tree_length, ws, N * M, written[0], OUT_LENGTH));
}
static void whole_build(void) { length[1] = operation(written[1]); }
static void (*const operations[OPERATIONS])(void) = {tree_alone, flips_of_tree, whole_build};

// The least time of each; false where the answers differ. The flips are those of the tree of the same turn.
static int time_all(double least[OPERATIONS]) {
    double spent = 0;
    for (int i = 0; i < TURNS || spent < LEAST_TIME; i++) {
        for (int which = TREE; which <= BUILD; which++) {
            double at = now();
            operations[which]();
            double time = now() - at;
            if (i == 0 || time < least[which]) least[which] = time;
            spent += time;
        }
        if (length[0] == 0 || length[0] != length[1] || memcmp(written[0], written[1], length[0]) != 0) return 0;
    }
    return 1;
}

static void print_times(const double spent[OPERATIONS]) {
    double whole = spent[BUILD];
    printf("tree %.4f s  flips %.4f s  build %.4f s  to build: tree %.2f flips %.2f both %.2f\n", spent[TREE], spent[FLIPS], whole,
           spent[TREE] / whole, spent[FLIPS] / whole, (spent[TREE] + spent[FLIPS]) / whole);
    fflush(stdout);
}

int main(void) {
    double all[OPERATIONS] = {0};
    for (int k = 0; k < ALL_CASES; k++) {
        double spent[OPERATIONS];
        make_case(k, N, M);
        if (!time_all(spent)) {
            printf("%s %s: the answers DIFFER\n", kind_name(k), weight_name(k));
            return 1;
        }
        for (int which = TREE; which <= BUILD; which++) all[which] += spent[which];
        printf("%-9s %-6s %2zu groups  ", kind_name(k), weight_name(k), (tree_length - 20) / 16);
        print_times(spent);
    }
    printf("all: ");
    print_times(all);
    return 0;
}
