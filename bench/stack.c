// The most stack that the operations use over the matrices of cases.h, the heavy ones with multiplicities too, a split's group being all taxa, and over
// source trees as deep as may be, of as many names and as long ones as may be.
// Build and split are measured in a library where both call the search's `divide`, and in one that has no other operation: there the compiler puts it into
// its only caller. Tree and flips are measured in the first.
// Ends with 1 where one uses more than document 02's C-16 allows a build and a split, or include/flipcut.h any other.
//   stack FOLDER   also writes the matrices there, as files
#define _GNU_SOURCE
#include "cases.h"
#include "../include/flipcut.h"
#include <stdio.h>

// bytes
enum {
    MOST_FOR_BUILD = 40960,
    MOST_FOR_TREE = 40960,
    MOST_FOR_FLIPS = 40960,
    MOST_FOR_SPLIT = 12288,
    MOST_FOR_READ = 12288,
    MOST_FOR_WRITE = 12288,
    MOST_FOR_SCORE = 4096,
    MOST_FOR_CHECK = 1024,
    MOST_FOR_READ_NEWICK = 12288,
    MOST_FOR_WRITE_NEWICK = 16384,
    MOST_FOR_CHECK_NAMES = 1024
};

// What the crates of bench/stack.sh export: the length written, and side A; 0 for a refusal.
uint64_t build_alone(const uint8_t *file, size_t len, int32_t *workspace, size_t workspace_len, uint8_t *out, size_t out_len);
uint64_t split_alone(const uint8_t *file, size_t len, uint64_t group, int32_t *workspace, size_t workspace_len);

static uint8_t out[OUT_LENGTH], again[OUT_LENGTH];
static size_t written;  // the length of the build's answer, in `out`
static uint8_t tree[FLIPCUT_MOST_TREE];
static size_t tree_length;
static uint64_t numbers[FLIPCUT_READ_RESULTS];
static struct flipcut_answer answer;
static struct flipcut_flip flips[M];
static uint64_t divided[FLIPCUT_SPLIT_RESULTS];
static uint8_t matrix[FLIPCUT_MOST_SOURCE_MATRIX], names[FLIPCUT_MOST_NAMES], newick[FLIPCUT_MOST_NEWICK];
static size_t names_length;
static bool taken;  // whether the operation that ran last took what it was given

static void build_of_one(void) {
    written = build_alone(file, file_length, ws, N * M, out, OUT_LENGTH);
    taken = written > 0;
}
static void build_of_two(void) {
    written = flipcut_written(flipcut_build(file, file_length, ws, N * M, out, OUT_LENGTH));
    taken = written > 0;
}
static void tree_alone(void) {
    tree_length = flipcut_written(flipcut_tree(file, file_length, ws, N * M, tree, sizeof tree));
    taken = tree_length > 0;
}
static void flips_of_tree(void) {
    taken = flipcut_written(flipcut_flips(file, file_length, tree, tree_length, ws, N * M, again, OUT_LENGTH)) == written;
}
static void split_of_one(void) { taken = split_alone(file, file_length, ~0ull, ws, N * M) != 0; }
static void split_of_two(void) {
    taken = !flipcut_refused(flipcut_split(file, file_length, ~0ull, ws, N * M, divided));
}
// What is to be written has a call of its own, so that its stack is not under the reading's.
static __attribute__((noinline)) void make_answer(void) { answer = flipcut_answer_of(numbers); }
static void read_back(void) {
    taken = !flipcut_refused(flipcut_read(out, written, flips, M, numbers));
    make_answer();
}
static void write_again(void) {
    taken = flipcut_written(flipcut_write(&answer, flips, M, again, OUT_LENGTH)) == written;
}
static void score(void) { taken = !flipcut_refused(flipcut_score(file, file_length, out, written)); }
static void check(void) { taken = !flipcut_refused(flipcut_check(file, file_length)); }

// Trees of 63 brackets, each in the one before: 248 columns.
enum { TREES = 4 };
static char text[TREES * (FLIPCUT_MOST_NEWICK + 1)];
static void make_text(void) {
    char *at = text;
    for (int tree = 0; tree < TREES; tree++) {
        for (int i = 0; i < N; i++) at += sprintf(at, "%s%02d%030d", i == 0 ? "(" : i < N - 1 ? ",(" : ",", i, 0);
        memset(at, ')', N - 1);
        at[N - 1] = ';';
        at += N;
    }
}
static void read_trees(void) {
    const uint64_t read = flipcut_read_newick((const uint8_t *)text, strlen(text), matrix, sizeof matrix, names, sizeof names);
    names_length = flipcut_names_written(read);
    taken = !flipcut_refused(read);
}
static void check_list(void) { taken = flipcut_names(flipcut_check_names(names, names_length)) == N; }
static void write_tree(void) {
    taken = flipcut_written(flipcut_write_newick(out, written, names, names_length, newick, sizeof newick)) > 0;
}

// In this order, since what is read, written and scored is the build's answer, the flips are those of the tree, and the names are those of the source
// trees.
static struct {
    const char *name;
    void (*run)(void);
    size_t most, used;
} operations[] = {
    {"build, one caller", build_of_one, MOST_FOR_BUILD, 0},
    {"build, two callers", build_of_two, MOST_FOR_BUILD, 0},
    {"tree", tree_alone, MOST_FOR_TREE, 0},
    {"flips", flips_of_tree, MOST_FOR_FLIPS, 0},
    {"read", read_back, MOST_FOR_READ, 0},
    {"write", write_again, MOST_FOR_WRITE, 0},
    {"score", score, MOST_FOR_SCORE, 0},
    {"check", check, MOST_FOR_CHECK, 0},
    {"read newick", read_trees, MOST_FOR_READ_NEWICK, 0},
    {"check names", check_list, MOST_FOR_CHECK_NAMES, 0},
    {"write newick", write_tree, MOST_FOR_WRITE_NEWICK, 0},
    {"split, one caller", split_of_one, MOST_FOR_SPLIT, 0},
    {"split, two callers", split_of_two, MOST_FOR_SPLIT, 0},
};
enum { OPERATIONS = sizeof operations / sizeof *operations };

// The file made last, of case k; bench/stack.sh gives it to the program `outline`.
static int write_file(const char *folder, int k, int merged) {
    char name[4096];
    snprintf(name, sizeof name, "%s/%s-%s%s.matrix", folder, kind_name(k), weight_name(k), merged ? "-merged" : "");
    FILE *f = fopen(name, "wb");
    if (!f) return 0;
    size_t written = fwrite(file, 1, file_length, f);
    return fclose(f) == 0 && written == file_length;
}

// False where an operation refused: then it used less stack than it may need.
static int measure(void) {
    for (int i = 0; i < OPERATIONS; i++) {
        size_t used = stack_used(operations[i].run);
        if (used > operations[i].used) operations[i].used = used;
        if (!taken) return 0;
    }
    return 1;
}

int main(int count, char **words) {
    if (count != 2) return 2;
    make_text();
    for (int k = 0; k < CASES; k++) {
        make_case(k, N, M);
        for (int merged = 0; merged <= is_heavy(k); merged++) {
            if (merged) add_multiplicities();
            if (write_file(words[1], k, merged) && measure()) continue;
            printf("%s %s%s: not written, or refused\n", kind_name(k), weight_name(k), merged ? ", with multiplicities" : "");
            return 1;
        }
    }
    int over = 0;
    for (int i = 0; i < OPERATIONS; i++) {
        int more = operations[i].used > operations[i].most;
        printf("%-18s  %6zu bytes, allowed %zu%s\n", operations[i].name, operations[i].used, operations[i].most, more ? "  TOO MUCH" : "");
        over |= more;
    }
    return over;
}
