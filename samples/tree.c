/* Makes the tree of a matrix file, as the workbench does. It prints what the program `outline` prints,
 * the tree or `refused N at P`, and after a tree `raises R lowers L score S`, its score against the
 * matrix. Ends with 0, with 1 where the file is refused or what it prints is lost, 2 where the file
 * cannot be read. */
#include "file.h"
#include "flipcut.h"

/* As long as any matrix can need, so that no length has to be worked out; static, since not every stack
 * has 83 KiB. */
static uint8_t matrix[FLIPCUT_MOST_MATRIX + 1], answer[FLIPCUT_MOST_ANSWER];
static int32_t workspace[FLIPCUT_MOST_WORKSPACE];
static uint64_t tree[FLIPCUT_READ_RESULTS];
static struct flipcut_flip flips[FLIPCUT_MOST_COLUMNS];

/* A set of taxa is printed as a hexadecimal number in which taxon i is worth 2 to the i. */
static void print_tree(void) {
    printf("taxa %" PRIu64 " columns %" PRIu64 " total %" PRIu64 "\n", tree[FLIPCUT_N], tree[FLIPCUT_M],
           tree[FLIPCUT_TOTAL]);
    for (size_t k = 0; k < tree[FLIPCUT_GROUPS]; ++k)
        printf("group %" PRIx64 " cost %" PRIu64 "\n", tree[FLIPCUT_TAXA + k], tree[FLIPCUT_COSTS + k]);
    for (size_t k = 0; k < tree[FLIPCUT_FLIPS]; ++k)
        printf("flip %u raise %" PRIx64 " lower %" PRIx64 "\n", flips[k].column, flips[k].raised, flips[k].lowered);
}

static int build_and_score(size_t matrix_len) {
    uint64_t built =
        flipcut_build(matrix, matrix_len, workspace, FLIPCUT_MOST_WORKSPACE, answer, FLIPCUT_MOST_ANSWER);
    if (refused(built)) return 1;
    /* An answer file, to be kept or not. One that the build wrote is never refused; one from elsewhere may be. */
    size_t answer_len = flipcut_written(built);
    if (refused(flipcut_read(answer, answer_len, flips, FLIPCUT_MOST_COLUMNS, tree))) return 1;
    print_tree();
    return tell_score(flipcut_score(matrix, matrix_len, answer, answer_len));
}

int main(int argc, char **argv) {
    if (argc != 2) {
        fprintf(stderr, "usage: tree MATRIX-FILE\n");
        return 2;
    }
    size_t matrix_len = 0;
    if (!read_file(argv[1], matrix, sizeof matrix, &matrix_len)) return 2;
    return ended(build_and_score(matrix_len));
}
