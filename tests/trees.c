/* Says what the library makes of source trees, for tests/dendropy: reads a text, builds its tree and writes that as Newick, through
 * the header as any C program would. Texts come on standard input, each after its length (4 bytes, the lowest first). For each it
 * prints `refused N at P`, or a line for each name, column (ones and zeros), group and the tree; then a line `end`. */
#include "flipcut.h"

#include <inttypes.h>
#include <stdio.h>

static uint8_t text[1 << 20], matrix[FLIPCUT_MOST_SOURCE_MATRIX], names[FLIPCUT_MOST_NAMES], answer[FLIPCUT_MOST_ANSWER];
static uint8_t newick[FLIPCUT_MOST_NEWICK];
static int32_t workspace[FLIPCUT_MOST_WORKSPACE];
static uint64_t tree[FLIPCUT_READ_RESULTS];
static struct flipcut_flip flips[FLIPCUT_MOST_COLUMNS];

static uint64_t number_at(const uint8_t *at, int width) {
    uint64_t number = 0;
    while (width-- > 0) number = number << 8 | at[width];
    return number;
}

/* Whether a call succeeded; says so where it did not. */
static bool taken(uint64_t packed) {
    if (flipcut_refused(packed)) printf("refused %u at %" PRIu64 "\n", flipcut_number(packed), flipcut_place(packed));
    return !flipcut_refused(packed);
}

static void print_source(size_t matrix_len, size_t names_len) {
    for (size_t at = 0; at + 4 < names_len; at += 4 + number_at(names + at, 2))
        printf("name %.*s\n", (int)number_at(names + at, 2), (const char *)names + at + 4);
    for (size_t at = 8; at + 4 < matrix_len; at += 22)
        printf("column %" PRIx64 " %" PRIx64 "\n", number_at(matrix + at + 6, 8), number_at(matrix + at + 14, 8));
}

static void tell(size_t text_len) {
    const uint64_t read = flipcut_read_newick(text, text_len, matrix, sizeof matrix, names, sizeof names);
    if (!taken(read)) return;
    const size_t matrix_len = flipcut_written(read), names_len = flipcut_names_written(read);
    print_source(matrix_len, names_len);
    const uint64_t built = flipcut_build(matrix, matrix_len, workspace, FLIPCUT_MOST_WORKSPACE, answer, sizeof answer);
    if (!taken(built)) return;
    if (!taken(flipcut_read(answer, flipcut_written(built), flips, FLIPCUT_MOST_COLUMNS, tree))) return;
    for (size_t k = 0; k < tree[FLIPCUT_GROUPS]; ++k) printf("group %" PRIx64 "\n", tree[FLIPCUT_TAXA + k]);
    const uint64_t written = flipcut_write_newick(answer, flipcut_written(built), names, names_len, newick, sizeof newick);
    if (taken(written)) printf("tree %.*s\n", (int)flipcut_written(written), (const char *)newick);
}

int main(void) {
    uint8_t length[4];
    while (fread(length, 1, sizeof length, stdin) == sizeof length) {
        const size_t text_len = number_at(length, 4);
        if (text_len > sizeof text || fread(text, 1, text_len, stdin) != text_len) return 2;
        tell(text_len);
        puts("end");
    }
    return fflush(stdout) == 0 && !ferror(stdin) ? 0 : 1;
}
