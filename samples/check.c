/* Checks a matrix file and, where an answer file is named too, scores its tree against the matrix, as
 * the workbench does. It prints a line for each: `taken n N m M`, then `raises R lowers L score S`; or
 * `refused N at P`, and then no more. Ends with 0, with 1 where a file is refused or what it prints is
 * lost, 2 where a file cannot be read. */
#include "file.h"
#include "flipcut.h"

static uint8_t matrix[FLIPCUT_MOST_MATRIX + 1], answer[FLIPCUT_MOST_ANSWER + 1];

int main(int argc, char **argv) {
    if (argc != 2 && argc != 3) {
        fprintf(stderr, "usage: check MATRIX-FILE [ANSWER-FILE]\n");
        return 2;
    }
    size_t matrix_len = 0, answer_len = 0;
    if (!read_file(argv[1], matrix, sizeof matrix, &matrix_len)) return 2;
    if (argc == 3 && !read_file(argv[2], answer, sizeof answer, &answer_len)) return 2;
    uint64_t checked = flipcut_check(matrix, matrix_len);
    if (refused(checked)) return ended(1);
    printf("taken n %u m %u\n", flipcut_taxa(checked), flipcut_columns(checked));
    if (argc == 2) return ended(0);
    return ended(tell_score(flipcut_score(matrix, matrix_len, answer, answer_len)));
}
