/* FlipCut for C: what the static library libflipcut.a exports.
 *
 * Each function answers one packed 64-bit number. Where bit 63 is set the call
 * was refused: flipcut_number and flipcut_place say why and where (the table of
 * docs/RULES.md, "Refusals"), and all memory that was lent is as it was, with
 * one exception: where flipcut_flips refuses with 26, its workspace is as after
 * success. Where the bit is clear the call succeeded, and the functions named
 * with each take the results apart.
 *
 * A file, a list or a buffer is a pointer and a length, in bytes or in elements.
 * A null pointer, or any pointer with the length 0, is an empty one. Nothing is
 * kept after a call, and nothing is written but what is said to be. What is
 * written must not overlap anything else that the same call is given.
 *
 * Stack, in this library: a call of the build takes 26,176 bytes at most, of the
 * tree 26,224, of the flips 27,344, of the split 11,824, of the reading 8,920,
 * of the writing 7,992, of the score 3,544, of the check 88. Measured on x86-64
 * for 64 taxa and 256 columns, the most there can be; a library linked another
 * way may take more (a build alone: 34,096). Every release keeps below 40 KiB for
 * the first three, 12 for the next three, 4 for the score and 1 for the check.
 */
#ifndef FLIPCUT_H
#define FLIPCUT_H

#include <stdbool.h>
#include <stddef.h>
#include <stdint.h>

/* The most that a file can hold, so the most that a call can need. */
#define FLIPCUT_MOST_TAXA 64
#define FLIPCUT_MOST_COLUMNS 256
#define FLIPCUT_MOST_GROUPS 63
#define FLIPCUT_MOST_WORKSPACE (FLIPCUT_MOST_TAXA * FLIPCUT_MOST_COLUMNS) /* numbers */
#define FLIPCUT_MOST_MATRIX 5712                                           /* bytes */
#define FLIPCUT_MOST_ANSWER 6660                                           /* bytes */
#define FLIPCUT_MOST_TREE 1028                                             /* bytes: the answer file of a tree without flips */
#define FLIPCUT_MOST_NAME 32                                               /* bytes */
#define FLIPCUT_MOST_NAMES 2308                                            /* bytes: a list of 64 names */
#define FLIPCUT_MOST_SOURCE_MATRIX 5644                                    /* bytes: the matrix of source trees */
#define FLIPCUT_MOST_NEWICK 2238                                           /* bytes: the tree of an answer */

/* The places of a split's result. */
enum flipcut_split_result { FLIPCUT_COST, FLIPCUT_SIDE, FLIPCUT_TAXON, FLIPCUT_SPLIT_RESULTS };

/* The places of a reading's result: n, m, how many groups there are and how many flipped columns, the total; then the
 * groups from FLIPCUT_TAXA on, and their costs from FLIPCUT_COSTS on, each with 63 places, those past the last 0. A set of
 * taxa is 64 bits, taxon i worth 2 to the i. */
enum flipcut_read_result {
    FLIPCUT_N,
    FLIPCUT_M,
    FLIPCUT_GROUPS,
    FLIPCUT_FLIPS,
    FLIPCUT_TOTAL,
    FLIPCUT_TAXA,
    FLIPCUT_COSTS = FLIPCUT_TAXA + FLIPCUT_MOST_GROUPS,
    FLIPCUT_READ_RESULTS = FLIPCUT_COSTS + FLIPCUT_MOST_GROUPS
};

/* What is written beside the flips, in the widths of an answer file. flipcut_answer_of makes it of a reading's result. */
struct flipcut_answer {
    uint16_t n;      /* taxa */
    uint16_t m;      /* columns */
    uint16_t groups; /* how many of the places below count; no other is read */
    uint16_t flips;  /* how many columns are flipped */
    uint32_t total;  /* the sum of the costs */
    uint64_t taxa[FLIPCUT_MOST_GROUPS];
    uint32_t costs[FLIPCUT_MOST_GROUPS];
};

/* A flipped column: the taxa raised from 0 to 1 and those lowered from 1 to 0. */
struct flipcut_flip {
    uint16_t column;
    uint64_t raised;
    uint64_t lowered;
};

#ifdef __cplusplus
extern "C" {
#endif

/* Checks a matrix file. Refusals: 1 to 8, 21. Success: flipcut_taxa, flipcut_columns. */
uint64_t flipcut_check(const uint8_t *file, size_t len);

/* Builds the tree of a matrix file and writes its answer file to the start of `out`, which is to have 20 + 16(n - 1) + 22m
 * bytes. The workspace is to have a number for each 1 of the matrix; so many are 0 after success. Refusals: the matrix's
 * (1 to 8, 21), then 9 for the workspace, 10 for `out`. Success: flipcut_written, flipcut_total. */
uint64_t flipcut_build(const uint8_t *matrix, size_t matrix_len, int32_t *workspace, size_t workspace_len, uint8_t *out,
                       size_t out_len);

/* The first half of a build: writes the groups of the tree with their costs, as an answer file without flips, to the start of
 * `out`, which is to have 20 + 16(n - 1) bytes, also where less is written. The workspace is that of the build. Refusals: the
 * matrix's (1 to 8, 21), then 9 for the workspace, 10 for `out`. Success: flipcut_written, flipcut_total. */
uint64_t flipcut_tree(const uint8_t *matrix, size_t matrix_len, int32_t *workspace, size_t workspace_len, uint8_t *out,
                      size_t out_len);

/* The second half: takes the same matrix file and what flipcut_tree wrote of it, and writes the whole answer file, as the
 * build does, to the start of `out`. The workspace and `out` are those of the build. Refusals: the matrix's (1 to 8, 21), then
 * the tree file's (1 to 4, 6, 8, 12 to 14, the place in that file), then 15 where it has not the matrix's n and m, 9 for the
 * workspace, 10 for `out`, 26 where it is not, byte for byte, what flipcut_tree writes of this matrix. After 26 the workspace
 * is as after success, and `out` as it was. Success: flipcut_written, flipcut_total. */
uint64_t flipcut_flips(const uint8_t *matrix, size_t matrix_len, const uint8_t *tree, size_t tree_len, int32_t *workspace,
                       size_t workspace_len, uint8_t *out, size_t out_len);

/* Splits a group of a matrix file, its columns as they are in the file. The workspace is that of the build. Refusals: the
 * matrix's (1 to 8, 21), then 11 for the group, 9 for the workspace. Success: result[FLIPCUT_COST] is the cost of the
 * cheapest division, result[FLIPCUT_SIDE] the side that holds the group's lowest taxon, result[FLIPCUT_TAXON] the taxon on
 * the other side that the flow goes to. */
uint64_t flipcut_split(const uint8_t *matrix, size_t matrix_len, uint64_t group, int32_t *workspace, size_t workspace_len,
                       uint64_t result[FLIPCUT_SPLIT_RESULTS]);

/* Reads an answer file: its flips to the start of `list`, which is to have an entry for each, the rest to `result`.
 * Refusals: 1 to 4, 6, 8, 12 to 14, then 10 for the list. Success: result, by the places above. */
uint64_t flipcut_read(const uint8_t *file, size_t len, struct flipcut_flip *list, size_t list_len,
                      uint64_t result[FLIPCUT_READ_RESULTS]);

/* Writes an answer file to the start of `out`. Refusals: 3, 4, 6, 12 to 14, the place in the file that would be written,
 * then 10 for `out`. Success: flipcut_written. */
uint64_t flipcut_write(const struct flipcut_answer *answer, const struct flipcut_flip *list, size_t list_len, uint8_t *out,
                       size_t out_len);

/* Scores the tree of an answer file against a matrix file. Refusals: the matrix's (1 to 8, 21), then the
 * answer's (1 to 4, 6, 8, 12 to 14, the place in the answer), then 15. Success: flipcut_raises,
 * flipcut_lowers; the score is their sum, the least weight of flips that lets every column be filled to a
 * clade of the tree or to nothing. For a tree that the build wrote it is at most the answer's total. */
uint64_t flipcut_score(const uint8_t *matrix, size_t matrix_len, const uint8_t *answer, size_t answer_len);

/* Reads source trees, which are Newick text: writes their matrix file to the start of `matrix` and the names of its taxa,
 * as a name list, to the start of `names`. Refusals: 16 to 20, then 10 for either output. Success: flipcut_written for the
 * matrix, flipcut_names_written for the list. */
uint64_t flipcut_read_newick(const uint8_t *text, size_t text_len, uint8_t *matrix, size_t matrix_len, uint8_t *names,
                             size_t names_len);

/* Writes the tree of an answer file as Newick text to the start of `out`, each taxon by its name in a name list. Refusals:
 * the answer's (1 to 4, 6, 8, 12 to 14, the place in the answer), then the list's (1, 2, 8, 16, 18, the place in the list),
 * then 15 where it has not n names, 10 for `out`. Success: flipcut_written. */
uint64_t flipcut_write_newick(const uint8_t *answer, size_t answer_len, const uint8_t *names, size_t names_len, uint8_t *out,
                              size_t out_len);

/* Checks a name list, of any number of names. Refusals: 1, 2, 8, 16, 18. Success: flipcut_names. */
uint64_t flipcut_check_names(const uint8_t *names, size_t len);

#ifdef __cplusplus
}
#endif

/* The functions of the library take no null pointer, and C passes one for what is empty. So a call of theirs by name goes
 * through a function here, which lends something of its own and says that it is empty. Where `result` is null, what would be
 * written there is not wanted; a null answer to write is one of zeros, which is refused. */
static inline size_t flipcut_length(const void *start, size_t len) {
    return start == NULL ? 0 : len;
}

/* Nothing is read or written through it where the length is 0. */
static inline void *flipcut_start(const void *start, size_t len) {
    static uint64_t nothing;
    return flipcut_length(start, len) == 0 ? (void *)&nothing : (void *)(uintptr_t)start;
}

static inline uint64_t flipcut_check_lent(const uint8_t *file, size_t len) {
    return flipcut_check((const uint8_t *)flipcut_start(file, len), flipcut_length(file, len));
}

static inline uint64_t flipcut_build_lent(const uint8_t *matrix, size_t matrix_len, int32_t *workspace, size_t workspace_len,
                                          uint8_t *out, size_t out_len) {
    return flipcut_build((const uint8_t *)flipcut_start(matrix, matrix_len), flipcut_length(matrix, matrix_len),
                         (int32_t *)flipcut_start(workspace, workspace_len), flipcut_length(workspace, workspace_len),
                         (uint8_t *)flipcut_start(out, out_len), flipcut_length(out, out_len));
}

static inline uint64_t flipcut_tree_lent(const uint8_t *matrix, size_t matrix_len, int32_t *workspace, size_t workspace_len,
                                         uint8_t *out, size_t out_len) {
    return flipcut_tree((const uint8_t *)flipcut_start(matrix, matrix_len), flipcut_length(matrix, matrix_len),
                        (int32_t *)flipcut_start(workspace, workspace_len), flipcut_length(workspace, workspace_len),
                        (uint8_t *)flipcut_start(out, out_len), flipcut_length(out, out_len));
}

static inline uint64_t flipcut_flips_lent(const uint8_t *matrix, size_t matrix_len, const uint8_t *tree, size_t tree_len,
                                          int32_t *workspace, size_t workspace_len, uint8_t *out, size_t out_len) {
    return flipcut_flips((const uint8_t *)flipcut_start(matrix, matrix_len), flipcut_length(matrix, matrix_len),
                         (const uint8_t *)flipcut_start(tree, tree_len), flipcut_length(tree, tree_len),
                         (int32_t *)flipcut_start(workspace, workspace_len), flipcut_length(workspace, workspace_len),
                         (uint8_t *)flipcut_start(out, out_len), flipcut_length(out, out_len));
}

static inline uint64_t flipcut_split_lent(const uint8_t *matrix, size_t matrix_len, uint64_t group, int32_t *workspace,
                                          size_t workspace_len, uint64_t *result) {
    uint64_t unwanted[FLIPCUT_SPLIT_RESULTS] = {0};
    return flipcut_split((const uint8_t *)flipcut_start(matrix, matrix_len), flipcut_length(matrix, matrix_len), group,
                         (int32_t *)flipcut_start(workspace, workspace_len), flipcut_length(workspace, workspace_len),
                         result == NULL ? unwanted : result);
}

static inline uint64_t flipcut_read_lent(const uint8_t *file, size_t len, struct flipcut_flip *list, size_t list_len,
                                         uint64_t *result) {
    uint64_t unwanted[FLIPCUT_READ_RESULTS] = {0};
    return flipcut_read((const uint8_t *)flipcut_start(file, len), flipcut_length(file, len),
                        (struct flipcut_flip *)flipcut_start(list, list_len), flipcut_length(list, list_len),
                        result == NULL ? unwanted : result);
}

static inline uint64_t flipcut_write_lent(const struct flipcut_answer *answer, const struct flipcut_flip *list,
                                          size_t list_len, uint8_t *out, size_t out_len) {
    const struct flipcut_answer zeros = {0, 0, 0, 0, 0, {0}, {0}};
    return flipcut_write(answer == NULL ? &zeros : answer, (const struct flipcut_flip *)flipcut_start(list, list_len),
                         flipcut_length(list, list_len), (uint8_t *)flipcut_start(out, out_len),
                         flipcut_length(out, out_len));
}

static inline uint64_t flipcut_score_lent(const uint8_t *matrix, size_t matrix_len, const uint8_t *answer,
                                          size_t answer_len) {
    return flipcut_score((const uint8_t *)flipcut_start(matrix, matrix_len), flipcut_length(matrix, matrix_len),
                         (const uint8_t *)flipcut_start(answer, answer_len), flipcut_length(answer, answer_len));
}

static inline uint64_t flipcut_read_newick_lent(const uint8_t *text, size_t text_len, uint8_t *matrix, size_t matrix_len,
                                                uint8_t *names, size_t names_len) {
    return flipcut_read_newick((const uint8_t *)flipcut_start(text, text_len), flipcut_length(text, text_len),
                               (uint8_t *)flipcut_start(matrix, matrix_len), flipcut_length(matrix, matrix_len),
                               (uint8_t *)flipcut_start(names, names_len), flipcut_length(names, names_len));
}

static inline uint64_t flipcut_write_newick_lent(const uint8_t *answer, size_t answer_len, const uint8_t *names,
                                                 size_t names_len, uint8_t *out, size_t out_len) {
    return flipcut_write_newick((const uint8_t *)flipcut_start(answer, answer_len), flipcut_length(answer, answer_len),
                                (const uint8_t *)flipcut_start(names, names_len), flipcut_length(names, names_len),
                                (uint8_t *)flipcut_start(out, out_len), flipcut_length(out, out_len));
}

static inline uint64_t flipcut_check_names_lent(const uint8_t *names, size_t len) {
    return flipcut_check_names((const uint8_t *)flipcut_start(names, len), flipcut_length(names, len));
}

#define flipcut_check(...) flipcut_check_lent(__VA_ARGS__)
#define flipcut_build(...) flipcut_build_lent(__VA_ARGS__)
#define flipcut_tree(...) flipcut_tree_lent(__VA_ARGS__)
#define flipcut_flips(...) flipcut_flips_lent(__VA_ARGS__)
#define flipcut_split(...) flipcut_split_lent(__VA_ARGS__)
#define flipcut_read(...) flipcut_read_lent(__VA_ARGS__)
#define flipcut_write(...) flipcut_write_lent(__VA_ARGS__)
#define flipcut_score(...) flipcut_score_lent(__VA_ARGS__)
#define flipcut_read_newick(...) flipcut_read_newick_lent(__VA_ARGS__)
#define flipcut_write_newick(...) flipcut_write_newick_lent(__VA_ARGS__)
#define flipcut_check_names(...) flipcut_check_names_lent(__VA_ARGS__)

/* The bits of a packed number from `low` on, `width` of them. */
static inline uint64_t flipcut_bits(uint64_t packed, unsigned low, unsigned width) {
    return (packed >> low) & ((UINT64_C(1) << width) - 1);
}

/* Any function: whether it refused. */
static inline bool flipcut_refused(uint64_t packed) {
    return flipcut_bits(packed, 63, 1) == 1;
}

/* Any function: the number of the refusal, 0 on success. */
static inline unsigned flipcut_number(uint64_t packed) {
    return flipcut_refused(packed) ? (unsigned)flipcut_bits(packed, 0, 8) : 0;
}

/* Any function: the place in the file that was refused, 0 on success. */
static inline uint64_t flipcut_place(uint64_t packed) {
    return flipcut_refused(packed) ? flipcut_bits(packed, 8, 55) : 0;
}

/* A result of a call that succeeded, 0 on a refusal. */
static inline uint64_t flipcut_result(uint64_t packed, unsigned low, unsigned width) {
    return flipcut_refused(packed) ? 0 : flipcut_bits(packed, low, width);
}

/* flipcut_check: the number of taxa n. */
static inline unsigned flipcut_taxa(uint64_t packed) {
    return (unsigned)flipcut_result(packed, 0, 16);
}

/* flipcut_check: the number of columns m. */
static inline unsigned flipcut_columns(uint64_t packed) {
    return (unsigned)flipcut_result(packed, 16, 16);
}

/* flipcut_build, flipcut_tree, flipcut_flips, flipcut_write, flipcut_write_newick: how many bytes were written;
 * flipcut_read_newick: how many of the matrix. */
static inline size_t flipcut_written(uint64_t packed) {
    return (size_t)flipcut_result(packed, 32, 31);
}

/* flipcut_read_newick: how many bytes of the name list were written. */
static inline size_t flipcut_names_written(uint64_t packed) {
    return (size_t)flipcut_result(packed, 0, 32);
}

/* flipcut_check_names: how many names there are. */
static inline uint64_t flipcut_names(uint64_t packed) {
    return flipcut_result(packed, 0, 63);
}

/* flipcut_build, flipcut_tree, flipcut_flips: the total, which is the sum of the split costs. */
static inline uint32_t flipcut_total(uint64_t packed) {
    return (uint32_t)flipcut_result(packed, 0, 32);
}

/* flipcut_read: its result, to be written. */
static inline struct flipcut_answer flipcut_answer_of(const uint64_t result[FLIPCUT_READ_RESULTS]) {
    struct flipcut_answer answer = {(uint16_t)result[FLIPCUT_N],
                                    (uint16_t)result[FLIPCUT_M],
                                    (uint16_t)result[FLIPCUT_GROUPS],
                                    (uint16_t)result[FLIPCUT_FLIPS],
                                    (uint32_t)result[FLIPCUT_TOTAL],
                                    {0},
                                    {0}};
    for (size_t k = 0; k < FLIPCUT_MOST_GROUPS; ++k) {
        answer.taxa[k] = result[FLIPCUT_TAXA + k];
        answer.costs[k] = (uint32_t)result[FLIPCUT_COSTS + k];
    }
    return answer;
}

/* flipcut_score: what is raised from 0 to 1, each times its column's weight and its taxon's multiplicity. */
static inline uint32_t flipcut_raises(uint64_t packed) {
    return (uint32_t)flipcut_result(packed, 31, 31);
}

/* flipcut_score: what is lowered from 1 to 0, weighed the same way. */
static inline uint32_t flipcut_lowers(uint64_t packed) {
    return (uint32_t)flipcut_result(packed, 0, 31);
}

#endif
