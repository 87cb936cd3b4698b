// Plain C that reads source trees as the operation does: one pass over the bytes, a table of names that is gone through from its start, sets of taxa
// as 64-bit numbers. It answers the same packed number and writes the same two files. And a tokenizer: the same pass, which keeps no name and no set.
#ifndef PLAIN_NEWICK_H
#define PLAIN_NEWICK_H

#include "basics.h"
#include "../include/flipcut.h"

enum { BLANK = 1, LETTER };
static const uint8_t byte_kind[256] = {
    [' '] = BLANK,        ['\t'] = BLANK,       ['\r'] = BLANK,  ['\n'] = BLANK,  ['.'] = LETTER, ['-'] = LETTER, ['_'] = LETTER,
    ['0' ... '9'] = LETTER, ['A' ... 'Z'] = LETTER, ['a' ... 'z'] = LETTER,
};

static struct {
    const uint8_t *start;
    size_t length;
} names_read[FLIPCUT_MOST_TAXA];
static unsigned names_count, columns_count;
static uint64_t columns_ones[FLIPCUT_MOST_COLUMNS], columns_zeros[FLIPCUT_MOST_COLUMNS];

static inline uint64_t plain_refusal(unsigned number, size_t place) { return UINT64_C(1) << 63 | (uint64_t)place << 8 | number; }

// The number of a name, which it gets now if it is new; one more than the last where there is no room for it.
static inline unsigned plain_taxon(const uint8_t *start, size_t length) {
    unsigned taxon = 0;
    while (taxon < names_count && (names_read[taxon].length != length || memcmp(names_read[taxon].start, start, length) != 0)) taxon++;
    if (taxon == names_count && names_count < FLIPCUT_MOST_TAXA) {
        names_read[names_count].start = start;
        names_read[names_count++].length = length;
    }
    return taxon;
}

// The tokens, by whether a subtree is to come and how many brackets are open; 0, or the refusal. Where nothing is kept, 18 and names too many are not told.
static inline __attribute__((always_inline)) uint64_t plain_pass(const uint8_t *text, size_t length, const bool keep) {
    uint64_t below[64];       // the names in each open bracket
    unsigned column_of[64];   // and its column
    uint64_t several = 0;     // which of them have a comma
    uint64_t tree = 0;
    unsigned open = 0, of_tree = 0;
    bool due = true, any = false;
    names_count = columns_count = 0;
    for (size_t at = 0;;) {
        while (at < length && byte_kind[text[at]] == BLANK) at++;
        if (at == length) return any && due && open == 0 ? 0 : plain_refusal(16, at);
        const uint8_t byte = text[at];
        if (due && byte == '(') {
            if (open > 0 && columns_count == FLIPCUT_MOST_COLUMNS) return plain_refusal(19, at);
            if (open == 64) return plain_refusal(20, at);
            if (open > 0) column_of[open] = columns_count++;
            if (keep) below[open] = 0;
            several &= ~(UINT64_C(1) << open++);
            at++;
        } else if (due && byte_kind[byte] == LETTER) {
            const size_t start = at;
            while (at < length && byte_kind[text[at]] == LETTER) at++;
            if (at - start > FLIPCUT_MOST_NAME) return plain_refusal(17, start + FLIPCUT_MOST_NAME);
            if (keep) {
                const unsigned taxon = plain_taxon(text + start, at - start);
                if (taxon == FLIPCUT_MOST_TAXA) return plain_refusal(19, start);
                if (tree >> taxon & 1) return plain_refusal(18, start);
                tree |= UINT64_C(1) << taxon;
                if (open > 0) below[open - 1] |= UINT64_C(1) << taxon;
            }
            due = false;
        } else if (!due && open > 0 && byte == ',') {
            several |= UINT64_C(1) << (open - 1);
            due = true;
            at++;
        } else if (!due && open > 0 && byte == ')' && several >> (open - 1) & 1) {
            open--;
            if (keep && open > 0) {
                columns_ones[column_of[open]] = below[open];
                below[open - 1] |= below[open];
            }
            at++;
        } else if (!due && open == 0 && byte == ';') {
            for (; keep && of_tree < columns_count; of_tree++) columns_zeros[of_tree] = tree & ~columns_ones[of_tree];
            tree = 0;
            due = any = true;
            at++;
        } else {
            return plain_refusal(16, at);
        }
    }
}

static uint64_t plain_tokenize(const uint8_t *text, size_t length) { return plain_pass(text, length, false); }

static uint64_t plain_read(const uint8_t *text, size_t length, uint8_t *matrix, size_t matrix_length, uint8_t *names, size_t names_length) {
    const uint64_t refused = plain_pass(text, length, true);
    if (refused != 0) return refused;
    size_t of_matrix = 12 + 22 * (size_t)columns_count, of_names = 4;
    for (unsigned i = 0; i < names_count; i++) of_names += 4 + names_read[i].length;
    if (of_matrix > matrix_length || of_names > names_length) return plain_refusal(10, 0);
    uint8_t *at = number(number(head(matrix, 4, 1), names_count, 2), columns_count, 2);
    for (unsigned c = 0; c < columns_count; c++)
        at = number(number(number(head(at, 18, 2), 1, 2), columns_ones[c], 8), columns_zeros[c], 8);
    head(at, 0, 3);
    at = names;
    for (unsigned i = 0; i < names_count; i++) {
        at = head(at, (unsigned)names_read[i].length, 33);
        memcpy(at, names_read[i].start, names_read[i].length);
        at += names_read[i].length;
    }
    head(at, 0, 34);
    return (uint64_t)of_matrix << 32 | of_names;
}

#endif
