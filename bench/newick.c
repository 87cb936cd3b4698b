// Source trees of 1 MiB, taken apart (processor time) by a plain C tokenizer, read by plain C and read by the operation: MB/s of each, and the
// operation's ratio to the tokenizer and to plain C. Of some the 64 names are short, of some long; some have trees of two names, some of all; some have many
// blanks. All have 248 columns, those of their first four trees. Ends with 1 where what they answer or write differs, or where the operation has less than half of the tokenizer's speed.
//   newick FILE   also writes the last text there, which has all kinds of trees in turn
#define _GNU_SOURCE
#include "plain_newick.h"
#include <stdio.h>

enum { N = FLIPCUT_MOST_TAXA, TEXT_LENGTH = 1 << 20, ROUNDS = 15 };
enum { SHORT_PAIRS, FEW_LETTERS, PAIRS, STARS, LONG_STARS, SINGLE, BLANKS, ALL_IN_TURN, TEXTS };
static const char *const text_names[] = {"short pairs", "few letters", "pairs", "stars", "long stars", "single names", "blanks", "all in turn"};
static const double LEAST_RATIO = 0.5;

static uint8_t text[TEXT_LENGTH];
static size_t text_length;
static char name[N][FLIPCUT_MOST_NAME + 1];
static unsigned order[N];  // in which a tree has the names

// Of one letter, of 2 to 7, of as many as may be, or a genus and up to 16 letters more.
static void make_names(int kind) {
    static const char all[] = "ABCDEFGHIJKLMNOPQRSTUVWXYZabcdefghijklmnopqrstuvwxyz0123456789.-_";
    static const char *const genera[] = {"Quercus_", "Rosa_", "Castanopsis_", "Acer_"};
    for (unsigned i = 0; i < N; i++) {
        size_t length = 0, letters = kind == SHORT_PAIRS ? 1 : FLIPCUT_MOST_NAME;
        if (kind == FEW_LETTERS) letters = 2 + rnd() % 6;
        if (kind != SHORT_PAIRS && kind != FEW_LETTERS && kind != LONG_STARS) {
            strcpy(name[i], genera[i % 4]);
            length = strlen(name[i]);
            letters = length + 2 + rnd() % 15;
        }
        while (length + 1 < letters) name[i][length++] = all[rnd() % (sizeof all - 1)];
        name[i][length++] = all[i];
        name[i][length] = 0;
    }
}

static void shuffle(void) {
    for (unsigned i = 0; i < N; i++) {
        unsigned j = (unsigned)(rnd() % (i + 1));
        order[i] = order[j];
        order[j] = i;
    }
}

static void put(const char *what) {
    size_t length = strlen(what);
    memcpy(text + text_length, what, length);
    text_length += length;
}

// A tree of so many names in one bracket, or of one name.
static void put_star(unsigned names, const char *blank) {
    shuffle();
    if (names > 1) put("(");
    for (unsigned i = 0; i < names; i++) {
        if (i > 0) put(","), put(blank);
        put(name[order[i]]), put(blank);
    }
    put(names > 1 ? ");" : ";"), put(blank), put("\n");
}

// Trees of 63 brackets, each in the one before: 62 columns.
static void put_comb(void) {
    shuffle();
    for (unsigned i = 0; i + 1 < N; i++) put("("), put(name[order[i]]), put(",");
    put(name[order[N - 1]]);
    for (unsigned i = 0; i + 1 < N; i++) put(")");
    put(";\n");
}

static void put_tree(int kind) {
    switch (kind) {
    case SHORT_PAIRS: case FEW_LETTERS: case PAIRS: put_star(2, ""); break;
    case STARS: case LONG_STARS: put_star(N, ""); break;
    case SINGLE: put_star(1, ""); break;
    default: put_star(4, " \t \r\n   "); break;
    }
}

static void make_text(int kind) {
    state = 88172645463325252ull + (uint64_t)kind;
    make_names(kind);
    text_length = 0;
    for (int k = 0; k < 4; k++) put_comb();
    // The longest tree has 64 names and what stands between them.
    for (int k = 0; text_length + N * (FLIPCUT_MOST_NAME + 20) < TEXT_LENGTH; k++) put_tree(kind == ALL_IN_TURN ? k % ALL_IN_TURN : kind);
}

typedef uint64_t Reader(const uint8_t *text, size_t length, uint8_t *matrix, size_t matrix_length, uint8_t *names, size_t names_length);
static uint64_t operation(const uint8_t *given, size_t length, uint8_t *matrix, size_t matrix_length, uint8_t *names, size_t names_length) {
    return flipcut_read_newick(given, length, matrix, matrix_length, names, names_length);
}
static uint64_t tokenize(const uint8_t *given, size_t length, uint8_t *matrix, size_t matrix_length, uint8_t *names, size_t names_length) {
    (void)matrix, (void)matrix_length, (void)names, (void)names_length;
    return plain_tokenize(given, length);
}
enum { TOKENS, PLAIN, OURS, READERS };
static Reader *const readers[] = {tokenize, plain_read, operation};

// The least time of each; false where they differ, or refuse.
static bool take_turns(double least[READERS]) {
    static uint8_t matrix[READERS][FLIPCUT_MOST_SOURCE_MATRIX], names[READERS][FLIPCUT_MOST_NAMES];
    uint64_t packed[READERS] = {0};
    for (int i = 0; i < ROUNDS; i++)
        for (int which = TOKENS; which < READERS; which++) {
            double at = now();
            packed[which] = readers[which](text, text_length, matrix[which], sizeof matrix[which], names[which], sizeof names[which]);
            double spent = now() - at;
            if (i == 0 || spent < least[which]) least[which] = spent;
        }
    return packed[TOKENS] == 0 && !flipcut_refused(packed[PLAIN]) && packed[PLAIN] == packed[OURS] && memcmp(matrix[PLAIN], matrix[OURS], sizeof *matrix) == 0 &&
           memcmp(names[PLAIN], names[OURS], sizeof *names) == 0;
}

int main(int count, char **words) {
    if (count != 2) return 2;
    int slow = 0;
    for (int kind = 0; kind < TEXTS; kind++) {
        double least[READERS];
        make_text(kind);
        if (!take_turns(least)) {
            printf("%s: what is read DIFFERS, or is refused\n", text_names[kind]);
            return 1;
        }
        double speed[READERS], to_tokens = least[TOKENS] / least[OURS], to_plain = least[PLAIN] / least[OURS];
        for (int which = TOKENS; which < READERS; which++) speed[which] = (double)text_length / least[which] / 1e6;
        slow |= to_tokens < LEAST_RATIO;
        printf("%-12s %zu bytes  tokenizer %6.1f MB/s  plain C %6.1f MB/s  read %6.1f MB/s  to tokenizer %.2f%s  to plain C %.2f\n", text_names[kind],
               text_length, speed[TOKENS], speed[PLAIN], speed[OURS], to_tokens, to_tokens < LEAST_RATIO ? " TOO SLOW" : "", to_plain);
        fflush(stdout);
    }
    FILE *f = fopen(words[1], "wb");
    if (!f || fwrite(text, 1, text_length, f) != text_length || fclose(f) != 0) return 1;
    return slow;
}
