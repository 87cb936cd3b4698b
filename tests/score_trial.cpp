// Compares flipcut_score, called as C calls it, with the independent score, and small pairs with every choice of flips.
//   score_trial FOLDER [COUNT]
#include "gen/cases.h"
#include "gen/damage.h"
#include "gen/matrices.h"
#include "lent.h"
#include "oracle/build.h"
#include "oracle/choices.h"
#include "oracle/score.h"
#include "packed.h"
#include "specimens.h"
#include "tally.h"
#include "trial.h"

namespace {

using gen::ScoreCase;
using oracle::Bytes;
using oracle::ScoreOutcome;

std::uint64_t called(const ScoreCase& given, const Call& call = usual_call) {
    const auto matrix = passed(given.matrix, call), answer = passed(given.answer, call);
    return flipcut_score(matrix.start, matrix.length, answer.start, answer.length);
}

// Through the header's functions.
ScoreOutcome unpacked(std::uint64_t packed) {
    ScoreOutcome outcome;
    outcome.refusal = refusal_of(packed);
    outcome.raises = flipcut_raises(packed);
    outcome.lowers = flipcut_lowers(packed);
    return outcome;
}

std::string text(const ScoreOutcome& outcome) {
    return text(outcome.refusal) + " raises " + std::to_string(outcome.raises) + " lowers " +
           std::to_string(outcome.lowers);
}

// The matrix and the answer, one after the other; the matrix's own records say where it ends.
Bytes both(const ScoreCase& given) {
    Bytes file = given.matrix;
    file.insert(file.end(), given.answer.begin(), given.answer.end());
    return file;
}

// How many columns were scored one by one.
struct Columns {
    unsigned long with_a_one = 0;
    unsigned long without = 0;
};

// Each column of a pair that is taken, alone against the same tree: one with a 1 scores what it did before document
// 02's C-12, one without scores nothing. Together they score what the pair does.
void compare_columns(Columns& columns, Tally& tally, const ScoreCase& given) {
    const oracle::Matrix matrix = oracle::read_matrix(given.matrix);
    oracle::Answer tree{oracle::read_answer(given.answer).value, {}};
    tree.value.m = 1;
    tree.value.flip_count = 0;
    const Bytes tree_file = oracle::answer_file(tree);
    ScoreOutcome sum;
    for (const oracle::Column& column : matrix.columns) {
        const ScoreCase alone{oracle::matrix_file({matrix.n, matrix.multiplicities, {column}}), tree_file};
        const oracle::Flips before = oracle::nearest_flips(matrix, column, tree.value);
        const bool without = column.ones == 0;
        const ScoreOutcome expected = without ? ScoreOutcome{} : ScoreOutcome{{}, before.raises, before.lowers};
        const ScoreOutcome found = unpacked(called(alone));
        if (!(found == expected))
            tally.differ("one column: expected " + text(expected) + ", found " + text(found), both(alone));
        sum.raises += found.raises;
        sum.lowers += found.lowers;
        ++(without ? columns.without : columns.with_a_one);
    }
    if (!(unpacked(called(given)) == sum)) tally.differ("the columns add up to " + text(sum), both(given));
}

// Whether the pair is taken.
bool compare(Tally& tally, const ScoreCase& given, const Call& call = usual_call) {
    const ScoreOutcome expected = oracle::score(given.matrix, given.answer);
    const std::uint64_t packed = called(given, call);
    const ScoreOutcome found = unpacked(packed);
    const std::string which = " (the file has the matrix, " + std::to_string(given.matrix.size()) +
                              " bytes, and then the answer)";
    if (!(found == expected)) tally.differ("expected " + text(expected) + ", found " + text(found) + which, both(given));
    compare_packed(tally, packed, expected.refusal, (expected.raises << 31) | expected.lowers, which, both(given));
    tally.agreed(expected.refusal.number, given.matrix);
    return !expected.refusal.refused();
}

// How many small pairs were compared with every choice of flips.
struct Listed {
    unsigned long pairs = 0;
    unsigned long whole = 0;    // also with every choice over the whole matrix at once
    unsigned long flipped = 0;  // those that need flips
    unsigned long built = 0;    // a matrix and its own build
};

// With so many known entries or fewer, every choice over the whole matrix is listed: 2 to the so many.
constexpr std::size_t most_known = 14;

// What document 02's C-23 says of the score: it is the least weight of flips, over all choices of flips, that lets
// every column be filled to a clade of the tree or to nothing; and a built tree's is at most the total.
void compare_choices(Listed& listed, Tally& tally, const gen::SmallScoreCase& small) {
    const ScoreCase given{oracle::matrix_file(small.matrix), oracle::answer_file(small.answer)};
    if (!compare(tally, given)) tally.differ("a small pair is refused", both(given));
    const ScoreOutcome found = unpacked(called(given));
    const std::uint64_t score = found.raises + found.lowers;
    const auto hold = [&](bool holds, const char* what, std::uint64_t other) {
        if (!holds) tally.differ(text(found) + ", " + what + " " + std::to_string(other), both(given));
    };
    const std::uint64_t by_columns = oracle::least_by_columns(small.matrix, small.answer.value);
    hold(score == by_columns, "least of every choice, column by column", by_columns);
    if (oracle::known_count(small.matrix) <= most_known) {
        const std::uint64_t by_matrix = oracle::least_by_matrix(small.matrix, small.answer.value);
        hold(score == by_matrix, "least of every choice over the whole matrix", by_matrix);
        ++listed.whole;
    }
    if (small.built) {
        hold(score <= small.answer.value.total, "a built tree of total", small.answer.value.total);
        ++listed.built;
    }
    if (score > 0) ++listed.flipped;
    ++listed.pairs;
}

// A specimen with its own answer.
ScoreCase specimen_case(std::size_t which) {
    const std::size_t large = 1 << 16;
    const Bytes matrix = specimens()[which].file;
    return {matrix, oracle::build(matrix, large, large).file};
}

// Specimens 1 and 7, whose scores documents 01 and 02 give, and 2 with multiplicities: column 0 lowers {0} and column 1
// nothing. The first also with damage in either file, the last with its matrix cut and changed.
void specimen_cases(Tally& tally) {
    const ScoreCase one = specimen_case(0), seven = specimen_case(6), merged = specimen_case(merged_second);
    if (!(unpacked(called(one)) == ScoreOutcome{{}, 0, 2})) tally.differ("the score of specimen 1", both(one));
    if (!(unpacked(called(seven)) == ScoreOutcome{{}, 0, 0})) tally.differ("the score of specimen 7", both(seven));
    if (!(unpacked(called(merged)) == ScoreOutcome{{}, 0, 1}))
        tally.differ("the score of specimen 2 with multiplicities", both(merged));
    compare(tally, merged);
    for (const Bytes& other : gen::byte_changes(merged.matrix)) compare(tally, {other, merged.answer});
    for (const Bytes& other : gen::prefixes(merged.matrix)) compare(tally, {other, merged.answer});
    for (const Bytes& other : gen::byte_changes(one.matrix)) compare(tally, {other, one.answer});
    for (const Bytes& other : gen::byte_changes(one.answer)) compare(tally, {one.matrix, other});
    for (const Bytes& other : gen::prefixes(one.answer)) compare(tally, {one.matrix, other});
    compare(tally, {one.matrix, seven.answer});
    compare(tally, {{}, {}});
    for (const Call& call : unusual_calls) {
        compare(tally, {one.matrix, {}}, call);
        compare(tally, {{}, one.answer}, call);
    }
}

// The largest scores: against the tree that has no group but the whole.
void heaviest_cases(Tally& tally, gen::Random& random) {
    for (unsigned n : {2u, 3u, 12u, 64u}) {
        oracle::Answer star;
        star.value.n = static_cast<std::uint16_t>(n);
        star.value.m = 256;
        star.value.group_count = 1;
        star.value.groups[0] = oracle::Group{oracle::all_taxa(n), 0};
        compare(tally, {oracle::matrix_file(gen::heaviest_matrix(random, n)), oracle::answer_file(star)});
    }
}

}  // namespace

int main(int argc, char** argv) {
    const TrialWords words = trial_words(argc, argv, 10000);
    Tally tally("score", words.folder);
    gen::Random random(7);
    Columns columns;
    specimen_cases(tally);
    heaviest_cases(tally, random);
    for (unsigned long k = 0; k < words.count; ++k) {
        const ScoreCase given = gen::score_case(random);
        if (compare(tally, given)) compare_columns(columns, tally, given);
    }
    gen::Random small_random(8);
    Listed listed;
    while (listed.pairs < words.count / 2) compare_choices(listed, tally, gen::small_score_case(small_random));
    tally.finish({0, 1, 2, 3, 4, 5, 6, 7, 8, 12, 13, 14, 15, 21});
    std::printf("score: %lu columns one by one, %lu of them without a 1\n", columns.with_a_one + columns.without,
                columns.without);
    std::printf("score: %lu small pairs against every choice of flips, %lu of them over the whole matrix at once; "
                "%lu need flips, %lu are built trees, none above its total\n",
                listed.pairs, listed.whole, listed.flipped, listed.built);
    return 0;
}
