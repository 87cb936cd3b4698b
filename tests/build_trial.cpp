// Compares flipcut_build, called as C calls it, with the independent program: numbers, output and workspace.
//   build_trial FOLDER [COUNT]
#include "gen/cases.h"
#include "gen/damage.h"
#include "gen/matrices.h"
#include "lent.h"
#include "oracle/build.h"
#include "packed.h"
#include "specimens.h"
#include "tally.h"
#include "trial.h"

namespace {

using gen::BuildCase;
using oracle::Bytes;

void compare(Tally& tally, gen::Random& random, const BuildCase& given, const Call& call = usual_call) {
    const oracle::BuildOutcome expected = oracle::build(given.file, given.workspace, given.room);
    const std::uint64_t written = expected.file.size(), total = expected.total;
    Lent<std::int32_t> workspace(random, given.workspace);
    Lent<std::uint8_t> out(random, given.room);
    const auto file = passed(given.file, call);
    const auto numbers = workspace.passed(call);
    const auto bytes = out.passed(call);
    const std::uint64_t packed =
        flipcut_build(file.start, file.length, numbers.start, numbers.length, bytes.start, bytes.length);
    const std::string which =
        " for workspace " + std::to_string(given.workspace) + " and room " + std::to_string(given.room);
    compare_packed(tally, packed, expected.refusal, (written << 32) | total, which, given.file);
    if (flipcut_written(packed) != written || flipcut_total(packed) != total)
        tally.differ("the numbers of the build" + which, given.file);
    if (!out.holds(expected.file)) tally.differ("the output" + which, given.file);
    if (!workspace.holds(std::vector<std::int32_t>(expected.cleared, 0)))
        tally.differ("the workspace" + which, given.file);
    tally.agreed(expected.refusal.number, given.file);
}

// Buffers just long enough, a workspace that is longer, to the number for every pair and past it, and each of them one too short.
void edge_cases(Tally& tally, gen::Random& random, const oracle::Matrix& matrix) {
    const Bytes file = oracle::matrix_file(matrix);
    const std::size_t workspace = oracle::one_entries(matrix), pairs = matrix.n * matrix.columns.size();
    const std::size_t room = 20 + 16 * (matrix.n - 1) + 22 * matrix.columns.size();
    for (std::size_t length : {workspace, workspace + 1, pairs, pairs + 9}) compare(tally, random, {file, length, room});
    compare(tally, random, {file, workspace, room - 1});
    if (workspace == 0) return;
    compare(tally, random, {file, workspace - 1, room});
    compare(tally, random, {file, workspace - 1, room - 1});
    compare(tally, random, {file, 0, room});
}

void specimen_cases(Tally& tally, gen::Random& random) {
    for (const Specimen& specimen : specimens()) {
        if (specimen.refusal.refused()) compare(tally, random, {specimen.file, 0, 0});
        else edge_cases(tally, random, oracle::read_matrix(specimen.file));
    }
}

// Matrices without a 1 need no workspace, those of 1s alone the most there can be.
void extreme_cases(Tally& tally, gen::Random& random) {
    for (unsigned n : {1u, 2u, 7u, 64u}) {
        oracle::Matrix matrix{n, {}, std::vector<oracle::Column>(256, {1, oracle::all_taxa(n), 0})};
        edge_cases(tally, random, matrix);
        for (oracle::Column& column : matrix.columns) column = {1, 0, oracle::all_taxa(n) & random.bits()};
        edge_cases(tally, random, matrix);
    }
}

// The header's constants are what the largest matrix needs: with multiplicities, and every entry a 1.
void largest_lengths(const Tally& tally, gen::Random& random) {
    const unsigned n = FLIPCUT_MOST_TAXA, m = FLIPCUT_MOST_COLUMNS;
    const oracle::Matrix matrix{n, gen::random_multiplicities(random, n),
                                std::vector<oracle::Column>(m, {1, oracle::all_taxa(n), 0})};
    const Bytes file = oracle::matrix_file(matrix);
    if (oracle::check(file).refusal.refused() || file.size() != FLIPCUT_MOST_MATRIX ||
        oracle::one_entries(matrix) != FLIPCUT_MOST_WORKSPACE ||
        oracle::answer_length(FLIPCUT_MOST_GROUPS, m) != FLIPCUT_MOST_ANSWER)
        tally.differ("the header's constants", file);
}

// An empty file, an empty workspace that is too short and that is not, no output.
void unusual_cases(Tally& tally, gen::Random& random) {
    const Bytes first = specimens()[0].file;
    for (const Call& call : unusual_calls) {
        compare(tally, random, {{}, FLIPCUT_MOST_WORKSPACE, FLIPCUT_MOST_ANSWER}, call);
        compare(tally, random, {first, 0, FLIPCUT_MOST_ANSWER}, call);
        compare(tally, random, {specimens()[no_one].file, 0, FLIPCUT_MOST_ANSWER}, call);
        compare(tally, random, {first, FLIPCUT_MOST_WORKSPACE, 0}, call);
    }
}

}  // namespace

int main(int argc, char** argv) {
    const TrialWords words = trial_words(argc, argv, 4000);
    Tally tally("build", words.folder);
    gen::Random random(5);
    specimen_cases(tally, random);
    extreme_cases(tally, random);
    // The largest costs, where numbers of 32 bits are the nearest to running over.
    for (unsigned n : {2u, 3u, 4u, 8u, 12u}) edge_cases(tally, random, gen::heaviest_matrix(random, n));
    for (int k = 0; k < 200; ++k) edge_cases(tally, random, gen::random_matrix(random));
    for (unsigned long k = 0; k < words.count; ++k) compare(tally, random, gen::build_case(random));
    unusual_cases(tally, random);
    largest_lengths(tally, random);
    tally.finish({0, 1, 2, 3, 4, 5, 6, 7, 8, 9, 10, 21});
    return 0;
}
