// Compares flipcut_split, called as C calls it, with the independent program: numbers, result and workspace.
//   split_trial FOLDER [COUNT]
#include "gen/cases.h"
#include "gen/matrices.h"
#include "lent.h"
#include "oracle/split.h"
#include "packed.h"
#include "specimens.h"
#include "tally.h"
#include "trial.h"

namespace {

using gen::SplitCase;

// By name, so that the order of the header's places is tried too.
std::vector<std::uint64_t> result_of(const oracle::Division& division) {
    std::vector<std::uint64_t> result(FLIPCUT_SPLIT_RESULTS);
    result[FLIPCUT_COST] = division.cost;
    result[FLIPCUT_SIDE] = division.side;
    result[FLIPCUT_TAXON] = division.t;
    return result;
}

void compare(Tally& tally, gen::Random& random, const SplitCase& given, const Call& call = usual_call) {
    const oracle::SplitOutcome expected = oracle::split(given.file, given.group, given.workspace);
    Lent<std::int32_t> workspace(random, given.workspace);
    Lent<std::uint64_t> result(random, FLIPCUT_SPLIT_RESULTS);
    const auto file = passed(given.file, call);
    const auto numbers = workspace.passed(call);
    const std::uint64_t packed =
        flipcut_split(file.start, file.length, given.group, numbers.start, numbers.length, result.wanted(call));
    const std::string which = " for group " + std::to_string(given.group) + " and workspace " +
                              std::to_string(given.workspace);
    compare_packed(tally, packed, expected.refusal, 0, which, given.file);
    const bool divided = call.wanted && !expected.refusal.refused();
    if (!result.holds(divided ? result_of(expected.division) : std::vector<std::uint64_t>{}))
        tally.differ("the result" + which, given.file);
    if (!workspace.holds(std::vector<std::int32_t>(expected.cleared, 0)))
        tally.differ("the workspace" + which, given.file);
    tally.agreed(expected.refusal.number, given.file);
}

// The workspace just long enough, one too short, empty, and longer, to the number for every pair and past it.
void edge_cases(Tally& tally, gen::Random& random, const oracle::Matrix& matrix, oracle::TaxonSet group) {
    const oracle::Bytes file = oracle::matrix_file(matrix);
    const std::size_t workspace = oracle::one_entries(matrix), pairs = matrix.n * matrix.columns.size();
    for (std::size_t length : {std::size_t{0}, workspace, workspace + 1, pairs, pairs + 9})
        compare(tally, random, {file, group, length});
    if (workspace > 0) compare(tally, random, {file, group, workspace - 1});
}

// Every group of specimens 1 and 2, the second with multiplicities, lawful or not; the first has 6 entries that are 1, the second 4.
void specimen_cases(Tally& tally, gen::Random& random) {
    for (std::size_t which : {std::size_t{0}, merged_second})
        for (oracle::TaxonSet group = 0; group < 32; ++group)
            edge_cases(tally, random, oracle::read_matrix(specimens()[which].file), group);
    for (const Specimen& specimen : specimens()) {
        if (specimen.refusal.refused()) continue;
        const oracle::Matrix matrix = oracle::read_matrix(specimen.file);
        edge_cases(tally, random, matrix, oracle::all_taxa(matrix.n));
    }
}

// Matrices without a 1 need no workspace, those of 1s alone the most there can be; and the count is of all taxa, not of the group's.
void extreme_cases(Tally& tally, gen::Random& random) {
    for (unsigned n : {1u, 2u, 7u, 64u}) {
        oracle::Matrix matrix{n, {}, std::vector<oracle::Column>(256, {1, oracle::all_taxa(n), 0})};
        edge_cases(tally, random, matrix, oracle::all_taxa(n));
        edge_cases(tally, random, matrix, 3);
        for (oracle::Column& column : matrix.columns) column = {1, 0, oracle::all_taxa(n) & random.bits()};
        edge_cases(tally, random, matrix, oracle::all_taxa(n));
    }
}

// An empty file, and an empty workspace that is too short and that is not; also a result that is not wanted.
void unusual_cases(Tally& tally, gen::Random& random) {
    for (const Call& call : unusual_calls) {
        compare(tally, random, {{}, 3, 6}, call);
        for (std::size_t workspace : {0u, 6u}) compare(tally, random, {specimens()[0].file, 15, workspace}, call);
        compare(tally, random, {specimens()[no_one].file, 7, 0}, call);
    }
}

// The largest costs, where numbers of 32 bits are the nearest to running over.
void heaviest_cases(Tally& tally, gen::Random& random) {
    for (unsigned n : {2u, 3u, 4u, 8u, 12u}) edge_cases(tally, random, gen::heaviest_matrix(random, n), oracle::all_taxa(n));
}

}  // namespace

int main(int argc, char** argv) {
    const TrialWords words = trial_words(argc, argv, 4000);
    Tally tally("split", words.folder);
    gen::Random random(4);
    specimen_cases(tally, random);
    extreme_cases(tally, random);
    heaviest_cases(tally, random);
    for (unsigned long k = 0; k < words.count; ++k) compare(tally, random, gen::split_case(random));
    unusual_cases(tally, random);
    tally.finish({0, 1, 2, 3, 4, 5, 6, 7, 8, 9, 11, 21});
    return 0;
}
