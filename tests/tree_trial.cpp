// Compares flipcut_tree, called as C calls it, with the independent program: numbers, output and workspace.
//   tree_trial FOLDER [COUNT]
#include "gen/cases.h"
#include "gen/damage.h"
#include "gen/matrices.h"
#include "lent.h"
#include "oracle/halves.h"
#include "packed.h"
#include "specimens.h"
#include "tally.h"
#include "trial.h"
#include "worked_halves.h"

namespace {

using gen::BuildCase;
using oracle::Bytes;

void compare(Tally& tally, gen::Random& random, const BuildCase& given, const oracle::BuildOutcome& expected,
             const Call& call = usual_call) {
    const std::uint64_t written = expected.file.size(), total = expected.total;
    Lent<std::int32_t> workspace(random, given.workspace);
    Lent<std::uint8_t> out(random, given.room);
    const auto file = passed(given.file, call);
    const auto numbers = workspace.passed(call);
    const auto bytes = out.passed(call);
    const std::uint64_t packed =
        flipcut_tree(file.start, file.length, numbers.start, numbers.length, bytes.start, bytes.length);
    const std::string which =
        " for workspace " + std::to_string(given.workspace) + " and room " + std::to_string(given.room);
    compare_packed(tally, packed, expected.refusal, (written << 32) | total, which, given.file);
    if (flipcut_written(packed) != written || flipcut_total(packed) != total)
        tally.differ("the numbers of the tree" + which, given.file);
    if (!out.holds(expected.file)) tally.differ("the output" + which, given.file);
    if (!workspace.holds(std::vector<std::int32_t>(expected.cleared, 0)))
        tally.differ("the workspace" + which, given.file);
    tally.agreed(expected.refusal.number, given.file);
}

void compare(Tally& tally, gen::Random& random, const BuildCase& given, const Call& call = usual_call) {
    compare(tally, random, given, oracle::tree(given.file, given.workspace, given.room), call);
}

// What the documents say, without the independent program.
void worked_cases(Tally& tally, gen::Random& random) {
    for (const WorkedHalf& worked : worked_first())
        compare(tally, random, {worked.matrix, worked.workspace, worked.room},
                {worked.refusal, worked.total, worked.file, worked.cleared});
}

// Each workspace with each room: none, one too short, just long enough, longer; the room also just what is written, which will
// not do where there might be more groups, and that of a whole build.
void edge_cases(Tally& tally, gen::Random& random, const oracle::Matrix& matrix) {
    const Bytes file = oracle::matrix_file(matrix);
    const std::size_t ones = oracle::one_entries(matrix), pairs = matrix.n * matrix.columns.size();
    const std::size_t room = 20 + 16 * (matrix.n - 1), whole = room + 22 * matrix.columns.size();
    const oracle::BuildOutcome taken = oracle::tree(file, ones, room);
    std::vector<std::size_t> workspaces{ones, ones + 1, pairs, pairs + 9};
    if (ones > 0) workspaces.insert(workspaces.end(), {0, ones - 1});
    for (std::size_t workspace : workspaces)
        for (std::size_t bytes : {std::size_t{0}, taken.file.size(), room - 1, room, room + 1, whole}) {
            const bool enough = workspace >= ones && bytes >= room;  // then it is built as before
            compare(tally, random, {file, workspace, bytes}, enough ? taken : oracle::tree(file, workspace, bytes));
        }
}

void specimen_cases(Tally& tally, gen::Random& random) {
    for (const Specimen& specimen : specimens()) {
        if (specimen.refusal.refused()) compare(tally, random, {specimen.file, 0, 0});
        else edge_cases(tally, random, oracle::read_matrix(specimen.file));
    }
}

// Matrices without a 1 need no workspace, those of 1s alone the most there can be.
void extreme_cases(Tally& tally, gen::Random& random) {
    for (unsigned n : {1u, 2u, 7u, 64u}) {
        oracle::Matrix matrix{n, {}, std::vector<oracle::Column>(256, {1, oracle::all_taxa(n), 0})};
        edge_cases(tally, random, matrix);
        for (oracle::Column& column : matrix.columns) column = {1, 0, oracle::all_taxa(n) & random.bits()};
        edge_cases(tally, random, matrix);
    }
}

// Trees with every group there may be, so that all of the room is written: each column is one group more.
void deepest_cases(Tally& tally, gen::Random& random) {
    for (unsigned n : {2u, 3u, 12u, FLIPCUT_MOST_TAXA + 0u}) {
        oracle::Matrix matrix{n, {}, {}};
        for (unsigned first = 1; first < n; ++first) {
            const oracle::TaxonSet zeros = oracle::all_taxa(first);
            matrix.columns.push_back({1, oracle::all_taxa(n) & ~zeros, zeros});
        }
        if (oracle::answer_of(matrix).value.group_count != n - 1)
            tally.differ("a tree that is not the deepest", oracle::matrix_file(matrix));
        edge_cases(tally, random, matrix);
    }
}

// A matrix file cut at every byte and with each byte changed.
void damaged_cases(Tally& tally, gen::Random& random) {
    for (std::size_t which : {std::size_t{0}, merged_second}) {
        const Bytes file = specimens()[which].file;
        for (const Bytes& other : gen::prefixes(file)) compare(tally, random, {other, 6, 68});
        for (const Bytes& other : gen::byte_changes(file)) compare(tally, random, {other, 6, 68});
    }
}

// An empty file, an empty workspace that is too short and that is not, no output.
void unusual_cases(Tally& tally, gen::Random& random) {
    const Bytes first = specimens()[0].file;
    for (const Call& call : unusual_calls) {
        compare(tally, random, {{}, FLIPCUT_MOST_WORKSPACE, FLIPCUT_MOST_TREE}, call);
        compare(tally, random, {first, 0, FLIPCUT_MOST_TREE}, call);
        compare(tally, random, {specimens()[no_one].file, 0, FLIPCUT_MOST_TREE}, call);
        compare(tally, random, {first, FLIPCUT_MOST_WORKSPACE, 0}, call);
    }
    if (oracle::answer_length(FLIPCUT_MOST_GROUPS, 0) != FLIPCUT_MOST_TREE) tally.differ("the header's constant", {});
}

}  // namespace

int main(int argc, char** argv) {
    const TrialWords words = trial_words(argc, argv, 4000);
    Tally tally("tree", words.folder);
    gen::Random random(9);
    worked_cases(tally, random);
    specimen_cases(tally, random);
    extreme_cases(tally, random);
    deepest_cases(tally, random);
    damaged_cases(tally, random);
    // The largest costs, where numbers of 32 bits are the nearest to running over.
    for (unsigned n : {2u, 3u, 4u, 8u, 12u}) edge_cases(tally, random, gen::heaviest_matrix(random, n));
    for (int k = 0; k < 200; ++k) edge_cases(tally, random, gen::random_matrix(random));
    for (unsigned long k = 0; k < words.count; ++k) compare(tally, random, gen::tree_case(random));
    unusual_cases(tally, random);
    tally.finish({0, 1, 2, 3, 4, 5, 6, 7, 8, 9, 10, 21});
    return 0;
}
