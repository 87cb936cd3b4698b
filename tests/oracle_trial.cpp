// The independent program by itself: document 01's specimens, its two ways to divide against each
// other, and what document 01 says of every answer.
//   oracle_trial FOLDER [COUNT]
#include <array>

#include "gen/matrices.h"
#include "oracle/build.h"
#include "oracle/division.h"
#include "oracle/halves.h"
#include "oracle/outline.h"
#include "oracle/score.h"
#include "specimens.h"
#include "tally.h"
#include "trial.h"
#include "worked_halves.h"

namespace {

using oracle::Answer;
using oracle::Bytes;
using oracle::Matrix;

void specimen_cases(Tally& tally) {
    for (const Specimen& specimen : specimens()) {
        if (oracle::check(specimen.file).refusal != specimen.refusal)
            tally.differ("the check of specimen " + specimen.name, specimen.file);
        if (!specimen.printed.empty() && oracle::outline(specimen.file) != specimen.printed)
            tally.differ("the outline of specimen " + specimen.name, specimen.file);
        tally.agreed(specimen.refusal.number, specimen.file);
    }
}

// Lengths and scores that the documents give.
void specimen_numbers(Tally& tally) {
    const std::size_t large = 1 << 16;
    const Bytes first = specimens()[0].file, single = specimens()[5].file, zeros = specimens()[6].file;
    const Bytes first_answer = oracle::build(first, large, large).file;
    const Bytes zeros_answer = oracle::build(zeros, large, large).file;
    if (first.size() != 78 || first_answer.size() != 112) tally.differ("the lengths of specimen 1", first);
    if (oracle::build(single, 0, 20).file.size() != 20) tally.differ("the length of specimen 6's answer", single);
    if (!(oracle::score(first, first_answer) == oracle::ScoreOutcome{{}, 0, 2}))
        tally.differ("the score of specimen 1", first);
    if (!(oracle::score(zeros, zeros_answer) == oracle::ScoreOutcome{{}, 0, 0}))
        tally.differ("the score of specimen 7", zeros);
    const Bytes merged = specimens()[merged_second].file;
    if (!(oracle::score(merged, oracle::build(merged, large, large).file) == oracle::ScoreOutcome{{}, 0, 1}))
        tally.differ("the score of specimen 2 with multiplicities", merged);
}

// How long a workspace the first specimens and those of document 02's C-13 need, by hand: one number less is refused.
void specimen_workspaces(Tally& tally) {
    struct {
        std::size_t specimen, needed;
    } const cases[] = {{0, 6}, {1, 4}, {3, 5}, {4, 3}, {5, 0}, {6, 0}, {merged_second, 4}, {no_one, 0}, {one_one, 1}};
    const std::size_t large = 1 << 16;
    for (const auto& [specimen, needed] : cases) {
        const Bytes file = specimens()[specimen].file;
        const bool taken = !oracle::build(file, needed, large).refusal.refused();
        const bool refused = needed == 0 || oracle::build(file, needed - 1, large).refusal == oracle::Refusal{9, 0};
        if (!taken || !refused) tally.differ("the workspace that a specimen needs", file);
    }
}

// A build in two operations, by hand (document 02's C-18).
void worked_cases(Tally& tally, const std::vector<WorkedHalf>& all, bool second) {
    for (const WorkedHalf& worked : all) {
        const oracle::BuildOutcome found = second
                                               ? oracle::flips(worked.matrix, worked.tree, worked.workspace, worked.room)
                                               : oracle::tree(worked.matrix, worked.workspace, worked.room);
        if (found.refusal != worked.refusal) tally.differ(worked.what + ": " + text(found.refusal), worked.matrix);
        if (found.total != worked.total || found.file != worked.file || found.cleared != worked.cleared)
            tally.differ(worked.what, worked.matrix);
        tally.agreed(worked.refusal.number, worked.matrix);
    }
}

// A matrix without multiplicities in place of one with them: each taxon stands there as often as its multiplicity says, in the same
// order, and a column of their own holds these together, at a weight that no division pays.
class Unmerged {
public:
    explicit Unmerged(const Matrix& matrix) {
        for (unsigned taxon = 0; taxon < matrix.n; ++taxon)
            for (std::uint64_t k = oracle::mass(matrix, oracle::only(taxon)); k > 0; --k)
                copies_[taxon] |= oracle::only(unmerged.n++);
        for (const oracle::Column& column : matrix.columns)
            unmerged.columns.push_back({column.weight, all(column.ones), all(column.zeros)});
        for (oracle::TaxonSet copies : copies_)
            unmerged.columns.push_back({std::uint64_t{1} << 40, copies, oracle::all_taxa(unmerged.n) & ~copies});
    }

    oracle::TaxonSet all(oracle::TaxonSet taxa) const {
        oracle::TaxonSet set = 0;
        for (unsigned taxon : oracle::members(taxa)) set |= copies_[taxon];
        return set;
    }
    oracle::Division all(const oracle::Division& division) const {
        return {division.cost, all(division.side), oracle::lowest(copies_[division.t])};
    }

    Matrix unmerged;

private:
    std::array<oracle::TaxonSet, 64> copies_{};
};

// Listing divisions and the network find the same one, and the network finds it too where taxa are repeated in place of
// multiplicities.
void division_case(Tally& tally, gen::Random& random) {
    const unsigned n = static_cast<unsigned>(random.between(2, 11));
    const unsigned m = static_cast<unsigned>(random.between(0, 14));
    const Matrix matrix = gen::random_matrix(random, n, m, gen::random_style(random));
    oracle::TaxonSet group = oracle::all_taxa(n);
    if (random.chance(50)) group &= random.bits();
    if (oracle::size(group) < 2) group = oracle::all_taxa(n);
    const Bytes file = oracle::matrix_file(matrix);
    const std::string which = ", group " + std::to_string(group);
    const oracle::Division division = oracle::division_by_listing(matrix, group);
    if (!(division == oracle::division_by_network(matrix, group))) tally.differ("listing and network" + which, file);
    if (!matrix.multiplicities.empty() && oracle::mass(matrix, oracle::all_taxa(n)) <= 64) {
        const Unmerged apart(matrix);
        if (!(apart.all(division) == oracle::division_by_network(apart.unmerged, apart.all(group))))
            tally.differ("multiplicities and as many taxa" + which, file);
    }
    tally.agreed(0, file);
}

std::uint64_t weighed_flips(const Matrix& matrix, const Answer& answer) {
    std::uint64_t sum = 0;
    for (const oracle::Flip& flip : answer.flips)
        sum += matrix.columns[flip.column].weight * oracle::mass(matrix, flip.raised | flip.lowered);
    return sum;
}

// The tree of a build reads back to its groups and costs and no flip, its flips are the build's file, and the build's own file is
// no tree's unless nothing is flipped.
void halves_case(Tally& tally, const Matrix& matrix, const Answer& answer) {
    const Bytes file = oracle::matrix_file(matrix), whole = oracle::answer_file(answer);
    const std::size_t ones = oracle::one_entries(matrix), room = 20 + 16 * (matrix.n - 1);
    const std::size_t whole_room = room + 22 * matrix.columns.size();
    const Bytes tree = oracle::tree(file, ones, room).file;
    oracle::AnswerValue value = oracle::read(tree, 0).answer.value;
    value.flip_count = answer.value.flip_count;
    if (tree.size() != 20 + 16u * value.group_count || !(value == answer.value)) tally.differ("the tree of a build", file);
    if (oracle::flips(file, tree, ones, whole_room).file != whole) tally.differ("the flips of a tree", file);
    const unsigned given_whole = oracle::flips(file, whole, ones, whole_room).refusal.number;
    if (given_whole != (answer.flips.empty() ? 0u : 26u)) tally.differ("a whole answer for a tree", file);
}

// What is built reads back, is written back, its total is the weighed flips and its score no more; a tree's own matrix needs none.
void build_case(Tally& tally, gen::Random& random) {
    const gen::Style style = gen::random_style(random);
    const unsigned n = static_cast<unsigned>(random.between(1, 24));
    const unsigned m = static_cast<unsigned>(random.between(0, 40));
    const Matrix matrix = gen::random_matrix(random, n, m, style);
    const Bytes file = oracle::matrix_file(matrix);
    const Answer answer = oracle::answer_of(matrix);
    const Bytes written = oracle::answer_file(answer);
    const oracle::ReadOutcome read = oracle::read(written, answer.flips.size());
    if (read.refusal.refused() || !(read.answer.value == answer.value) || read.answer.flips != answer.flips)
        tally.differ("what is built does not read back", file);
    if (oracle::write(read.answer.value, read.answer.flips, written.size()).file != written)
        tally.differ("what is read is not written back", file);
    if (answer.value.total != weighed_flips(matrix, answer)) tally.differ("total and weighed flips", file);
    const oracle::ScoreOutcome score = oracle::score(file, written);
    if (score.raises + score.lowers > answer.value.total) tally.differ("a score above the total", file);
    if (style.shape == gen::Shape::tree && answer.value.total != 0) tally.differ("flips for a tree's own matrix", file);
    halves_case(tally, matrix, answer);
    tally.agreed(0, file);
}

// Document 01's trap: {0,5,6}, {5,6}, {1,2} is the walking order.
void order_case(Tally& tally) {
    Matrix matrix;
    matrix.n = 7;
    for (oracle::TaxonSet ones : {0x61u, 0x60u, 0x06u})
        matrix.columns.push_back(oracle::Column{1, ones, oracle::all_taxa(7) & ~ones});
    const Bytes file = oracle::matrix_file(matrix);
    if (oracle::outline(file) !=
        "taxa 7 columns 3 total 0\ngroup 7f cost 0\ngroup 61 cost 0\ngroup 6 cost 0\ngroup 60 cost 0\n")
        tally.differ("groups are not in file order", file);
    tally.agreed(0, file);
}

}  // namespace

int main(int argc, char** argv) {
    const TrialWords words = trial_words(argc, argv, 3000);
    Tally tally("oracle", words.folder);
    gen::Random random(2);
    specimen_cases(tally);
    specimen_numbers(tally);
    specimen_workspaces(tally);
    worked_cases(tally, worked_first(), false);
    worked_cases(tally, worked_second(), true);
    order_case(tally);
    for (unsigned long k = 0; k < words.count; ++k) {
        division_case(tally, random);
        build_case(tally, random);
    }
    tally.finish({0, 21});
    return 0;
}
