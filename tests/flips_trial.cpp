// Compares flipcut_flips, called as C calls it, with the independent program: numbers, output and workspace; and the tree and its
// flips, one after the other, with flipcut_build.
//   flips_trial FOLDER [COUNT]
#include "gen/answers.h"
#include "gen/cases.h"
#include "gen/damage.h"
#include "gen/matrices.h"
#include "lent.h"
#include "oracle/halves.h"
#include "packed.h"
#include "specimens.h"
#include "tally.h"
#include "trial.h"
#include "worked_halves.h"

namespace {

using gen::FlipsCase;
using oracle::Answer;
using oracle::Bytes;
using oracle::Matrix;

// The matrix and the tree, one after the other; the matrix's own records say where it ends.
Bytes both(const FlipsCase& given) {
    Bytes file = given.matrix;
    file.insert(file.end(), given.tree.begin(), given.tree.end());
    return file;
}

std::string text(const FlipsCase& given) {
    return " for workspace " + std::to_string(given.workspace) + " and room " + std::to_string(given.room) +
           " (the file has the matrix, " + std::to_string(given.matrix.size()) + " bytes, and then the tree)";
}

// With a workspace that was lent before, or is new.
void compare_in(Lent<std::int32_t>& workspace, Tally& tally, gen::Random& random, const FlipsCase& given,
                const oracle::BuildOutcome& expected, const Call& call = usual_call) {
    const std::uint64_t written = expected.file.size(), total = expected.total;
    Lent<std::uint8_t> out(random, given.room);
    const auto matrix = passed(given.matrix, call), tree = passed(given.tree, call);
    const auto numbers = workspace.passed(call);
    const auto bytes = out.passed(call);
    const std::uint64_t packed = flipcut_flips(matrix.start, matrix.length, tree.start, tree.length, numbers.start,
                                               numbers.length, bytes.start, bytes.length);
    compare_packed(tally, packed, expected.refusal, (written << 32) | total, text(given), both(given));
    if (flipcut_written(packed) != written || flipcut_total(packed) != total)
        tally.differ("the numbers of the flips" + text(given), both(given));
    if (!out.holds(expected.file)) tally.differ("the output" + text(given), both(given));
    if (!workspace.holds(std::vector<std::int32_t>(expected.cleared, 0)))
        tally.differ("the workspace" + text(given), both(given));
    tally.agreed(expected.refusal.number, given.matrix);
}

void compare(Tally& tally, gen::Random& random, const FlipsCase& given, const oracle::BuildOutcome& expected,
             const Call& call = usual_call) {
    Lent<std::int32_t> workspace(random, given.workspace);
    compare_in(workspace, tally, random, given, expected, call);
}

void compare(Tally& tally, gen::Random& random, const FlipsCase& given, const Call& call = usual_call) {
    compare(tally, random, given, oracle::flips(given.matrix, given.tree, given.workspace, given.room), call);
}

// What the documents say, without the independent program.
void worked_cases(Tally& tally, gen::Random& random) {
    for (const WorkedHalf& worked : worked_second())
        compare(tally, random, {worked.matrix, worked.tree, worked.workspace, worked.room},
                {worked.refusal, worked.total, worked.file, worked.cleared});
}

// A matrix that is taken, with what is given and lent for it.
struct Known {
    explicit Known(const Matrix& of)
        : matrix(of),
          file(oracle::matrix_file(of)),
          answer(oracle::answer_of(of)),
          tree(oracle::answer_file(oracle::without_flips(answer))),
          ones(oracle::one_entries(of)),
          tree_room(20 + 16 * (of.n - 1)),
          room(tree_room + 22 * of.columns.size()) {}

    Matrix matrix;
    Bytes file;
    Answer answer;
    Bytes tree;
    std::size_t ones, tree_room, room;
};

// With this tree and these buffers.
void compare(Tally& tally, gen::Random& random, const Known& known, const Bytes& tree, std::size_t workspace, std::size_t room) {
    compare(tally, random, {known.file, tree, workspace, room},
            oracle::flips(known.file, tree, workspace, room, known.answer));
}

// With this tree, or an answer in place of it, and just enough of each buffer.
void compare_tree(Tally& tally, gen::Random& random, const Known& known, const Bytes& tree) {
    compare(tally, random, known, tree, known.ones, known.room);
}
void compare_tree(Tally& tally, gen::Random& random, const Known& known, const Answer& answer) {
    compare_tree(tally, random, known, oracle::answer_file(answer));
}

// The tree with another cost: an answer file that is taken, and not this matrix's. For one taxon the total alone is another: 14.
Bytes dearer(const Known& known) {
    Answer answer = oracle::without_flips(known.answer);
    ++answer.value.groups[0].cost;
    ++answer.value.total;
    return oracle::answer_file(answer);
}

// An answer of another n or another m, with a refusal in it or not.
Bytes of_another_size(const Known& known, bool columns, bool refused) {
    Answer answer;
    answer.value.n = static_cast<std::uint16_t>(columns ? known.matrix.n : known.matrix.n % 64 + 1);
    answer.value.m = static_cast<std::uint16_t>((known.matrix.columns.size() + columns) % 257);
    answer.value.group_count = answer.value.n > 1;
    answer.value.groups[0].taxa = answer.value.n > 1 ? oracle::all_taxa(answer.value.n) : 0;
    answer.value.total = refused;
    return oracle::answer_file(answer);
}

// Each workspace with each room: none, one too short, just long enough, longer; the room also that of the tree, and just what is
// written.
void compare_buffers(Tally& tally, gen::Random& random, const Known& known, const Bytes& tree) {
    const std::size_t ones = known.ones, room = known.room, pairs = known.matrix.n * known.matrix.columns.size();
    const std::size_t written = oracle::answer_length(known.answer.value.group_count, known.answer.value.flip_count);
    std::vector<std::size_t> workspaces{ones, ones + 1, pairs, pairs + 9};
    if (ones > 0) workspaces.insert(workspaces.end(), {0, ones - 1});
    for (std::size_t workspace : workspaces)
        for (std::size_t bytes :
             {std::size_t{0}, known.tree_room - 1, known.tree_room, written, room - 1, room, room + 1, room + 22})
            compare(tally, random, known, tree, workspace, bytes);
}

// Whatever is wrong with the tree, with every buffer: what comes first in the order is told.
void edge_cases(Tally& tally, gen::Random& random, const Known& known) {
    compare_buffers(tally, random, known, known.tree);
    compare_buffers(tally, random, known, oracle::answer_file(known.answer));
    if (known.matrix.n > 1) compare_buffers(tally, random, known, dearer(known));
    for (bool columns : {false, true})
        for (bool refused : {false, true}) compare_buffers(tally, random, known, of_another_size(known, columns, refused));
    Bytes cut = known.file;
    cut.pop_back();
    for (const Bytes& tree : {known.tree, dearer(known), Bytes{}})
        for (std::size_t workspace : {std::size_t{0}, known.ones})
            for (std::size_t bytes : {std::size_t{0}, known.room}) compare(tally, random, {cut, tree, workspace, bytes});
}

// Answers that reading takes, each with one thing else than the tree has: every bit of every cost, one from every cost to every
// other, every group but the first left out, a flip in every column.
void lawful_changes(Tally& tally, gen::Random& random, const Known& known) {
    const Answer own = oracle::without_flips(known.answer);
    const std::size_t count = own.value.group_count;
    for (std::size_t k = 0; k < count; ++k) {
        for (unsigned bit = 0; bit < 32; ++bit) {
            Answer other = own;
            other.value.groups[k].cost ^= 1u << bit;
            other.value.total += other.value.groups[k].cost - own.value.groups[k].cost;
            compare_tree(tally, random, known, other);
        }
        for (std::size_t to = 0; to < count; ++to) {
            Answer other = own;
            if (to == k || other.value.groups[k].cost == 0) continue;
            --other.value.groups[k].cost;
            ++other.value.groups[to].cost;
            compare_tree(tally, random, known, other);
        }
        Answer fewer = own;
        fewer.value.total -= fewer.value.groups[k].cost;
        for (std::size_t at = k; at + 1 < count; ++at) fewer.value.groups[at] = fewer.value.groups[at + 1];
        --fewer.value.group_count;
        compare_tree(tally, random, known, fewer);
    }
    for (std::uint16_t column = 0; column < own.value.m; ++column) {
        Answer flipped = own;
        flipped.flips.push_back(oracle::Flip{column, 1, 0});
        flipped.value.flip_count = 1;
        compare_tree(tally, random, known, flipped);
    }
}

// Every taxon into or out of every group, and of two.
void other_groups(Tally& tally, gen::Random& random, const Known& known) {
    const Answer own = oracle::without_flips(known.answer);
    for (std::size_t k = 0; k < own.value.group_count; ++k)
        for (unsigned first = 0; first < own.value.n; ++first)
            for (unsigned second = first; second < own.value.n; ++second) {
                Answer other = own;
                other.value.groups[k].taxa ^= oracle::only(first) | oracle::only(second);
                compare_tree(tally, random, known, other);
            }
}

// A tree file, or an answer in place of it, that is cut, goes on, or has one byte else.
void damaged_trees(Tally& tally, gen::Random& random, const Known& known, const Bytes& file, bool every_value) {
    for (const Bytes& other : gen::prefixes(file)) compare_tree(tally, random, known, other);
    for (const Bytes& other : every_value ? gen::all_byte_changes(file) : gen::byte_changes(file))
        compare_tree(tally, random, known, other);
    for (std::size_t more : {1u, 4u, 22u}) {
        Bytes longer = file;
        longer.resize(file.size() + more);
        compare_tree(tally, random, known, longer);
    }
    compare_tree(tally, random, known, gen::joined({file, file}));
}

// Files of other matrices, of the same size and not.
void trees_of_others(Tally& tally, gen::Random& random) {
    std::vector<Known> all;
    for (const Specimen& specimen : specimens())
        if (!specimen.refusal.refused()) all.emplace_back(oracle::read_matrix(specimen.file));
    for (int k = 0; k < 40; ++k) {
        const unsigned n = static_cast<unsigned>(random.between(1, 5)), m = static_cast<unsigned>(random.between(1, 3));
        all.emplace_back(gen::random_matrix(random, n, m, gen::random_style(random)));
    }
    for (const Known& known : all)
        for (const Known& other : all) {
            compare_tree(tally, random, known, other.tree);
            compare_tree(tally, random, known, other.answer);
        }
}

// A matrix file cut at every byte and with each byte changed, the tree sound or not.
void damaged_matrices(Tally& tally, gen::Random& random, const Known& known) {
    for (const Bytes& tree : {known.tree, dearer(known), of_another_size(known, true, true)}) {
        for (const Bytes& other : gen::prefixes(known.file)) compare(tally, random, {other, tree, known.ones, known.room});
        for (const Bytes& other : gen::byte_changes(known.file))
            compare(tally, random, {other, tree, known.ones + 9, known.room + 9});
    }
}

// One workspace for several calls: what 26 leaves there will do for the next, as what success leaves. Where a file is refused
// nothing changes, so the numbers that the call before cleared stay so.
void again_cases(Tally& tally, gen::Random& random, const Known& known) {
    Lent<std::int32_t> workspace(random, known.ones + 3);
    const Bytes wrong = dearer(known), bad;
    for (const Bytes& tree : {wrong, wrong, bad, known.tree, known.tree, bad, wrong}) {
        const FlipsCase given{known.file, tree, known.ones + 3, known.room + 3};
        oracle::BuildOutcome expected = oracle::flips(given.matrix, tree, given.workspace, given.room, known.answer);
        expected.cleared = known.ones;
        compare_in(workspace, tally, random, given, expected);
    }
}

// What a call of the build or the tree wrote, and its packed number.
struct Written {
    std::uint64_t packed;
    Bytes file;
};

// "The old build becomes one after the other": what flipcut_tree writes goes to flipcut_flips, and what that writes and answers
// is the build's. One workspace serves all three.
void compare_halves(Tally& tally, gen::Random& random, const Known& known) {
    Lent<std::int32_t> workspace(random, known.ones);
    const auto numbers = workspace.passed(usual_call);
    const auto matrix = passed(known.file, usual_call);
    const auto done = [&](decltype(flipcut_build)* operation, std::size_t room) {
        Lent<std::uint8_t> out(random, room);
        const auto bytes = out.passed(usual_call);
        const std::uint64_t packed =
            operation(matrix.start, matrix.length, numbers.start, numbers.length, bytes.start, bytes.length);
        const Written written{packed, Bytes(bytes.start, bytes.start + flipcut_written(packed))};
        if (!out.holds(written.file)) tally.differ("an output past its end", known.file);
        return written;
    };
    const Written tree = done(flipcut_tree_lent, known.tree_room), whole = done(flipcut_build_lent, known.room);
    if (tree.file != known.tree) tally.differ("the tree file", known.file);
    if (flipcut_total(tree.packed) != flipcut_total(whole.packed)) tally.differ("the totals of tree and build", known.file);
    const FlipsCase second{known.file, tree.file, known.ones, known.room};
    compare_in(workspace, tally, random, second, {refusal_of(whole.packed), flipcut_total(whole.packed), whole.file, known.ones});
}

// An empty file, an empty workspace that is too short and that is not, no output.
void unusual_cases(Tally& tally, gen::Random& random) {
    const Known first(oracle::read_matrix(specimens()[0].file)), none(oracle::read_matrix(specimens()[no_one].file));
    for (const Call& call : unusual_calls) {
        compare(tally, random, {{}, first.tree, first.ones, first.room}, call);
        compare(tally, random, {first.file, {}, first.ones, first.room}, call);
        compare(tally, random, {{}, {}, 0, 0}, call);
        compare(tally, random, {first.file, first.tree, 0, first.room}, call);
        compare(tally, random, {none.file, none.tree, 0, none.room}, call);
        compare(tally, random, {none.file, dearer(none), 0, none.room}, call);
        compare(tally, random, {first.file, first.tree, first.ones, 0}, call);
    }
}

// All of it on one small matrix.
void small_cases(Tally& tally, gen::Random& random, const Known& known, bool every_value) {
    edge_cases(tally, random, known);
    lawful_changes(tally, random, known);
    other_groups(tally, random, known);
    damaged_trees(tally, random, known, known.tree, every_value);
    damaged_trees(tally, random, known, oracle::answer_file(known.answer), every_value);
    damaged_matrices(tally, random, known);
}

void specimen_cases(Tally& tally, gen::Random& random) {
    for (const Specimen& specimen : specimens())
        if (!specimen.refusal.refused() && oracle::check(specimen.file).n < 10)
            small_cases(tally, random, Known(oracle::read_matrix(specimen.file)), true);
    for (unsigned n : {5u, 9u}) {
        gen::Style style{gen::Shape::free, gen::Weights::any, 100, n == 9};
        small_cases(tally, random, Known(gen::random_matrix(random, n, 6, style)), false);
    }
}

// Many groups, of which each counts; most have a cost.
void many_groups(Tally& tally, gen::Random& random) {
    const gen::Style style{gen::Shape::noisy_tree, gen::Weights::light, 100, true};
    const Known known(gen::random_matrix(random, FLIPCUT_MOST_TAXA, 40, style));
    edge_cases(tally, random, known);
    lawful_changes(tally, random, known);
    damaged_trees(tally, random, known, known.tree, false);
}

// Matrices without a 1 need no workspace, those of 1s alone the most there can be; then the largest costs.
void extreme_cases(Tally& tally, gen::Random& random) {
    for (unsigned n : {1u, 2u, 7u, 64u}) {
        Matrix matrix{n, {}, std::vector<oracle::Column>(256, {1, oracle::all_taxa(n), 0})};
        edge_cases(tally, random, Known(matrix));
        for (oracle::Column& column : matrix.columns) column = {1, 0, oracle::all_taxa(n) & random.bits()};
        edge_cases(tally, random, Known(matrix));
    }
    for (unsigned n : {2u, 3u, 4u, 8u, 12u}) {
        const Known known(gen::heaviest_matrix(random, n));
        edge_cases(tally, random, known);
        compare_halves(tally, random, known);
    }
}

// The matrices of a build's trial.
void random_cases(Tally& tally, gen::Random& random, unsigned long count) {
    for (unsigned long k = 0; k < count; ++k) {
        const Known known(gen::random_matrix(random));
        compare_halves(tally, random, known);
        if (known.matrix.n > 1) again_cases(tally, random, known);
    }
}

}  // namespace

int main(int argc, char** argv) {
    const TrialWords words = trial_words(argc, argv, 4000);
    Tally tally("flips", words.folder);
    gen::Random random(10);
    worked_cases(tally, random);
    specimen_cases(tally, random);
    many_groups(tally, random);
    trees_of_others(tally, random);
    extreme_cases(tally, random);
    for (int k = 0; k < 100; ++k) edge_cases(tally, random, Known(gen::random_matrix(random)));
    random_cases(tally, random, words.count / 10);
    for (unsigned long k = 0; k < words.count; ++k) compare(tally, random, gen::flips_case(random));
    unusual_cases(tally, random);
    tally.finish({0, 1, 2, 3, 4, 5, 6, 7, 8, 9, 10, 12, 13, 14, 15, 21, 26});
    return 0;
}
