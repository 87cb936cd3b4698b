#include "cases.h"

#include "../oracle/build.h"
#include "../oracle/halves.h"
#include "../oracle/name_list.h"
#include "../oracle/newick_text.h"
#include "../oracle/source_trees.h"
#include "answers.h"
#include "damage.h"
#include "matrices.h"
#include "texts.h"

namespace gen {

using oracle::Answer;
using oracle::Matrix;

namespace {

// Enough, now and then more, and now and then one or many too few.
std::size_t around(Random& random, std::size_t enough) {
    const std::uint64_t choice = random.below(20);
    if (choice == 0 && enough > 0) return enough - 1;
    if (choice == 1) return random.below(enough + 1);
    return choice < 8 ? enough + random.below(40) : enough;
}

Bytes maybe_damaged(Random& random, const Bytes& file) { return random.chance(10) ? damaged(random, file) : file; }

Bytes matrix_file_of(Random& random, const Matrix& matrix) {
    return random.chance(5) ? unlawful_matrix(random, matrix) : maybe_damaged(random, oracle::matrix_file(matrix));
}

// Around the count of 1-entries; now and then a number for every pair of taxon and column, of which most stay as they were.
std::size_t workspace_for(Random& random, const Matrix& matrix) {
    return random.chance(10) ? matrix.n * matrix.columns.size() : around(random, oracle::one_entries(matrix));
}

// Whatever fits.
constexpr std::size_t large = 1 << 20;

// The answer of a build, or one of no matrix.
Answer some_answer(Random& random) {
    return random.chance(40) ? oracle::answer_of(random_matrix(random)) : random_answer(random);
}

// A matrix whose tree may well be the same: one entry is another, or one weight.
Matrix nearly(Random& random, Matrix matrix) {
    if (matrix.columns.empty()) return matrix;
    oracle::Column& column = matrix.columns[random.below(matrix.columns.size())];
    const oracle::TaxonSet taxon = oracle::only(static_cast<unsigned>(random.below(matrix.n)));
    switch (random.below(3)) {
        case 0: column.weight = column.weight % 65535 + 1; break;
        case 1: column.ones |= taxon, column.zeros &= ~taxon; break;
        default: column.zeros |= taxon, column.ones &= ~taxon; break;
    }
    return matrix;
}

// What is given with a matrix for its tree.
Answer answer_for(Random& random, const Matrix& matrix) {
    const unsigned n = matrix.n, m = static_cast<unsigned>(matrix.columns.size());
    const std::uint64_t choice = random.below(20);
    if (choice == 0) return random_answer(random);  // mostly of another size
    if (choice == 1) return random_answer(random, n, (m + 1) % 257);
    if (choice == 2) return random_answer(random, n % 64 + 1, m);
    if (choice == 3) return random_answer(random, n, m);
    if (choice == 4) return oracle::without_flips(random_answer(random, n, m));
    if (choice == 5) return oracle::without_flips(oracle::answer_of(random_matrix(random, n, m, random_style(random))));
    if (choice == 6) return oracle::without_flips(oracle::answer_of(nearly(random, matrix)));
    if (choice == 7) return oracle::answer_of(matrix);
    Answer answer = oracle::without_flips(oracle::answer_of(matrix));
    if (choice < 11) change_lawfully(random, answer);
    else if (choice == 11) spoil_records(random, answer);
    return answer;
}

}  // namespace

SplitCase split_case(Random& random) {
    const Matrix matrix = random_matrix(random);
    SplitCase made;
    made.file = matrix_file_of(random, matrix);
    made.group = random.bits();
    if (!random.chance(30)) made.group &= random.bits();
    if (random.chance(95)) made.group &= oracle::all_taxa(matrix.n);
    if (random.chance(30) || (oracle::size(made.group) < 2 && random.chance(80))) made.group = oracle::all_taxa(matrix.n);
    made.workspace = workspace_for(random, matrix);
    return made;
}

BuildCase build_case(Random& random) {
    const Matrix matrix = random_matrix(random);
    BuildCase made;
    made.file = matrix_file_of(random, matrix);
    made.workspace = workspace_for(random, matrix);
    made.room = around(random, 20 + 16 * (matrix.n - 1) + 22 * matrix.columns.size());
    return made;
}

BuildCase tree_case(Random& random) {
    const Matrix matrix = random_matrix(random);
    BuildCase made;
    made.file = matrix_file_of(random, matrix);
    made.workspace = workspace_for(random, matrix);
    made.room = around(random, 20 + 16 * (matrix.n - 1));
    return made;
}

FlipsCase flips_case(Random& random) {
    const Matrix matrix = random_matrix(random);
    FlipsCase made;
    made.matrix = matrix_file_of(random, matrix);
    made.tree = maybe_damaged(random, oracle::answer_file(answer_for(random, matrix)));
    made.workspace = workspace_for(random, matrix);
    made.room = around(random, 20 + 16 * (matrix.n - 1) + 22 * matrix.columns.size());
    return made;
}

ReadCase read_case(Random& random) {
    Answer answer = some_answer(random);
    ReadCase made;
    made.list = around(random, answer.value.flip_count);
    if (random.chance(60)) spoil_records(random, answer);
    made.file = oracle::answer_file(answer);
    if (random.chance(40)) made.file = damaged(random, made.file);
    if (random.chance(3)) made.file = random_bytes(random);
    return made;
}

// Places past the last group and entries past the last flip hold anything: writing reads none of them.
WriteCase write_case(Random& random) {
    Answer answer = some_answer(random);
    for (std::size_t k = answer.value.group_count; k < answer.value.groups.size(); ++k)
        answer.value.groups[k] = oracle::Group{random.bits(), static_cast<std::uint32_t>(random.bits())};
    WriteCase made;
    made.room = around(random, oracle::answer_length(answer.value.group_count, answer.value.flip_count));
    const std::size_t list = around(random, answer.value.flip_count);
    if (random.chance(40)) spoil_records(random, answer);
    if (random.chance(20)) spoil_head(random, answer.value);
    made.value = answer.value;
    made.list = answer.flips;
    // One bit of a column, also of those that a byte has no room for.
    if (!made.list.empty() && random.chance(3)) {
        oracle::Flip& flip = made.list[random.below(made.list.size())];
        flip.column ^= static_cast<std::uint16_t>(1u << random.below(16));
    }
    while (made.list.size() > list) made.list.pop_back();
    while (made.list.size() < list)
        made.list.push_back(oracle::Flip{static_cast<std::uint16_t>(random.bits()), random.bits(), random.bits()});
    return made;
}

ScoreCase score_case(Random& random) {
    Matrix matrix = random_matrix(random);
    if (random.chance(50)) take_ones_out(random, matrix);
    const unsigned m = static_cast<unsigned>(matrix.columns.size());
    Answer answer;
    switch (random.below(8)) {
        case 0: answer = random_answer(random); break;  // mostly of another size
        case 1: answer = random_answer(random, matrix.n, (m + 1) % 257); break;
        case 2: answer = random_answer(random, matrix.n % 64 + 1, m); break;
        case 3:
        case 4: answer = oracle::answer_of(matrix); break;
        default: answer = random_answer(random, matrix.n, m); break;
    }
    if (random.chance(10)) spoil_records(random, answer);
    return {matrix_file_of(random, matrix), maybe_damaged(random, oracle::answer_file(answer))};
}

// Small matrices mostly fit a tree as they are. So in most of these each entry is by itself and few are unknown.
SmallScoreCase small_score_case(Random& random) {
    const bool unfit = random.chance(60);
    const unsigned n = static_cast<unsigned>(random.between(unfit ? 4 : 1, 6));
    const unsigned m = static_cast<unsigned>(random.between(unfit ? 2 : 0, 6));
    Style style = random_style(random);
    if (unfit) style.shape = Shape::free, style.known_percent = 80;
    SmallScoreCase made;
    made.matrix = random_matrix(random, n, m, style);
    if (random.chance(20)) take_ones_out(random, made.matrix);
    made.built = random.chance(40);
    made.answer = made.built ? oracle::answer_of(made.matrix) : random_answer(random, n, m);
    return made;
}

NewickCase newick_case(Random& random, const Bytes& text) {
    const oracle::NewickOutcome whole = oracle::read_newick(text, large, large);
    NewickCase made{text, random.below(120), random.below(60)};
    if (whole.refusal.refused()) return made;
    made.matrix_room = around(random, whole.matrix.size());
    made.names_room = around(random, whole.names.size());
    return made;
}

// Few names, or more than a tree may have.
Bytes names_case(Random& random) {
    const std::size_t most[] = {2, 8, 64, 200};
    const std::vector<std::string> names = random_names(random, random.below(most[random.below(4)] + 1));
    if (random.chance(30)) return oracle::names_file(names);
    return random.chance(95) ? unlawful_names(random, names) : random_bytes(random);
}

NewickTextCase newick_text_case(Random& random) {
    const unsigned taxa[] = {3, 6, 12, 64};
    const unsigned n = static_cast<unsigned>(random.between(1, taxa[random.below(4)]));
    Answer answer = random_answer(random, n, static_cast<unsigned>(random.below(6)));
    if (random.chance(10)) spoil_records(random, answer);
    const std::size_t counts[] = {n - 1, n + 1, 70, 0};
    const std::size_t count = random.chance(85) ? n : counts[random.below(4)];
    const std::vector<std::string> names = random_names(random, count);
    NewickTextCase made;
    made.answer = maybe_damaged(random, oracle::answer_file(answer));
    made.names = random.chance(10) ? unlawful_names(random, names) : oracle::names_file(names);
    const std::size_t length = oracle::write_newick(made.answer, made.names, large).text.size();
    made.room = around(random, length);
    return made;
}

}  // namespace gen
