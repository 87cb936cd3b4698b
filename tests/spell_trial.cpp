// Compares flipcut_write_newick, called as C calls it, with the independent program: numbers and output; and reads what it
// wrote back with flipcut_read_newick: the same clades of names.
//   spell_trial FOLDER [COUNT]
#include <set>

#include "gen/answers.h"
#include "gen/cases.h"
#include "gen/damage.h"
#include "gen/texts.h"
#include "lent.h"
#include "oracle/matrix.h"
#include "oracle/name_list.h"
#include "oracle/newick_text.h"
#include "packed.h"
#include "tally.h"
#include "trial.h"
#include "worked.h"

namespace {

using gen::NewickTextCase;
using oracle::Bytes;
using Clade = std::set<std::string>;

// The answer and the names, one after the other; each one's own records say where it ends.
Bytes both(const NewickTextCase& given) {
    Bytes file = given.answer;
    file.insert(file.end(), given.names.begin(), given.names.end());
    return file;
}

Clade named(oracle::TaxonSet taxa, const std::vector<std::string>& names) {
    Clade clade;
    for (unsigned taxon : oracle::members(taxa)) clade.insert(names[taxon]);
    return clade;
}

// The clades of two names or more, the whole among them.
std::multiset<Clade> clades_of(const NewickTextCase& given) {
    const oracle::AnswerValue tree = oracle::read_answer(given.answer).value;
    const std::vector<std::string> names = oracle::read_names(given.names);
    std::multiset<Clade> clades;
    for (std::size_t k = 0; k < tree.group_count; ++k) clades.insert(named(tree.groups[k].taxa, names));
    return clades;
}

// The same of a text that holds one tree, as the library reads it: the whole, and what each column has; all else it has not.
std::multiset<Clade> clades_read(const Tally& tally, const Bytes& text) {
    Bytes matrix_file(FLIPCUT_MOST_SOURCE_MATRIX), names_file(FLIPCUT_MOST_NAMES);
    const std::uint64_t packed = flipcut_read_newick(text.data(), text.size(), matrix_file.data(), matrix_file.size(),
                                                     names_file.data(), names_file.size());
    if (flipcut_refused(packed)) tally.differ("what is written is " + oracle::text(refusal_of(packed)), text);
    matrix_file.resize(flipcut_written(packed));
    names_file.resize(flipcut_names_written(packed));
    if (oracle::check(matrix_file).refusal.refused() || oracle::check_names(names_file).refusal.refused())
        tally.differ("what is written is read to no matrix, or to no name list", text);
    const oracle::Matrix matrix = oracle::read_matrix(matrix_file);
    const std::vector<std::string> names = oracle::read_names(names_file);
    std::multiset<Clade> clades;
    if (matrix.n > 1) clades.insert(named(oracle::all_taxa(matrix.n), names));
    for (const oracle::Column& column : matrix.columns) {
        if ((column.ones | column.zeros) != oracle::all_taxa(matrix.n)) tally.differ("a column that lacks names", text);
        clades.insert(named(column.ones, names));
    }
    return clades;
}

void compare(Tally& tally, gen::Random& random, const NewickTextCase& given, const Call& call = usual_call) {
    const oracle::NewickTextOutcome expected = oracle::write_newick(given.answer, given.names, given.room);
    const std::uint64_t written = expected.text.size();
    Lent<std::uint8_t> out(random, given.room);
    const auto answer = passed(given.answer, call), names = passed(given.names, call);
    const auto bytes = out.passed(call);
    const std::uint64_t packed =
        flipcut_write_newick(answer.start, answer.length, names.start, names.length, bytes.start, bytes.length);
    const std::string which = " for room " + std::to_string(given.room) + " (the file has the answer, " +
                              std::to_string(given.answer.size()) + " bytes, and then the names)";
    compare_packed(tally, packed, expected.refusal, written << 32, which, both(given));
    if (flipcut_written(packed) != written) tally.differ("the length" + which, both(given));
    if (!out.holds(expected.text)) tally.differ("the text" + which, both(given));
    if (!expected.refusal.refused() && clades_read(tally, expected.text) != clades_of(given))
        tally.differ("what is written does not read back to the same clades" + which, both(given));
    tally.agreed(expected.refusal.number);
}

// As document 02's words have them.
void worked_cases(Tally& tally, gen::Random& random) {
    for (const WorkedTree& worked : worked_trees()) {
        Bytes out(worked.room);
        const std::uint64_t packed = flipcut_write_newick(worked.answer.data(), worked.answer.size(), worked.names.data(),
                                                          worked.names.size(), out.data(), out.size());
        out.resize(flipcut_written(packed));
        const NewickTextCase given{worked.answer, worked.names, worked.room};
        if (refusal_of(packed) != worked.refusal || out != bytes_of(worked.text))
            tally.differ(worked.what + " is not as document 02 says", both(given));
        compare(tally, random, given);
    }
}

// An answer of these clades, by lowest taxon, the larger first.
Bytes tree_of(unsigned n, const std::vector<oracle::TaxonSet>& groups) {
    oracle::Answer answer;
    answer.value.n = static_cast<std::uint16_t>(n);
    answer.value.group_count = static_cast<std::uint16_t>(groups.size());
    for (std::size_t k = 0; k < groups.size(); ++k) answer.value.groups[k].taxa = groups[k];
    return oracle::answer_file(answer);
}

// Trees of n taxa: a star; the deepest, growing at its last taxon and at its first; pairs.
std::vector<Bytes> plain_trees(unsigned n) {
    const oracle::TaxonSet all = oracle::all_taxa(n);
    if (n == 1) return {tree_of(1, {})};
    std::vector<oracle::TaxonSet> last, first, pairs{all};
    for (unsigned taxon = 0; taxon + 1 < n; ++taxon) {
        last.push_back(all & ~oracle::all_taxa(taxon));
        first.push_back(oracle::all_taxa(n - taxon));
        if (taxon % 2 == 0 && n > 2) pairs.push_back(oracle::only(taxon) | oracle::only(taxon + 1));
    }
    return {tree_of(n, {all}), tree_of(n, last), tree_of(n, first), tree_of(n, pairs)};
}

// With every room, from none to a few bytes more than the text has; and with one name more or less.
void every_room(Tally& tally, gen::Random& random) {
    for (unsigned n : {1u, 2u, 3u, 7u, 64u}) {
        std::vector<std::string> names = gen::random_names(random, n);
        const Bytes list = oracle::names_file(names);
        for (const Bytes& answer : plain_trees(n)) {
            const std::size_t length = oracle::write_newick(answer, list, FLIPCUT_MOST_NEWICK).text.size();
            for (std::size_t room = 0; room < length + 3; ++room) compare(tally, random, {answer, list, room});
            const std::vector<std::string> fewer(names.begin(), names.end() - 1);
            compare(tally, random, {answer, oracle::names_file(fewer), length});
            std::vector<std::string> more = names;
            more.push_back("one_more_than_there_are_taxa");
            compare(tally, random, {answer, oracle::names_file(more), length});
        }
    }
}

// The header's constant is what the largest text needs: 64 names of 32 bytes, 63 groups.
void largest_length(Tally& tally, gen::Random& random) {
    std::vector<std::string> names;
    for (unsigned taxon = 0; taxon < 64; ++taxon) names.push_back(std::to_string(100 + taxon) + std::string(29, '.'));
    const NewickTextCase largest{plain_trees(64)[1], oracle::names_file(names), FLIPCUT_MOST_NEWICK};
    if (oracle::write_newick(largest.answer, largest.names, largest.room).text.size() != FLIPCUT_MOST_NEWICK)
        tally.differ("the header's constant", both(largest));
    for (std::size_t room = FLIPCUT_MOST_NEWICK - 2; room < FLIPCUT_MOST_NEWICK + 3; ++room)
        compare(tally, random, {largest.answer, largest.names, room});
}

// Every cut of either file and every other byte in it.
void every_prefix_and_byte(Tally& tally, gen::Random& random) {
    const std::vector<std::string> names{"Rosa_canina", "Malus", "P.avium", "x-1"};
    const NewickTextCase whole{oracle::answer_file(gen::random_answer(random, 4, 2)), oracle::names_file(names), 64};
    for (const Bytes& other : gen::prefixes(whole.answer)) compare(tally, random, {other, whole.names, 64});
    for (const Bytes& other : gen::prefixes(whole.names)) compare(tally, random, {whole.answer, other, 64});
    for (const Bytes& other : gen::byte_changes(whole.answer)) compare(tally, random, {other, whole.names, 64});
    for (const Bytes& other : gen::all_byte_changes(whole.names)) compare(tally, random, {whole.answer, other, 64});
    // Both files wrong, and no room.
    for (const Bytes& other : gen::byte_changes(whole.answer)) compare(tally, random, {other, {}, 0});
    for (const Bytes& other : gen::byte_changes(whole.names)) compare(tally, random, {whole.answer, other, 0});
}

// Empty files and no output; a text is never empty, so there no room is too little.
void unusual_cases(Tally& tally, gen::Random& random) {
    const Bytes answer = tree_of(3, {7, 6}), names = oracle::names_file({"A", "B", "C"});
    for (const Call& call : unusual_calls) {
        compare(tally, random, {answer, names, 10}, call);
        compare(tally, random, {{}, names, 10}, call);
        compare(tally, random, {answer, {}, 10}, call);
        compare(tally, random, {answer, names, 0}, call);
        compare(tally, random, {{}, {}, 0}, call);
    }
}

// Source trees read, built and written by the library.
void built_case(Tally& tally, gen::Random& random) {
    static std::vector<std::int32_t> workspace(FLIPCUT_MOST_WORKSPACE);
    const Bytes text = gen::random_trees(random);
    Bytes matrix(FLIPCUT_MOST_SOURCE_MATRIX), names(FLIPCUT_MOST_NAMES), answer(FLIPCUT_MOST_ANSWER);
    const std::uint64_t read =
        flipcut_read_newick(text.data(), text.size(), matrix.data(), matrix.size(), names.data(), names.size());
    const std::uint64_t built = flipcut_build(matrix.data(), flipcut_written(read), workspace.data(), workspace.size(),
                                              answer.data(), answer.size());
    if (flipcut_refused(read) || flipcut_refused(built)) tally.differ("source trees are not read, or not built", text);
    names.resize(flipcut_names_written(read));
    answer.resize(flipcut_written(built));
    compare(tally, random, {answer, names, FLIPCUT_MOST_NEWICK});
}

}  // namespace

int main(int argc, char** argv) {
    const TrialWords words = trial_words(argc, argv, 20000);
    Tally tally("spell", words.folder);
    gen::Random random(11);
    worked_cases(tally, random);
    every_room(tally, random);
    largest_length(tally, random);
    every_prefix_and_byte(tally, random);
    unusual_cases(tally, random);
    for (unsigned long k = 0; k < words.count; ++k) compare(tally, random, gen::newick_text_case(random));
    for (unsigned long k = 0; k < words.count / 8; ++k) built_case(tally, random);
    tally.finish({0, 1, 2, 3, 4, 6, 8, 10, 12, 13, 14, 15, 16, 18});
    return 0;
}
