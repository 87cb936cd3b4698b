// The independent program by itself, as to document 02's C-11: the worked cases, its two ways to read source trees against
// each other, and its text of a tree against another way to make it.
//   oracle_newick_trial FOLDER [COUNT]
#include <algorithm>

#include "gen/answers.h"
#include "gen/texts.h"
#include "oracle/name_list.h"
#include "oracle/newick_text.h"
#include "oracle/rewriting.h"
#include "tally.h"
#include "trial.h"
#include "worked.h"

namespace {

using oracle::Bytes;
using oracle::TaxonSet;

constexpr std::size_t large = 1 << 20;

// Reading from left to right, and by rewriting, continuations and counted brackets.
void compare(Tally& tally, const Bytes& text) {
    const oracle::NewickOutcome read = oracle::read_newick(text, large, large);
    const oracle::Refusal fault = oracle::first_fault(text);
    if (read.refusal != fault)
        tally.differ("read: " + oracle::text(read.refusal) + ", by rewriting: " + oracle::text(fault), text);
    if (!fault.refused()) {
        const oracle::SourceTrees trees = oracle::trees_by_brackets(text);
        if (read.matrix != oracle::matrix_file(trees.matrix) || read.names != oracle::names_file(trees.names))
            tally.differ("what is read, and what brackets hold", text);
    }
    tally.agreed(fault.number);
}

void worked_cases(Tally& tally) {
    for (const WorkedText& worked : worked_texts()) {
        const oracle::NewickOutcome read = oracle::read_newick(worked.text, large, large);
        if (read.refusal != worked.refusal) tally.differ(worked.what + ": " + oracle::text(read.refusal), worked.text);
        if (!worked.matrix.empty() && read.matrix != worked.matrix) tally.differ("the matrix of " + worked.what, worked.text);
        if (!worked.names.empty() && read.names != worked.names) tally.differ("the names of " + worked.what, worked.text);
        if (worked.text.size() < 2000) compare(tally, worked.text);
    }
    for (const WorkedList& worked : worked_lists()) {
        const oracle::NamesOutcome found = oracle::check_names(worked.file);
        if (found.refusal != worked.refusal || found.count != worked.count) tally.differ(worked.what, worked.file);
    }
    for (const WorkedTree& worked : worked_trees()) {
        const oracle::NewickTextOutcome found = oracle::write_newick(worked.answer, worked.names, worked.room);
        if (found.refusal != worked.refusal || found.text != bytes_of(worked.text)) tally.differ(worked.what, worked.answer);
    }
}

// Every text of so many bytes over few letters.
void short_texts(Tally& tally, std::size_t longest, Bytes& text) {
    compare(tally, text);
    if (text.size() == longest) return;
    for (char letter : {'(', ')', ',', ';', 'A', 'B', ' ', '*'}) {
        text.push_back(static_cast<std::uint8_t>(letter));
        short_texts(tally, longest, text);
        text.pop_back();
    }
}

// From the root down: a taxon's part is the largest group inside this one that has it, or the taxon alone.
std::string text_below(const oracle::AnswerValue& tree, const std::vector<std::string>& names, TaxonSet group) {
    if (oracle::size(group) == 1) return names[oracle::lowest(group)];
    std::string text;
    for (TaxonSet left = group; left != 0;) {
        TaxonSet part = oracle::only(oracle::lowest(left));
        for (std::size_t k = 0; k < tree.group_count; ++k) {
            const TaxonSet other = tree.groups[k].taxa;
            if (oracle::within(part, other) && oracle::within(other, left) && other != group) part = other;
        }
        text += (text.empty() ? "(" : ",") + text_below(tree, names, part);
        left &= ~part;
    }
    return text + ")";
}

// What is written is of the grammar, has no blank, and is the same from the root down.
void written_case(Tally& tally, gen::Random& random) {
    const oracle::AnswerValue tree = gen::random_answer(random).value;
    const std::vector<std::string> names = gen::random_names(random, tree.n);
    const std::string text = oracle::newick_text(tree, names);
    const Bytes bytes = bytes_of(text);
    if (text != text_below(tree, names, oracle::all_taxa(tree.n)) + ";" || !oracle::is_trees(bytes))
        tally.differ("a tree's text from the leaves up, and from the root down", bytes);
    compare(tally, bytes);
}

}  // namespace

int main(int argc, char** argv) {
    const TrialWords words = trial_words(argc, argv, 2000);
    Tally tally("oracle-newick", words.folder);
    gen::Random random(12);
    worked_cases(tally);
    Bytes text;
    short_texts(tally, 6, text);
    for (unsigned long k = 0; k < words.count; ++k) {
        const Bytes trees = gen::random_trees(random);
        compare(tally, trees);
        compare(tally, gen::damaged_text(random, trees));
        compare(tally, gen::wandering_text(random));
        if (k % 4 == 0) compare(tally, gen::lavish_trees(random));
        written_case(tally, random);
    }
    tally.finish({0, 16, 17, 18, 19, 20});
    return 0;
}
