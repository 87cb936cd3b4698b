#include "supertree.h"

#include <algorithm>

#include "build.h"
#include "newick_text.h"
#include "source_trees.h"

namespace oracle {

namespace {

std::string words(const Bytes& text, const Refusal& refusal) {
    const bool at_end = refusal.place == text.size();
    switch (refusal.number) {
        case 16: return at_end ? "the text ends before a tree does" : "this byte cannot stand here";
        case 17: return "a name is longer than 32 characters";
        case 18: return "a name stands twice in one tree";
        case 19: return text[refusal.place] == '(' ? "there are more than 256 groups" : "there are more than 64 names";
        default: return "more than 64 brackets are open";
    }
}

// Line and column, both from 1: the line feeds before the place, and the bytes since the last of them.
std::string spot(const Bytes& text, std::size_t place) {
    const Bytes before(text.begin(), text.begin() + static_cast<std::ptrdiff_t>(place));
    const auto lines = std::count(before.begin(), before.end(), '\n');
    const auto columns = std::find(before.rbegin(), before.rend(), '\n') - before.rbegin();
    return "line " + std::to_string(lines + 1) + ", column " + std::to_string(columns + 1);
}

}  // namespace

SupertreeOutcome supertree(const Bytes& text) {
    if (text.size() > longest_text) return {{}, "", "the text is longer than " + std::to_string(longest_text) + " bytes\n"};
    try {
        const SourceTrees trees = read_trees(text);
        return {{}, newick_text(answer_of(trees.matrix).value, trees.names) + "\n", ""};
    } catch (const Refusal& refusal) {
        return {refusal, "", oracle::text(refusal) + ": " + words(text, refusal) + ", " + spot(text, refusal.place) + "\n"};
    }
}

}  // namespace oracle
