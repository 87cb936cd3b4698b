#include "rewriting.h"

#include <algorithm>
#include <cctype>
#include <optional>
#include <set>

namespace oracle {

namespace {

bool is_blank(std::uint8_t byte) { return byte == 9 || byte == 10 || byte == 13 || byte == 32; }

// In the "C" locale, where no byte from 128 on is a letter.
bool is_letter(std::uint8_t byte) { return std::isalnum(byte) != 0 || byte == '.' || byte == '-' || byte == '_'; }

// A name, as a run of letters that cannot be longer.
struct Run {
    std::size_t start;
    std::string name;
};

// Those that start before `end`.
std::vector<Run> runs(const Bytes& text, std::size_t end) {
    std::vector<Run> found;
    for (std::size_t at = 0; at < end; ++at) {
        if (!is_letter(text[at]) || (at > 0 && is_letter(text[at - 1]))) continue;
        const auto first = text.begin() + static_cast<std::ptrdiff_t>(at);
        found.push_back({at, std::string(first, std::find_if_not(first, text.end(), is_letter))});
    }
    return found;
}

// A name becomes `n`, blanks go, any other byte stays.
std::string shape_of(const Bytes& text) {
    std::string shape;
    for (std::size_t at = 0; at < text.size(); ++at) {
        if (is_letter(text[at])) {
            if (at == 0 || !is_letter(text[at - 1])) shape += 'n';
        } else if (!is_blank(text[at])) {
            shape += static_cast<char>(text[at]);
        }
    }
    return shape;
}

// Whether it is `unit` so often or more often, with `between` between.
bool repeats(const std::string& text, const std::string& unit, const std::string& between, std::size_t least) {
    std::string made = unit;
    for (std::size_t count = 1; made.size() <= text.size(); ++count, made += between + unit)
        if (made == text) return count >= least;
    return false;
}

std::size_t count_before(const Bytes& text, std::size_t end, char byte) {
    return static_cast<std::size_t>(std::count(text.begin(), text.begin() + static_cast<std::ptrdiff_t>(end), byte));
}

// How many brackets are open before a place.
std::size_t depth_at(const Bytes& text, std::size_t place) {
    return count_before(text, place, '(') - count_before(text, place, ')');
}

Bytes followed_by(Bytes start, const std::string& rest) {
    start.insert(start.end(), rest.begin(), rest.end());
    return start;
}

// Whether something makes a beginning a whole text. Where a subtree is due, a name is one; where one has ended, each open
// bracket is closed after one subtree more, and the tree by a semicolon.
bool can_go_on(const Bytes& start) {
    std::string closing;
    const std::size_t opened = count_before(start, start.size(), '('), closed = count_before(start, start.size(), ')');
    for (std::size_t k = closed; k < opened; ++k) closing += ",n)";
    closing += ";";
    return is_trees(start) || is_trees(followed_by(start, closing)) || is_trees(followed_by(start, "n" + closing));
}

// "at the first byte that cannot stand there or the file's end": what can go on had a beginning that could, so it is found by
// halves.
std::optional<std::size_t> first_wrong_byte(const Bytes& text) {
    std::size_t good = 0, wrong = text.size() + 1;  // lengths of beginnings
    while (wrong - good > 1) {
        const std::size_t middle = good + (wrong - good) / 2;
        const Bytes start(text.begin(), text.begin() + static_cast<std::ptrdiff_t>(middle));
        (can_go_on(start) ? good : wrong) = middle;
    }
    if (good < text.size()) return good;
    return is_trees(text) ? std::nullopt : std::optional<std::size_t>(text.size());
}

using Fault = std::pair<std::size_t, unsigned>;  // place and number: the least one counts

// Of the names that start before `end`: 17, 18 and 19.
void name_faults(std::vector<Fault>& faults, const Bytes& text, std::size_t end) {
    std::set<std::string> in_file;
    std::set<std::pair<std::size_t, std::string>> in_tree;  // a tree is told by the semicolons before it
    for (const auto& [start, name] : runs(text, end)) {
        const bool repeated = !in_tree.insert({count_before(text, start, ';'), name}).second;
        in_file.insert(name);
        if (name.size() > 32) faults.push_back({start + 32, 17});
        else if (repeated) faults.push_back({start, 18});
        else if (in_file.size() > 64) faults.push_back({start, 19});
    }
}

// Of the brackets before `end`: 19 and 20.
void bracket_faults(std::vector<Fault>& faults, const Bytes& text, std::size_t end) {
    std::size_t columns = 0;
    for (std::size_t at = 0; at < end; ++at) {
        if (text[at] != '(') continue;
        const std::size_t depth = depth_at(text, at);
        if (depth > 0) ++columns;
        if (columns > 256) faults.push_back({at, 19});
        if (depth + 1 > 64) faults.push_back({at, 20});
    }
}

// Past the bracket that closes the one here: as many are closed as opened.
std::size_t past_its_close(const Bytes& text, std::size_t open) {
    std::size_t opened = 0, closed = 0, at = open;
    do {
        if (text[at] == '(') ++opened;
        if (text[at] == ')') ++closed;
        ++at;
    } while (closed < opened);
    return at;
}

// The names between two places, as taxa.
TaxonSet taxa_between(const Bytes& text, const std::vector<std::string>& names, std::size_t first, std::size_t end) {
    TaxonSet taxa = 0;
    for (const auto& [start, name] : runs(text, end))
        if (start >= first) taxa |= only(static_cast<unsigned>(std::find(names.begin(), names.end(), name) - names.begin()));
    return taxa;
}

}  // namespace

// "A subtree is a name or two or more subtrees, commas between, in round brackets." So a bracket without a bracket in it that
// holds two or more names may be taken for a name.
bool is_trees(const Bytes& text) {
    std::string shape = shape_of(text);
    for (std::size_t close; (close = shape.find(')')) != std::string::npos;) {
        const std::size_t open = shape.rfind('(', close);
        if (open == std::string::npos || !repeats(shape.substr(open + 1, close - open - 1), "n", ",", 2)) return false;
        shape.replace(open, close - open + 1, "n");
    }
    return repeats(shape, "n;", "", 1);
}

// "the first place decides, then the lower number"
Refusal first_fault(const Bytes& text) {
    std::vector<Fault> faults;
    const std::optional<std::size_t> wrong = first_wrong_byte(text);
    if (wrong) faults.push_back({*wrong, 16});
    name_faults(faults, text, wrong.value_or(text.size()));
    bracket_faults(faults, text, wrong.value_or(text.size()));
    if (faults.empty()) return {};
    const auto [place, number] = *std::min_element(faults.begin(), faults.end());
    return {number, place};
}

SourceTrees trees_by_brackets(const Bytes& text) {
    SourceTrees trees;
    for (const Run& run : runs(text, text.size()))
        if (std::find(trees.names.begin(), trees.names.end(), run.name) == trees.names.end()) trees.names.push_back(run.name);
    trees.matrix.n = static_cast<unsigned>(trees.names.size());
    for (std::size_t open = 0; open < text.size(); ++open) {
        if (text[open] != '(' || depth_at(text, open) == 0) continue;
        std::size_t first = open, last = open;
        while (first > 0 && text[first - 1] != ';') --first;
        while (text[last] != ';') ++last;
        const TaxonSet ones = taxa_between(text, trees.names, open, past_its_close(text, open));
        trees.matrix.columns.push_back({1, ones, taxa_between(text, trees.names, first, last) & ~ones});
    }
    return trees;
}

}  // namespace oracle
