#include "newick_text.h"

#include <algorithm>
#include <map>

#include "name_list.h"

namespace oracle {

namespace {

// The text of each part so far, by the part's lowest taxon.
using Parts = std::map<unsigned, std::string>;

// Puts the parts that a group holds together. "without blanks, parts by lowest taxon"
void bracket(Parts& parts, TaxonSet group) {
    std::string text;
    for (unsigned taxon : members(group)) {
        const auto part = parts.find(taxon);
        if (part == parts.end()) continue;
        text += (text.empty() ? "(" : ",") + part->second;
        parts.erase(part);
    }
    parts[lowest(group)] = text + ")";
}

}  // namespace

// From the leaves up: any two groups are nested or disjoint, so the smaller ones are whole when a larger one is made.
std::string newick_text(const AnswerValue& tree, const std::vector<std::string>& names) {
    Parts parts;
    for (unsigned taxon = 0; taxon < tree.n; ++taxon) parts[taxon] = names[taxon];
    std::vector<TaxonSet> groups;
    for (std::size_t k = 0; k < tree.group_count; ++k) groups.push_back(tree.groups[k].taxa);
    std::sort(groups.begin(), groups.end(), [](TaxonSet x, TaxonSet y) { return size(x) < size(y); });
    for (TaxonSet group : groups) bracket(parts, group);
    return parts[0] + ";";
}

// "inputs are read in the order named", then 15, and "room (10) .. comes last"
NewickTextOutcome write_newick(const Bytes& answer_file, const Bytes& names_file, std::size_t room) {
    NewickTextOutcome outcome;
    try {
        const AnswerValue tree = read_answer(answer_file).value;
        const std::vector<std::string> names = read_names(names_file);
        if (names.size() != tree.n) refuse(15, 0);
        const std::string text = newick_text(tree, names);
        if (room < text.size()) refuse(10, 0);
        outcome.text = Bytes(text.begin(), text.end());
    } catch (const Refusal& refusal) {
        outcome.refusal = refusal;
    }
    return outcome;
}

}  // namespace oracle
