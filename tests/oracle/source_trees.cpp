#include "source_trees.h"

#include <algorithm>

#include "name_list.h"

namespace oracle {

namespace {

struct Vertex {
    TaxonSet taxa = 0;          // all names at it and below
    std::vector<Vertex> parts;  // none for a leaf
};

// Goes through the text once, subtree by subtree. Nothing is refused at a place before one that was passed, so what is
// refused first has the lowest place, and at one place the lower number is tried first.
class TreeReader {
public:
    explicit TreeReader(const Bytes& text) : text_(text) {}

    SourceTrees all_trees() {
        do {
            taxa_here_ = 0;
            const Vertex root = subtree(0);
            pass(';');
            put_columns(root, root.taxa);
            skip_blanks();
        } while (at_ < text_.size());
        trees_.matrix.n = static_cast<unsigned>(trees_.names.size());
        return trees_;
    }

private:
    bool next_is(char byte) const { return at_ < text_.size() && text_[at_] == static_cast<std::uint8_t>(byte); }

    void skip_blanks() {
        while (next_is(' ') || next_is('\t') || next_is('\r') || next_is('\n')) ++at_;
    }

    void pass(char byte) {
        if (!next_is(byte)) refuse(16, at_);
        ++at_;
    }

    // "A subtree is a name or two or more subtrees, commas between, in round brackets."
    Vertex subtree(unsigned open) {
        skip_blanks();
        Vertex vertex = next_is('(') ? bracket(open) : leaf();
        skip_blanks();
        return vertex;
    }

    // "Every inner vertex but the root gives a column"
    Vertex bracket(unsigned open) {
        if (open > 0 && ++inner_brackets_ > most_columns) refuse(19, at_);
        if (open == most_open_brackets) refuse(20, at_);
        pass('(');
        Vertex vertex;
        put_part(vertex, subtree(open + 1));
        do {
            pass(',');
            put_part(vertex, subtree(open + 1));
        } while (!next_is(')'));
        pass(')');
        return vertex;
    }

    static void put_part(Vertex& vertex, Vertex part) {
        vertex.taxa |= part.taxa;
        vertex.parts.push_back(std::move(part));
    }

    Vertex leaf() {
        const std::size_t start = at_;
        while (at_ < text_.size() && may_be_in_a_name(text_[at_])) ++at_;
        if (at_ == start) refuse(16, start);
        if (at_ - start > longest_name) refuse(17, start + longest_name);
        const auto first = text_.begin() + static_cast<std::ptrdiff_t>(start);
        const unsigned taxon = number_of(std::string(first, first + static_cast<std::ptrdiff_t>(at_ - start)), start);
        if (has(taxa_here_, taxon)) refuse(18, start);
        taxa_here_ |= only(taxon);
        return {only(taxon), {}};
    }

    // "Taxa are numbered by first appearance."
    unsigned number_of(const std::string& name, std::size_t start) {
        std::vector<std::string>& names = trees_.names;
        const auto found = std::find(names.begin(), names.end(), name);
        const unsigned number = static_cast<unsigned>(found - names.begin());
        if (found == names.end()) {
            if (names.size() == most_names) refuse(19, start);
            names.push_back(name);
        }
        return number;
    }

    // "Trees give columns in file order, vertices in order of their opening bracket."
    void put_columns(const Vertex& vertex, TaxonSet tree) {
        for (const Vertex& part : vertex.parts) {
            if (part.parts.empty()) continue;
            trees_.matrix.columns.push_back({1, part.taxa, tree & ~part.taxa});
            put_columns(part, tree);
        }
    }

    const Bytes& text_;
    std::size_t at_ = 0;
    std::size_t inner_brackets_ = 0;
    TaxonSet taxa_here_ = 0;  // in the tree at hand
    SourceTrees trees_;
};

}  // namespace

SourceTrees read_trees(const Bytes& text) { return TreeReader(text).all_trees(); }

NewickOutcome read_newick(const Bytes& text, std::size_t matrix_room, std::size_t names_room) {
    NewickOutcome outcome;
    try {
        const SourceTrees trees = read_trees(text);
        const Bytes matrix = matrix_file(trees.matrix), names = names_file(trees.names);
        if (matrix_room < matrix.size() || names_room < names.size()) refuse(10, 0);
        outcome.matrix = matrix;
        outcome.names = names;
    } catch (const Refusal& refusal) {
        outcome.refusal = refusal;
    }
    return outcome;
}

}  // namespace oracle
