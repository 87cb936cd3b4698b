#include "choices.h"

#include <algorithm>
#include <vector>

namespace oracle {

namespace {

struct Entry {
    std::size_t column;
    unsigned taxon;
};

// Never an unknown one: only these can be flipped.
std::vector<Entry> known_entries(const Matrix& matrix) {
    std::vector<Entry> entries;
    for (std::size_t c = 0; c < matrix.columns.size(); ++c)
        for (unsigned taxon : members(matrix.columns[c].zeros | matrix.columns[c].ones)) entries.push_back({c, taxon});
    return entries;
}

// A 0 becomes a 1, a 1 becomes a 0.
void flip(Matrix& matrix, const Entry& entry) {
    matrix.columns[entry.column].zeros ^= only(entry.taxon);
    matrix.columns[entry.column].ones ^= only(entry.taxon);
}

std::uint64_t weight_of(const Matrix& matrix, const Entry& entry) {
    const std::uint64_t multiplicity = matrix.multiplicities.empty() ? 1 : matrix.multiplicities[entry.taxon];
    return matrix.columns[entry.column].weight * multiplicity;
}

// The clades are the groups and the single taxa.
bool clade_or_nothing(TaxonSet ones, const AnswerValue& tree) {
    if (ones == 0) return true;
    if (size(ones) == 1) return true;
    for (std::size_t k = 0; k < tree.group_count; ++k)
        if (ones == tree.groups[k].taxa) return true;
    return false;
}

// Tries every subset of the unknown entries as those that become 1.
bool can_be_filled(const Column& column, const AnswerValue& tree) {
    const TaxonSet unknown = all_taxa(tree.n) & ~(column.zeros | column.ones);
    TaxonSet filled = 0;
    do {
        if (clade_or_nothing(column.ones | filled, tree)) return true;
        // Counts up in the bits of the unknown entries alone; after the last subset comes the empty one.
        filled = (filled - unknown) & unknown;
    } while (filled != 0);
    return false;
}

bool all_can_be_filled(const Matrix& matrix, const AnswerValue& tree) {
    return std::all_of(matrix.columns.begin(), matrix.columns.end(),
                       [&tree](const Column& column) { return can_be_filled(column, tree); });
}

}  // namespace

std::size_t known_count(const Matrix& matrix) { return known_entries(matrix).size(); }

std::uint64_t least_by_matrix(const Matrix& matrix, const AnswerValue& tree) {
    const std::vector<Entry> entries = known_entries(matrix);
    std::uint64_t least = ~std::uint64_t{0};
    // Bit k of a choice says whether entry k is flipped.
    for (std::uint64_t choice = 0; choice >> entries.size() == 0; ++choice) {
        Matrix flipped = matrix;
        std::uint64_t weight = 0;
        for (std::size_t k = 0; k < entries.size(); ++k) {
            if ((choice >> k) % 2 == 0) continue;
            flip(flipped, entries[k]);
            weight += weight_of(matrix, entries[k]);
        }
        if (all_can_be_filled(flipped, tree)) least = std::min(least, weight);
    }
    return least;
}

std::uint64_t least_by_columns(const Matrix& matrix, const AnswerValue& tree) {
    std::uint64_t sum = 0;
    for (const Column& column : matrix.columns)
        sum += least_by_matrix({matrix.n, matrix.multiplicities, {column}}, tree);
    return sum;
}

}  // namespace oracle
