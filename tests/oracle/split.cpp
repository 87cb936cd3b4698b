#include "split.h"

#include <algorithm>

namespace oracle {

namespace {

// What a division flips in one participating column; empty sets where a or b is 0.
Flip flip_of(const Matrix& matrix, const Column& column, TaxonSet group, TaxonSet side) {
    const TaxonSet ones_in_a = column.ones & side;
    const TaxonSet ones_in_b = column.ones & group & ~side;
    const TaxonSet zeros = column.zeros & group;
    Flip flip;
    if (ones_in_a == 0 || ones_in_b == 0) return flip;
    const std::uint64_t a = mass(matrix, ones_in_a), b = mass(matrix, ones_in_b), z = mass(matrix, zeros);
    if (z <= std::min(a, b)) flip.raised = zeros;
    else if (a <= b) flip.lowered = ones_in_a;
    else flip.lowered = ones_in_b;
    return flip;
}

void apply(const Flip& flip, Column& column) {
    column.ones = (column.ones | flip.raised) & ~flip.lowered;
    column.zeros = (column.zeros | flip.lowered) & ~flip.raised;
}

// Joins all parts that hold one of these taxa.
void join(std::vector<TaxonSet>& parts, TaxonSet taxa) {
    TaxonSet joined = 0;
    std::vector<TaxonSet> others;
    for (TaxonSet part : parts) {
        if ((part & taxa) != 0) joined |= part;
        else others.push_back(part);
    }
    if (joined != 0) others.push_back(joined);
    parts = others;
}

}  // namespace

GroupSplit split_group(Matrix& matrix, TaxonSet group) {
    const Division division = least_division(matrix, group);
    GroupSplit split;
    split.cost = division.cost;
    for (unsigned taxon : members(group)) split.parts.push_back(only(taxon));
    for (std::size_t c = 0; c < matrix.columns.size(); ++c) {
        Column& column = matrix.columns[c];
        if (!participates(column, group)) continue;
        Flip flip = flip_of(matrix, column, group, division.side);
        apply(flip, column);
        if (flip.raised == 0) join(split.parts, column.ones & group);  // a raised column is dropped
        flip.column = static_cast<std::uint16_t>(c);
        if ((flip.raised | flip.lowered) != 0) split.flips.push_back(flip);
    }
    std::sort(split.parts.begin(), split.parts.end(),
              [](TaxonSet x, TaxonSet y) { return lowest(x) < lowest(y); });
    return split;
}

// "The file's refusals come first, then 11, 9, 10." "9 now means shorter than the count of 1-entries", of the whole matrix.
SplitOutcome split(const Bytes& file, TaxonSet group, std::size_t workspace) {
    SplitOutcome outcome;
    try {
        const Matrix matrix = read_matrix(file);
        if (size(group) < 2 || !within(group, all_taxa(matrix.n))) refuse(11, 0);
        if (workspace < one_entries(matrix)) refuse(9, 0);
        outcome.division = least_division(matrix, group);
        outcome.cleared = one_entries(matrix);
    } catch (const Refusal& refusal) {
        outcome.refusal = refusal;
    }
    return outcome;
}

}  // namespace oracle
