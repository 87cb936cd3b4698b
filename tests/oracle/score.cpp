#include "score.h"

#include <algorithm>

namespace oracle {

namespace {

// The clusters of the tree: its groups, and each single taxon.
std::vector<TaxonSet> nodes_of(const AnswerValue& value) {
    std::vector<TaxonSet> nodes;
    for (std::size_t k = 0; k < value.group_count; ++k) nodes.push_back(value.groups[k].taxa);
    for (unsigned taxon = 0; taxon < value.n; ++taxon) nodes.push_back(only(taxon));
    return nodes;
}

Flips flips_to(const Matrix& matrix, const Column& column, TaxonSet cluster) {
    return {column.weight * mass(matrix, column.zeros & cluster), column.weight * mass(matrix, column.ones & ~cluster)};
}

// The least distance counts; among equal ones the one with fewest raises.
bool counts_before(const Flips& x, const Flips& y) {
    const std::uint64_t of_x = x.raises + x.lowers, of_y = y.raises + y.lowers;
    return of_x != of_y ? of_x < of_y : x.raises < y.raises;
}

}  // namespace

Flips nearest_flips(const Matrix& matrix, const Column& column, const AnswerValue& tree) {
    std::vector<Flips> all;
    for (TaxonSet node : nodes_of(tree)) all.push_back(flips_to(matrix, column, node));
    return *std::min_element(all.begin(), all.end(), counts_before);
}

ScoreOutcome score(const Bytes& matrix_file, const Bytes& answer_file) {
    ScoreOutcome outcome;
    try {
        const Matrix matrix = read_matrix(matrix_file);
        const AnswerValue tree = read_answer(answer_file).value;
        if (matrix.n != tree.n || matrix.columns.size() != tree.m) refuse(15, 0);
        for (const Column& column : matrix.columns) {
            if (column.ones == 0) continue;
            const Flips flips = nearest_flips(matrix, column, tree);
            outcome.raises += flips.raises;
            outcome.lowers += flips.lowers;
        }
    } catch (const Refusal& refusal) {
        outcome.refusal = refusal;
    }
    return outcome;
}

}  // namespace oracle
