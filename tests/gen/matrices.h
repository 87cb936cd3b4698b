// Random matrices that the check takes.
#pragma once

#include <vector>

#include "../oracle/matrix.h"
#include "random.h"

namespace gen {

// How the 1s of the columns relate.
enum class Shape {
    free,        // each entry by itself: conflicts everywhere
    tree,        // each column a clade of one tree: no conflict
    noisy_tree,  // the same with some entries turned over
    intervals,   // runs of neighbouring taxa
    blocks,      // blocks of taxa held together from inside, with columns of few 0s across: the
                 // least divisions part blocks, and the 0s decide what they cost
};
constexpr unsigned shape_count = 5;

enum class Weights { one, light, heavy, any };

struct Style {
    Shape shape = Shape::free;
    Weights weights = Weights::one;
    unsigned known_percent = 100;  // the rest of the entries is unknown
    bool merged = false;           // some taxa stand for several specimens: the file has multiplicities
};

// Merged in a third of the cases.
Style random_style(Random& random);

// The most specimens that the taxa of a matrix may stand for together.
constexpr unsigned most_specimens = 127;

// One multiplicity for each of n taxa, each at least 1 and together `sum`, or as much as n bytes hold; `sum` is n or more.
oracle::Bytes multiplicities_of_sum(Random& random, unsigned n, unsigned sum);

// Multiplicities that the check takes: not all 1, together at most 127 and often just that.
oracle::Bytes random_multiplicities(Random& random, unsigned n);

oracle::Matrix random_matrix(Random& random, unsigned n, unsigned m, const Style& style);

// Any size from 1x0 to 64x256, small ones more often, in any style.
oracle::Matrix random_matrix(Random& random);

// 256 columns of the heaviest weights, the taxa standing for the most specimens there can be: the largest costs.
oracle::Matrix heaviest_matrix(Random& random, unsigned n);

// Takes all 1s out of some of the columns, or of all of them: each becomes 0, or unknown, or either.
void take_ones_out(Random& random, oracle::Matrix& matrix);

// The clades of a random tree over n taxa that have two or more taxa, the whole first.
std::vector<oracle::TaxonSet> random_clades(Random& random, unsigned n);

}  // namespace gen
