#include "matrices.h"

#include <algorithm>

namespace gen {

using oracle::all_taxa;
using oracle::Bytes;
using oracle::Column;
using oracle::Matrix;
using oracle::TaxonSet;

namespace {

constexpr unsigned most_in_a_byte = 255;

std::uint64_t random_weight(Random& random, Weights weights) {
    switch (weights) {
        case Weights::one: return 1;
        case Weights::light: return random.between(1, 4);
        case Weights::heavy: return random.between(60000, 65535);
        case Weights::any: return random.chance(10) ? 65535 : random.between(1, 65535);
    }
    return 1;
}

// Each taxon with the chance given.
TaxonSet random_set(Random& random, unsigned n, unsigned percent) {
    TaxonSet set = 0;
    for (unsigned i = 0; i < n; ++i)
        if (random.chance(percent)) set |= oracle::only(i);
    return set;
}

TaxonSet random_interval(Random& random, unsigned n) {
    const unsigned first = static_cast<unsigned>(random.below(n));
    const unsigned longest = static_cast<unsigned>(random.chance(70) ? n / 3 + 1 : n);
    const unsigned past = first + static_cast<unsigned>(random.between(1, longest));
    return all_taxa(past < n ? past : n) & ~all_taxa(first);
}

// The sets that a matrix's columns are made from: clades for a tree, else blocks that part the taxa.
std::vector<TaxonSet> random_pattern(Random& random, unsigned n, Shape shape) {
    if (shape != Shape::blocks) return random_clades(random, n);
    std::vector<TaxonSet> blocks(random.between(2, 4), 0);
    for (unsigned i = 0; i < n; ++i) blocks[random.below(blocks.size())] |= oracle::only(i);
    return blocks;
}

// Inside one block, 0 elsewhere; or across all blocks, with few 0s.
Column block_entries(Random& random, unsigned n, TaxonSet block) {
    const TaxonSet held = random_set(random, n, 85);
    if (random.chance(85)) return Column{0, block & held, all_taxa(n) & ~block};
    TaxonSet few = random_set(random, n, 5);
    few |= oracle::only(static_cast<unsigned>(random.below(n)));
    return Column{0, held & ~few, few};
}

// A column before unknown entries are taken out.
Column random_entries(Random& random, unsigned n, Shape shape, const std::vector<TaxonSet>& pattern) {
    const TaxonSet one = pattern.empty() ? 0 : pattern[random.below(pattern.size())];
    TaxonSet ones = 0;
    switch (shape) {
        case Shape::free: ones = random_set(random, n, static_cast<unsigned>(random.between(10, 90))); break;
        case Shape::tree: ones = one; break;
        case Shape::noisy_tree: ones = one ^ random_set(random, n, 6); break;
        case Shape::intervals: ones = random_interval(random, n); break;
        case Shape::blocks: return block_entries(random, n, one);
    }
    return Column{0, ones, all_taxa(n) & ~ones};
}

}  // namespace

std::vector<TaxonSet> random_clades(Random& random, unsigned n) {
    std::vector<TaxonSet> clades;
    std::vector<TaxonSet> waiting{all_taxa(n)};
    while (!waiting.empty()) {
        const TaxonSet clade = waiting.back();
        waiting.pop_back();
        if (oracle::size(clade) < 2) continue;
        clades.push_back(clade);
        TaxonSet half = clade & random.bits();
        if (random.chance(30)) half = oracle::only(oracle::lowest(clade));
        // An empty half leaves the clade a star.
        if (half == 0 || half == clade) continue;
        waiting.push_back(half);
        waiting.push_back(clade & ~half);
    }
    return clades;
}

Style random_style(Random& random) {
    const unsigned known[] = {100, 100, 80, 50, 20, 8};
    Style style;
    style.shape = static_cast<Shape>(random.below(shape_count));
    style.weights = static_cast<Weights>(random.below(4));
    // Blocks hold together only where most entries are known.
    style.known_percent = known[random.below(style.shape == Shape::blocks ? 3 : 6)];
    style.merged = random.below(3) == 0;
    return style;
}

// What is above 1 each goes to few taxa or to any, and where one is full, to the next.
Bytes multiplicities_of_sum(Random& random, unsigned n, unsigned sum) {
    Bytes multiplicities(n, 1);
    const std::uint64_t first = random.below(n);
    const std::uint64_t reach = random.chance(50) ? n : random.between(1, 3);
    for (unsigned given = n; given < std::min(sum, most_in_a_byte * n); ++given) {
        std::uint64_t taxon = (first + random.below(reach)) % n;
        while (multiplicities[taxon] == most_in_a_byte) taxon = (taxon + 1) % n;
        ++multiplicities[taxon];
    }
    return multiplicities;
}

Bytes random_multiplicities(Random& random, unsigned n) {
    switch (random.below(4)) {
        case 0: return multiplicities_of_sum(random, n, most_specimens);
        case 1: return multiplicities_of_sum(random, n, n + 1);
        case 2: return multiplicities_of_sum(random, n, std::min(2 * n, most_specimens));
        default: return multiplicities_of_sum(random, n, static_cast<unsigned>(random.between(n + 1, most_specimens)));
    }
}

Matrix random_matrix(Random& random, unsigned n, unsigned m, const Style& style) {
    Matrix matrix;
    matrix.n = n;
    const std::vector<TaxonSet> pattern = random_pattern(random, n, style.shape);
    for (unsigned c = 0; c < m; ++c) {
        const TaxonSet known = random_set(random, n, style.known_percent);
        const Column entries = random_entries(random, n, style.shape, pattern);
        matrix.columns.push_back(Column{random_weight(random, style.weights), entries.ones & known, entries.zeros & known});
    }
    if (style.merged) matrix.multiplicities = random_multiplicities(random, n);
    return matrix;
}

Matrix heaviest_matrix(Random& random, unsigned n) {
    Matrix matrix = random_matrix(random, n, 256, Style{Shape::free, Weights::heavy, 100, false});
    matrix.multiplicities = multiplicities_of_sum(random, n, most_specimens);
    return matrix;
}

Matrix random_matrix(Random& random) {
    const unsigned taxa[] = {4, 6, 8, 12, 20, 64};
    const unsigned columns[] = {3, 6, 12, 30, 256};
    const unsigned n = static_cast<unsigned>(random.between(1, taxa[random.below(6)]));
    const unsigned m = static_cast<unsigned>(random.between(0, columns[random.below(5)]));
    return random_matrix(random, n, m, random_style(random));
}

void take_ones_out(Random& random, Matrix& matrix) {
    const unsigned shares[] = {10, 50, 90, 100};
    const unsigned share = shares[random.below(4)];
    for (Column& column : matrix.columns) {
        if (!random.chance(share)) continue;
        const TaxonSet kept[] = {0, ~TaxonSet{0}, random.bits()};
        column.zeros |= column.ones & kept[random.below(3)];
        column.ones = 0;
    }
}

}  // namespace gen
