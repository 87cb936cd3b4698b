#include "division.h"

#include <algorithm>
#include <stdexcept>

#include "network.h"

namespace oracle {

namespace {

std::uint64_t division_cost(const Matrix& matrix, TaxonSet group, TaxonSet side) {
    std::uint64_t cost = 0;
    for (const Column& column : matrix.columns) {
        if (!participates(column, group)) continue;
        const std::uint64_t a = mass(matrix, column.ones & side);
        const std::uint64_t b = mass(matrix, column.ones & group & ~side);
        const std::uint64_t z = mass(matrix, column.zeros & group);
        cost += column.weight * std::min({a, b, z});
    }
    return cost;
}

// Every side that holds the lowest taxon and is not the whole group.
std::vector<TaxonSet> all_sides(TaxonSet group) {
    std::vector<TaxonSet> sides{only(lowest(group))};
    for (unsigned taxon : members(group & ~only(lowest(group)))) {
        const std::size_t count = sides.size();
        for (std::size_t k = 0; k < count; ++k) sides.push_back(sides[k] | only(taxon));
    }
    sides.erase(std::find(sides.begin(), sides.end(), group));
    return sides;
}

// The network: a vertex for each taxon, and two for each column, its own arc between them.
struct Vertices {
    static std::size_t of_taxon(unsigned taxon) { return taxon; }
    static std::size_t into(std::size_t column) { return 64 + 2 * column; }
    static std::size_t out_of(std::size_t column) { return 65 + 2 * column; }
};

Network network_of(const Matrix& matrix, TaxonSet group) {
    Network network(64 + 2 * matrix.columns.size());
    for (std::size_t c = 0; c < matrix.columns.size(); ++c) {
        const Column& column = matrix.columns[c];
        if (!participates(column, group)) continue;
        network.add_arc(Vertices::into(c), Vertices::out_of(c), column.weight * mass(matrix, column.zeros & group));
        for (unsigned taxon : members(column.ones & group)) {
            const std::uint64_t between = column.weight * mass(matrix, only(taxon));
            network.add_arc(Vertices::of_taxon(taxon), Vertices::into(c), between);
            network.add_arc(Vertices::out_of(c), Vertices::of_taxon(taxon), between);
        }
    }
    return network;
}

TaxonSet taxa_among(const std::vector<bool>& vertices, TaxonSet group) {
    TaxonSet taxa = 0;
    for (unsigned taxon : members(group))
        if (vertices[Vertices::of_taxon(taxon)]) taxa |= only(taxon);
    return taxa;
}

}  // namespace

Division division_by_listing(const Matrix& matrix, TaxonSet group) {
    const std::vector<TaxonSet> sides = all_sides(group);
    std::vector<std::uint64_t> costs;
    for (TaxonSet side : sides) costs.push_back(division_cost(matrix, group, side));
    Division found;
    found.cost = *std::min_element(costs.begin(), costs.end());
    // "Among all least-cost divisions let t be the lowest taxon that any of them parts from s."
    found.t = 64;
    for (std::size_t k = 0; k < sides.size(); ++k)
        if (costs[k] == found.cost) found.t = std::min(found.t, lowest(group & ~sides[k]));
    // "Among those that part s from t, take the one with the fewest taxa on the side of s."
    unsigned fewest = 64, so_many = 0;
    for (std::size_t k = 0; k < sides.size(); ++k) {
        if (costs[k] != found.cost || has(sides[k], found.t) || size(sides[k]) > fewest) continue;
        so_many = size(sides[k]) == fewest ? so_many + 1 : 1;
        fewest = size(sides[k]);
        found.side = sides[k];
    }
    if (so_many != 1) throw std::logic_error("there is not only one division with the fewest taxa");
    return found;
}

Division division_by_network(const Matrix& matrix, TaxonSet group) {
    const unsigned s = lowest(group);
    Network network = network_of(matrix, group);
    Division found;
    bool any = false;
    for (unsigned t : members(group & ~only(s))) {
        const std::uint64_t cost = network.largest_flow(Vertices::of_taxon(s), Vertices::of_taxon(t));
        if (any && cost >= found.cost) continue;
        any = true;
        found.cost = cost;
        found.t = t;
        found.side = taxa_among(network.reached_from(Vertices::of_taxon(s)), group);
    }
    return found;
}

Division least_division(const Matrix& matrix, TaxonSet group) {
    return size(group) <= most_listed ? division_by_listing(matrix, group) : division_by_network(matrix, group);
}

}  // namespace oracle
