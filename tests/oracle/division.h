// The division of a group that document 01 chooses, found in two ways.
#pragma once

#include <cstdint>
#include <vector>

#include "matrix.h"
#include "sets.h"

namespace oracle {

struct Division {
    std::uint64_t cost = 0;
    TaxonSet side = 0;  // A, the side of the lowest taxon s
    unsigned t = 0;

    bool operator==(const Division& other) const {
        return cost == other.cost && side == other.side && t == other.t;
    }
};

// A column with no 0 in the group takes no part.
inline bool participates(const Column& column, TaxonSet group) { return (column.zeros & group) != 0; }

// By listing every division of the group and applying the rule word for word.
Division division_by_listing(const Matrix& matrix, TaxonSet group);

// By the largest flows of the network of document 001, from s to each other taxon.
Division division_by_network(const Matrix& matrix, TaxonSet group);

// Lists where that is quick, up to this many taxa.
constexpr unsigned most_listed = 12;
Division least_division(const Matrix& matrix, TaxonSet group);

}  // namespace oracle
