// One split: the division, what it flips, and the parts.
#pragma once

#include <cstddef>
#include <vector>

#include "division.h"
#include "flip.h"
#include "matrix.h"

namespace oracle {

struct GroupSplit {
    std::uint64_t cost = 0;
    std::vector<Flip> flips;      // by rising column
    std::vector<TaxonSet> parts;  // by rising lowest taxon
};

// Splits a group of two or more taxa and changes the columns.
GroupSplit split_group(Matrix& matrix, TaxonSet group);

struct SplitOutcome {
    Refusal refusal;
    Division division;
    std::size_t cleared = 0;  // so many numbers of the workspace are 0; the others stay as they were
};

// The operation: split. `workspace` is the number of lent numbers.
SplitOutcome split(const Bytes& file, TaxonSet group, std::size_t workspace);

}  // namespace oracle
