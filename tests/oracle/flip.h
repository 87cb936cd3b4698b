// What is flipped in one column: 0 to 1 and 1 to 0.
#pragma once

#include <cstdint>

#include "sets.h"

namespace oracle {

struct Flip {
    std::uint16_t column = 0;
    TaxonSet raised = 0;
    TaxonSet lowered = 0;

    bool operator==(const Flip& other) const {
        return column == other.column && raised == other.raised && lowered == other.lowered;
    }
};

}  // namespace oracle
