// A refusal of document 01: its number and its place. Number 0 is success.
#pragma once

#include <cstddef>
#include <string>

namespace oracle {

struct Refusal {
    unsigned number = 0;
    std::size_t place = 0;

    bool refused() const { return number != 0; }
    bool operator==(const Refusal& other) const { return number == other.number && place == other.place; }
    bool operator!=(const Refusal& other) const { return !(*this == other); }
};

// As the programs print it.
inline std::string text(const Refusal& refusal) {
    if (!refusal.refused()) return "taken";
    return "refused " + std::to_string(refusal.number) + " at " + std::to_string(refusal.place);
}

// Thrown where an operation refuses, caught where it ends.
[[noreturn]] inline void refuse(unsigned number, std::size_t place) { throw Refusal{number, place}; }

}  // namespace oracle
