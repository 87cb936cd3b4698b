// A name list: the names of the taxa, in the order of their numbers (document 02's C-11).
#pragma once

#include <cstddef>
#include <cstdint>
#include <string>
#include <vector>

#include "records.h"
#include "refusal.h"

namespace oracle {

constexpr std::size_t longest_name = 32;

// "letters, digits, dots, hyphens or underscores"
bool may_be_in_a_name(std::uint8_t byte);

// Reads a name list; throws the Refusal that C-11 names.
std::vector<std::string> read_names(const Bytes& file);

// The file that holds names. Its content is not judged.
Bytes names_file(const std::vector<std::string>& names);

struct NamesOutcome {
    Refusal refusal;
    std::size_t count = 0;
};

// The operation: check a name list.
NamesOutcome check_names(const Bytes& file);

}  // namespace oracle
