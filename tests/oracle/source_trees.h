// Source trees as Newick text, and the matrix that they give (document 02's C-11).
#pragma once

#include <cstddef>
#include <string>
#include <vector>

#include "matrix.h"
#include "records.h"
#include "refusal.h"

namespace oracle {

constexpr std::size_t most_names = 64;
constexpr std::size_t most_columns = 256;
constexpr unsigned most_open_brackets = 64;

struct SourceTrees {
    std::vector<std::string> names;  // of the taxa, by number
    Matrix matrix;
};

// Reads source trees; throws the Refusal that C-11 names, room aside.
SourceTrees read_trees(const Bytes& text);

struct NewickOutcome {
    Refusal refusal;
    Bytes matrix;  // the first bytes of that lent output; the others stay as they were
    Bytes names;   // the same of the other
};

// The operation: read source trees. The rooms are the lengths of the lent outputs.
NewickOutcome read_newick(const Bytes& text, std::size_t matrix_room, std::size_t names_room);

}  // namespace oracle
