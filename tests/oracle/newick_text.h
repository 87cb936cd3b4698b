// The tree of an answer as Newick text (document 02's C-11).
#pragma once

#include <cstddef>
#include <string>
#include <vector>

#include "answer.h"

namespace oracle {

// The tree's text, taxon i by the name at i.
std::string newick_text(const AnswerValue& tree, const std::vector<std::string>& names);

struct NewickTextOutcome {
    Refusal refusal;
    Bytes text;  // the first bytes of the lent output; the others stay as they were
};

// The operation: write an answer and a name list as Newick. `room` is the length of the lent output.
NewickTextOutcome write_newick(const Bytes& answer_file, const Bytes& names_file, std::size_t room);

}  // namespace oracle
