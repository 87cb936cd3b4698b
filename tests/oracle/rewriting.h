// Document 02's C-11 once more, another way: nothing reads the text from left to right. Whether bytes are of the grammar is
// found by rewriting, which byte is wrong by trying continuations, and what a bracket holds by counting brackets.
#pragma once

#include "source_trees.h"

namespace oracle {

// Whether the text is of the grammar, whatever its names, its columns and its depth.
bool is_trees(const Bytes& text);

// What read_trees throws, or no refusal.
Refusal first_fault(const Bytes& text);

// What read_trees gives of a text without a fault.
SourceTrees trees_by_brackets(const Bytes& text);

}  // namespace oracle
