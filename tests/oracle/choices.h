// The least weight of flips that fits a matrix to a tree (document 02's C-23), by listing every choice of flips.
// Nothing here knows of scores.
#pragma once

#include <cstddef>
#include <cstdint>

#include "answer.h"
#include "matrix.h"

namespace oracle {

// A choice of flips is any set of known entries. It will do where every column, once these are flipped, can be filled
// to a clade of the tree or to nothing. The tree has the matrix's n.

// How many entries are known: there are 2 to the so many choices.
std::size_t known_count(const Matrix& matrix);

// The least weight of a choice that will do, of all there are over all columns together: for very few known entries.
std::uint64_t least_by_matrix(const Matrix& matrix, const AnswerValue& tree);

// The sum of what each column alone needs. That this is the same has to be seen: no column's flips touch another.
std::uint64_t least_by_columns(const Matrix& matrix, const AnswerValue& tree);

}  // namespace oracle
