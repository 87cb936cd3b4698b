// The build in two operations (document 02's C-18): the tree first, its flips on request.
#pragma once

#include <cstddef>

#include "build.h"

namespace oracle {

// "groups and costs .. as an answer file without flips": what is left of an answer.
Answer without_flips(Answer answer);

// The operation: tree. `workspace` counts lent numbers, `room` the bytes of the lent output.
BuildOutcome tree(const Bytes& matrix_file, std::size_t workspace, std::size_t room);

// The operation: flips. The only one that changes something where it refuses: with 26 the workspace is cleared.
BuildOutcome flips(const Bytes& matrix_file, const Bytes& tree_file, std::size_t workspace, std::size_t room);

// The same where it is known what answer_of gives of the matrix, which takes long for a large one.
BuildOutcome flips(const Bytes& matrix_file, const Bytes& tree_file, std::size_t workspace, std::size_t room,
                   const Answer& known);

}  // namespace oracle
