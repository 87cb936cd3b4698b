// The build: the tree and the flips of a matrix, as an answer.
#pragma once

#include <cstddef>
#include <cstdint>

#include "answer.h"
#include "matrix.h"

namespace oracle {

// The answer that belongs to a matrix.
Answer answer_of(const Matrix& matrix);

struct BuildOutcome {
    Refusal refusal;
    std::uint64_t total = 0;
    Bytes file;               // the first bytes of the lent output; the others stay as they were
    std::size_t cleared = 0;  // so many numbers of the workspace are 0; the others stay as they were
};

// The operation: build. `workspace` counts lent numbers, `room` the bytes of the lent output.
BuildOutcome build(const Bytes& file, std::size_t workspace, std::size_t room);

}  // namespace oracle
