// Worked cases of document 02's C-18: a build in two operations, with what its words and document 01's say of each, not what any
// program does.
#pragma once

#include <cstddef>
#include <cstdint>
#include <string>
#include <vector>

#include "oracle/records.h"
#include "oracle/refusal.h"

struct WorkedHalf {
    std::string what;
    oracle::Bytes matrix;
    oracle::Bytes tree;  // given to the second operation alone
    std::size_t workspace;
    std::size_t room;
    oracle::Refusal refusal;  // number 0: taken
    std::size_t cleared;      // so many numbers of the workspace are 0, the others as they were
    std::uint64_t total;
    oracle::Bytes file;  // what is written
};

// Of the first operation, then of the second.
std::vector<WorkedHalf> worked_first();
std::vector<WorkedHalf> worked_second();
