// The specimens of document 01, with what it says of each, and those of document 02's C-14 and C-13 after them.
#pragma once

#include <cstddef>
#include <string>
#include <vector>

#include "oracle/matrix.h"

struct Specimen {
    std::string name;
    oracle::Bytes file;
    oracle::Refusal refusal;  // number 0: taken
    std::string printed;      // by `outline`; empty where the documents do not give it
};

std::vector<Specimen> specimens();

// Where among them specimen 2 stands with multiplicities 1, 1, 2.
constexpr std::size_t merged_second = 15;

// And those of C-13: a matrix without a 1, and one of a single taxon that has one.
constexpr std::size_t no_one = 26, one_one = 27;
