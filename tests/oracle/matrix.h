// A matrix file and the check of it.
#pragma once

#include <cstddef>
#include <cstdint>
#include <vector>

#include "records.h"
#include "refusal.h"
#include "sets.h"

namespace oracle {

struct Column {
    std::uint64_t weight;
    TaxonSet ones;
    TaxonSet zeros;
};

struct Matrix {
    unsigned n = 0;
    Bytes multiplicities;  // empty where the file has no such record (document 02's C-14): each is 1
    std::vector<Column> columns;
};

// How many specimens these taxa stand for: the sum of their multiplicities.
std::uint64_t mass(const Matrix& matrix, TaxonSet set);

// How many entries are 1. Build and split need a workspace of so many numbers (document 02's C-13).
std::size_t one_entries(const Matrix& matrix);

// Reads a matrix file; throws the Refusal that document 01 (1 to 8) or document 02's C-14 (21) names.
Matrix read_matrix(const Bytes& file);

// Whether the record after the head is of the kind that holds multiplicities, whatever the rest of the file is.
bool names_multiplicities(const Bytes& file);

struct CheckOutcome {
    Refusal refusal;
    unsigned n = 0;
    unsigned m = 0;

    bool operator==(const CheckOutcome& other) const {
        return refusal == other.refusal && n == other.n && m == other.m;
    }
};

// The operation: check a matrix.
CheckOutcome check(const Bytes& file);

// The file that holds a matrix. Its content is not judged.
Bytes matrix_file(const Matrix& matrix);

}  // namespace oracle
