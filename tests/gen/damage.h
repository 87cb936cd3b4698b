// Damaged files: what is left of a file of records after an accident.
#pragma once

#include <cstddef>
#include <vector>

#include "../oracle/matrix.h"
#include "../oracle/records.h"
#include "random.h"

namespace gen {

using oracle::Bytes;

// Every shorter beginning of a file, from no byte to all but one.
std::vector<Bytes> prefixes(const Bytes& file);

// Every byte of a file replaced by each of several values, one at a time.
std::vector<Bytes> byte_changes(const Bytes& file);

// Every byte of a file replaced by every other value, one at a time.
std::vector<Bytes> all_byte_changes(const Bytes& file);

// The records that the file's own lengths lead through, the last one maybe short.
std::vector<Bytes> records_of(const Bytes& file);
Bytes joined(const std::vector<Bytes>& records);

// A file with one to three accidents: bytes cut, changed, added, taken out; records swapped,
// doubled, dropped; a number of the head changed; a record of multiplicities put in.
Bytes damaged(Random& random, Bytes file);

// The file of a matrix that has multiplicities, with their record left out, at every other place, at every place a second time,
// and with every length from 0 to n+1 but its own, the bytes that follow going with the length or not.
std::vector<Bytes> misplaced_multiplicities(const oracle::Matrix& matrix);

// One multiplicity for each taxon: a 0 among them, or all 1, or a sum above 127, also one that a byte has no room for.
Bytes unlawful_multiplicities(Random& random, unsigned n);

// A matrix file whose records are well formed while what the multiplicities or one to three columns hold is not allowed.
Bytes unlawful_matrix(Random& random, oracle::Matrix matrix);

// Bytes that came from no file: plain noise, or records of random kinds and small numbers.
Bytes random_bytes(Random& random);

}  // namespace gen
