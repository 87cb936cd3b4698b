// What the programs that make a tree print for a matrix file.
#pragma once

#include <string>

#include "records.h"

namespace oracle {

// What `outline` prints; where it is scored, what samples/tree.c does, which has a line for the tree's score after it.
std::string outline(const Bytes& file, bool scored = false);

}  // namespace oracle
