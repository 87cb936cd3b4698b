// Random names, name lists and source trees as text (document 02's C-11), lawful and not.
#pragma once

#include <string>
#include <vector>

#include "../oracle/records.h"
#include "random.h"

namespace gen {

using oracle::Bytes;

// So many different names, many of them alike: in all letters but one, in all but their case, one longer by a letter.
std::vector<std::string> random_names(Random& random, std::size_t count);

// A list of these names with something wrong: a repeat, a byte, a length, a record; or with records damaged.
Bytes unlawful_names(Random& random, std::vector<std::string> names);

// Source trees that reading takes: any shape, any blanks.
Bytes random_trees(Random& random);

// Source trees with about 64 names or about 256 columns; mostly one limit is passed, and names are repeated or too long.
Bytes lavish_trees(Random& random);

// A text with one to three accidents: bytes cut, changed, added, taken out; a stretch doubled; a name made longer or put in
// another's place; brackets put in.
Bytes damaged_text(Random& random, Bytes text);

// One token after another, most of them such as may stand there: mostly it ends in the middle of a tree, and sometimes deep.
Bytes wandering_text(Random& random);

}  // namespace gen
