// Worked cases of document 02's C-11: texts, name lists and trees, with what its words say of each, not what any program does.
#pragma once

#include <string>
#include <vector>

#include "oracle/answer.h"
#include "oracle/records.h"
#include "oracle/refusal.h"

// Bytes of a text, as a program has them in quotes.
oracle::Bytes bytes_of(const std::string& text);
// Bytes of hexadecimal digits; blanks stand where a reader wants them.
oracle::Bytes hex(const std::string& digits);

// Source trees.
struct WorkedText {
    std::string what;
    oracle::Bytes text;
    oracle::Refusal refusal;  // number 0: taken
    oracle::Bytes matrix;     // empty where it is not given
    oracle::Bytes names;      // the same
};
std::vector<WorkedText> worked_texts();

// Name lists.
struct WorkedList {
    std::string what;
    oracle::Bytes file;
    oracle::Refusal refusal;
    std::size_t count;
};
std::vector<WorkedList> worked_lists();

// Trees that are written.
struct WorkedTree {
    std::string what;
    oracle::Bytes answer;
    oracle::Bytes names;
    std::size_t room;
    oracle::Refusal refusal;
    std::string text;
};
std::vector<WorkedTree> worked_trees();

// `((A,B),C);` so often: so many columns in ten times as many bytes.
std::string many_columns(unsigned count);

// The names from `first` on, of three letters each, commas between: the k-th starts at 4k.
std::string many_names(unsigned first, unsigned count);

// The same names, each but the last with all that follow in a bracket: one bracket less than names, one inside the other.
std::string comb(unsigned count);
