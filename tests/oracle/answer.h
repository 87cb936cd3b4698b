// An answer file: reading it, and writing it from what was read.
#pragma once

#include <array>
#include <cstddef>
#include <cstdint>
#include <vector>

#include "flip.h"
#include "records.h"
#include "refusal.h"

namespace oracle {

struct Group {
    TaxonSet taxa = 0;
    std::uint32_t cost = 0;

    bool operator==(const Group& other) const { return taxa == other.taxa && cost == other.cost; }
};

// The head's numbers and the groups, in their file widths; places past the last group are 0.
struct AnswerValue {
    std::uint16_t n = 0;
    std::uint16_t m = 0;
    std::uint16_t group_count = 0;
    std::uint16_t flip_count = 0;
    std::uint32_t total = 0;
    std::array<Group, 63> groups{};

    bool operator==(const AnswerValue& other) const {
        return n == other.n && m == other.m && group_count == other.group_count && flip_count == other.flip_count &&
               total == other.total && groups == other.groups;
    }
};

struct Answer {
    AnswerValue value;
    std::vector<Flip> flips;
};

// The bytes of an answer with these counts.
std::size_t answer_length(std::size_t group_count, std::size_t flip_count);

// Reads an answer file; throws the Refusal that document 01 names, room aside.
Answer read_answer(const Bytes& file);

// The file that holds an answer. Its content is not judged.
Bytes answer_file(const Answer& answer);

struct ReadOutcome {
    Refusal refusal;
    Answer answer;  // the flips are the first entries of the lent list; the others stay as they were
};

// The operation: read an answer. `list` is the number of lent entries.
ReadOutcome read(const Bytes& file, std::size_t list);

struct WriteOutcome {
    Refusal refusal;
    Bytes file;  // the first bytes of the lent output; the others stay as they were
};

// The operation: write an answer from any value and any list. `room` is the length of the lent output.
WriteOutcome write(const AnswerValue& value, const std::vector<Flip>& list, std::size_t room);

}  // namespace oracle
