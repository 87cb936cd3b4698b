// What the program `supertree` prints and tells of a text.
#pragma once

#include <string>

#include "records.h"
#include "refusal.h"

namespace oracle {

constexpr std::size_t longest_text = 1048576;

struct SupertreeOutcome {
    Refusal refusal;   // number 0 also for a text that is too long
    std::string said;  // on standard output
    std::string told;  // on standard error
};

SupertreeOutcome supertree(const Bytes& text);

}  // namespace oracle
