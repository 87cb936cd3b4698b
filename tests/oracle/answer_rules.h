// The rules of an answer, record by record, for reading and for writing alike.
// Each function throws the Refusal of the record at this place, the lowest number first.
#pragma once

#include <cstddef>
#include <cstdint>
#include <vector>

#include "answer.h"

namespace oracle {

class AnswerRules {
public:
    void head(const AnswerValue& value, std::size_t place);
    void group(const Group& group, std::size_t place);
    void flip(const Flip& flip, std::size_t place);
    void end(std::size_t place) const;

private:
    bool follows_the_groups_before(TaxonSet taxa) const;

    unsigned n_ = 0;
    unsigned m_ = 0;
    std::uint64_t total_ = 0;
    std::uint64_t sum_ = 0;  // of up to 63 costs of 4 bytes: it does not wrap
    std::vector<TaxonSet> groups_;
    std::vector<std::uint64_t> columns_;
};

}  // namespace oracle
