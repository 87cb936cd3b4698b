#include "answer_rules.h"

#include <algorithm>

namespace oracle {

// By number: 3, 4, then 12 for the group count, then 13 for the flipped column count.
void AnswerRules::head(const AnswerValue& value, std::size_t place) {
    n_ = value.n;
    m_ = value.m;
    total_ = value.total;
    if (n_ == 0 || n_ > 64) refuse(3, place);
    if (m_ > 256) refuse(4, place);
    // n = 1 has no group; a larger n has 1 to n-1.
    if (n_ == 1 ? value.group_count != 0 : value.group_count < 1 || value.group_count > n_ - 1) refuse(12, place);
    if (value.flip_count > m_) refuse(13, place);
}

// "They stand by lowest taxon, larger first where that is equal, none twice. Any two are nested or
// disjoint, and where n is 2 or more the first is all n taxa."
bool AnswerRules::follows_the_groups_before(TaxonSet taxa) const {
    if (groups_.empty()) return taxa == all_taxa(n_);
    const TaxonSet before = groups_.back();
    const bool in_order =
        lowest(before) < lowest(taxa) || (lowest(before) == lowest(taxa) && size(before) > size(taxa));
    return in_order && std::all_of(groups_.begin(), groups_.end(),
                                   [taxa](TaxonSet other) { return nested_or_disjoint(taxa, other); });
}

void AnswerRules::group(const Group& group, std::size_t place) {
    if (!within(group.taxa, all_taxa(n_))) refuse(6, place);
    if (size(group.taxa) < 2 || !follows_the_groups_before(group.taxa)) refuse(12, place);
    groups_.push_back(group.taxa);
    sum_ += group.cost;
}

void AnswerRules::flip(const Flip& flip, std::size_t place) {
    if (!within(flip.raised | flip.lowered, all_taxa(n_))) refuse(6, place);
    const bool rising = columns_.empty() || columns_.back() < flip.column;
    const bool none = (flip.raised | flip.lowered) == 0;
    const bool shared = (flip.raised & flip.lowered) != 0;
    if (flip.column >= m_ || !rising || none || shared) refuse(13, place);
    columns_.push_back(flip.column);
}

void AnswerRules::end(std::size_t place) const {
    if (sum_ != total_) refuse(14, place);
}

}  // namespace oracle
