#include "answers.h"

#include <algorithm>

#include "matrices.h"

namespace gen {

using oracle::all_taxa;
using oracle::Answer;
using oracle::AnswerValue;
using oracle::Flip;
using oracle::Group;
using oracle::only;
using oracle::TaxonSet;

namespace {

unsigned some_taxon(Random& random, unsigned n) { return static_cast<unsigned>(random.below(n)); }

// A taxon that is n or above, where a set has room for one.
TaxonSet beyond(Random& random, unsigned n) {
    return n >= 64 ? 0 : only(static_cast<unsigned>(random.between(n, 63)));
}

void put_groups(Random& random, AnswerValue& value) {
    std::vector<TaxonSet> clades = random_clades(random, value.n);
    std::sort(clades.begin(), clades.end(), [](TaxonSet x, TaxonSet y) {
        return oracle::lowest(x) != oracle::lowest(y) ? oracle::lowest(x) < oracle::lowest(y)
                                                      : oracle::size(x) > oracle::size(y);
    });
    value.group_count = static_cast<std::uint16_t>(clades.size());
    const bool costly = random.chance(30);
    for (std::size_t k = 0; k < clades.size(); ++k) {
        // 63 costs below 2 to the 26 fit the total's 4 bytes together.
        const std::uint64_t cost = random.below(costly ? 1 << 26 : 20);
        value.groups[k] = Group{clades[k], static_cast<std::uint32_t>(cost)};
        value.total += value.groups[k].cost;
    }
    // Sometimes the largest total there is.
    if (!clades.empty() && random.chance(10)) {
        value.groups[0].cost += 0xffffffffu - value.total;
        value.total = 0xffffffffu;
    }
}

void put_flips(Random& random, Answer& answer) {
    const unsigned percent = static_cast<unsigned>(random.below(101));
    for (std::uint16_t column = 0; column < answer.value.m; ++column) {
        const TaxonSet flipped = random.bits() & all_taxa(answer.value.n);
        const TaxonSet raised = flipped & random.bits();
        if (flipped != 0 && random.chance(percent)) answer.flips.push_back(Flip{column, raised, flipped & ~raised});
    }
    answer.value.flip_count = static_cast<std::uint16_t>(answer.flips.size());
}

void spoil_group(Random& random, AnswerValue& value) {
    Group& group = value.groups[random.below(value.group_count)];
    Group& other = value.groups[random.below(value.group_count)];
    switch (random.below(7)) {
        case 0: group.taxa |= beyond(random, value.n); break;
        case 1: group.taxa = random.chance(20) ? 0 : only(some_taxon(random, value.n)); break;
        case 2: group.taxa ^= only(some_taxon(random, value.n)); break;
        case 3: group.taxa = other.taxa; break;
        case 4: group.taxa = random.bits() & all_taxa(value.n); break;
        case 5: group.cost ^= 1u << random.below(32); break;
        default: std::swap(group, other); break;
    }
}

void spoil_flip(Random& random, Answer& answer) {
    Flip& flip = answer.flips[random.below(answer.flips.size())];
    Flip& other = answer.flips[random.below(answer.flips.size())];
    const TaxonSet taxon = only(some_taxon(random, answer.value.n));
    switch (random.below(8)) {
        case 0: flip.raised |= beyond(random, answer.value.n); break;
        case 1: flip.lowered |= beyond(random, answer.value.n); break;
        case 2: flip.raised |= taxon, flip.lowered |= taxon; break;
        case 3: flip.raised = flip.lowered = 0; break;
        case 4: flip.column = static_cast<std::uint16_t>(answer.value.m + random.below(3)); break;
        case 5: flip.column = other.column; break;
        case 6: flip.column = static_cast<std::uint16_t>(random.below(answer.value.m)); break;
        default: std::swap(flip, other); break;
    }
}

// One cost by any bit that the total has room for, by one, or from one group to another.
void change_costs(Random& random, AnswerValue& value, std::uint64_t how) {
    Group& group = value.groups[random.below(value.group_count)];
    Group& other = value.groups[random.below(value.group_count)];
    const std::uint32_t change = how == 0 ? 1u << random.below(32) : 1u;
    if (how == 2 && other.cost > 0) {
        --other.cost;
        ++group.cost;
    } else if (value.total <= 0xffffffffu - change) {
        group.cost += change;
        value.total += change;
    }
}

void leave_out_group(Random& random, AnswerValue& value) {
    if (value.group_count < 2) return;
    const std::uint64_t which = random.between(1, value.group_count - 1u);
    value.total -= value.groups[which].cost;
    std::copy(value.groups.begin() + static_cast<std::ptrdiff_t>(which) + 1, value.groups.begin() + value.group_count,
              value.groups.begin() + static_cast<std::ptrdiff_t>(which));
    value.groups[--value.group_count] = Group{};
}

// After those that are there, so that columns rise.
void put_flip(Random& random, Answer& answer) {
    const unsigned first = answer.flips.empty() ? 0 : answer.flips.back().column + 1u;
    if (first >= answer.value.m) return;
    const TaxonSet taxon = only(some_taxon(random, answer.value.n));
    const TaxonSet raised = random.chance(50) ? taxon : 0;
    const std::uint64_t column = random.between(first, answer.value.m - 1u);
    answer.flips.push_back(Flip{static_cast<std::uint16_t>(column), raised, taxon & ~raised});
    ++answer.value.flip_count;
}

}  // namespace

Answer random_answer(Random& random, unsigned n, unsigned m) {
    Answer answer;
    answer.value.n = static_cast<std::uint16_t>(n);
    answer.value.m = static_cast<std::uint16_t>(m);
    put_groups(random, answer.value);
    put_flips(random, answer);
    return answer;
}

Answer random_answer(Random& random) {
    const unsigned taxa[] = {3, 6, 12, 64};
    const unsigned columns[] = {0, 3, 12, 256};
    const unsigned n = static_cast<unsigned>(random.between(1, taxa[random.below(4)]));
    return random_answer(random, n, static_cast<unsigned>(random.between(0, columns[random.below(4)])));
}

void spoil_records(Random& random, Answer& answer) {
    const std::uint64_t choice = random.below(10);
    if (choice < 5 && answer.value.group_count > 0) spoil_group(random, answer.value);
    else if (choice < 8 && !answer.flips.empty()) spoil_flip(random, answer);
    else if (choice == 8) wrap_costs(answer.value);
    else answer.value.total += random.chance(50) ? 1u : 0xffffffffu;
}

void change_lawfully(Random& random, Answer& answer) {
    AnswerValue& value = answer.value;
    const std::uint64_t choice = random.below(5);
    if (choice == 4 || value.group_count == 0) put_flip(random, answer);
    else if (choice == 3) leave_out_group(random, value);
    else change_costs(random, value, choice);
}

void spoil_head(Random& random, AnswerValue& value) {
    std::uint16_t* const numbers[] = {&value.n, &value.m, &value.group_count, &value.flip_count};
    const std::uint64_t odd[] = {0, 1, 2, 62, 63, 64, 65, 255, 256, 257, 65535};
    std::uint16_t& number = *numbers[random.below(4)];
    const std::uint64_t changed[] = {number + 1u, number + 65535u, odd[random.below(11)], random.bits()};
    number = static_cast<std::uint16_t>(changed[random.below(4)] % 65536);
}

void wrap_costs(AnswerValue& value) {
    const std::uint32_t half = 0x80000000u;
    std::vector<std::size_t> roomy;
    for (std::size_t k = 0; k < value.group_count && roomy.size() < 2; ++k)
        if (value.groups[k].cost < half) roomy.push_back(k);
    if (roomy.size() < 2) return;
    for (std::size_t k : roomy) value.groups[k].cost += half;
}

}  // namespace gen
