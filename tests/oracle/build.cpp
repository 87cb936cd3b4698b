#include "build.h"

#include <algorithm>
#include <map>
#include <stdexcept>

#include "split.h"

namespace oracle {

namespace {

// All flips of a column together. No entry is flipped twice: the list of an answer has no word for it.
void note(std::map<std::uint64_t, Flip>& flips, const Flip& flip) {
    Flip& all = flips[flip.column];
    if (((all.raised | all.lowered) & (flip.raised | flip.lowered)) != 0)
        throw std::logic_error("an entry is flipped twice");
    all.column = flip.column;
    all.raised |= flip.raised;
    all.lowered |= flip.lowered;
}

// "by lowest taxon, larger first where that is equal"
bool stands_before(const Group& x, const Group& y) {
    if (lowest(x.taxa) != lowest(y.taxa)) return lowest(x.taxa) < lowest(y.taxa);
    return size(x.taxa) > size(y.taxa);
}

Answer put_together(const Matrix& matrix, std::vector<Group> groups, const std::map<std::uint64_t, Flip>& flips) {
    Answer answer;
    answer.value.n = static_cast<std::uint16_t>(matrix.n);
    answer.value.m = static_cast<std::uint16_t>(matrix.columns.size());
    answer.value.group_count = static_cast<std::uint16_t>(groups.size());
    answer.value.flip_count = static_cast<std::uint16_t>(flips.size());
    std::sort(groups.begin(), groups.end(), stands_before);
    std::copy(groups.begin(), groups.end(), answer.value.groups.begin());
    for (const Group& group : groups) answer.value.total += group.cost;
    for (const auto& entry : flips) answer.flips.push_back(entry.second);
    return answer;
}

}  // namespace

// A part's columns are changed inside the part alone, so the order in which groups are taken is free.
Answer answer_of(const Matrix& matrix) {
    Matrix changed = matrix;
    std::vector<TaxonSet> waiting{all_taxa(matrix.n)};
    std::vector<Group> groups;
    std::map<std::uint64_t, Flip> flips;
    while (!waiting.empty()) {
        const TaxonSet taxa = waiting.back();
        waiting.pop_back();
        if (size(taxa) < 2) continue;
        const GroupSplit split = split_group(changed, taxa);
        groups.push_back(Group{taxa, static_cast<std::uint32_t>(split.cost)});
        for (const Flip& flip : split.flips) note(flips, flip);
        waiting.insert(waiting.end(), split.parts.begin(), split.parts.end());
    }
    return put_together(matrix, groups, flips);
}

// "The file's refusals come first, then 11, 9, 10." "9 now means shorter than the count of 1-entries, in its old place."
BuildOutcome build(const Bytes& file, std::size_t workspace, std::size_t room) {
    BuildOutcome outcome;
    try {
        const Matrix matrix = read_matrix(file);
        const std::size_t m = matrix.columns.size();
        if (workspace < one_entries(matrix)) refuse(9, 0);
        if (room < 20 + 16 * (matrix.n - 1) + 22 * m) refuse(10, 0);
        const Answer answer = answer_of(matrix);
        outcome.total = answer.value.total;
        outcome.file = answer_file(answer);
        outcome.cleared = one_entries(matrix);
    } catch (const Refusal& refusal) {
        outcome.refusal = refusal;
    }
    return outcome;
}

}  // namespace oracle
