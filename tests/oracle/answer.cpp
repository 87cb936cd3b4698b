#include "answer.h"

#include "answer_rules.h"

namespace oracle {

namespace {

AnswerValue read_head(RecordReader& reader) {
    reader.open(Kind::answer_head);
    AnswerValue value;
    value.n = static_cast<std::uint16_t>(reader.take(2));
    value.m = static_cast<std::uint16_t>(reader.take(2));
    value.group_count = static_cast<std::uint16_t>(reader.take(2));
    value.flip_count = static_cast<std::uint16_t>(reader.take(2));
    value.total = static_cast<std::uint32_t>(reader.take(4));
    return value;
}

Group read_group(RecordReader& reader) {
    reader.open(Kind::group);
    Group group;
    group.taxa = reader.take(8);
    group.cost = static_cast<std::uint32_t>(reader.take(4));
    return group;
}

Flip read_flip(RecordReader& reader) {
    reader.open(Kind::flips);
    Flip flip;
    flip.column = static_cast<std::uint16_t>(reader.take(2));
    flip.raised = reader.take(8);
    flip.lowered = reader.take(8);
    return flip;
}

// "Writing makes the tests of reading on what it is given, placed as in the file; fewer list entries
// than the head counts is 13 at the head." That one stands among the head's tests, so it comes before
// any refusal of a group; beside the head's other 13 its place in the order does not show.
void judge(const AnswerValue& value, const std::vector<Flip>& list) {
    AnswerRules rules;
    std::size_t place = 0;
    rules.head(value, place);
    if (list.size() < value.flip_count) refuse(13, place);
    place += record_length(Kind::answer_head);
    for (std::size_t k = 0; k < value.group_count; ++k, place += record_length(Kind::group))
        rules.group(value.groups[k], place);
    for (std::size_t k = 0; k < value.flip_count; ++k, place += record_length(Kind::flips))
        rules.flip(list[k], place);
    rules.end(place);
}

}  // namespace

std::size_t answer_length(std::size_t group_count, std::size_t flip_count) {
    return record_length(Kind::answer_head) + group_count * record_length(Kind::group) +
           flip_count * record_length(Kind::flips) + record_length(Kind::answer_end);
}

Answer read_answer(const Bytes& file) {
    RecordReader reader(file);
    AnswerRules rules;
    Answer answer;
    answer.value = read_head(reader);
    rules.head(answer.value, reader.place());
    for (std::size_t k = 0; k < answer.value.group_count; ++k) {
        answer.value.groups[k] = read_group(reader);
        rules.group(answer.value.groups[k], reader.place());
    }
    for (std::size_t k = 0; k < answer.value.flip_count; ++k) {
        answer.flips.push_back(read_flip(reader));
        rules.flip(answer.flips.back(), reader.place());
    }
    reader.open(Kind::answer_end);
    rules.end(reader.place());  // "14 comes before 8"
    reader.finish();
    return answer;
}

Bytes answer_file(const Answer& answer) {
    const AnswerValue& value = answer.value;
    Bytes file;
    put_record(file, Kind::answer_head,
               {{2, value.n}, {2, value.m}, {2, value.group_count}, {2, value.flip_count}, {4, value.total}});
    for (std::size_t k = 0; k < value.group_count; ++k)
        put_record(file, Kind::group, {{8, value.groups[k].taxa}, {4, value.groups[k].cost}});
    for (std::size_t k = 0; k < value.flip_count; ++k)
        put_record(file, Kind::flips,
                   {{2, answer.flips[k].column}, {8, answer.flips[k].raised}, {8, answer.flips[k].lowered}});
    put_record(file, Kind::answer_end, {});
    return file;
}

ReadOutcome read(const Bytes& file, std::size_t list) {
    ReadOutcome outcome;
    try {
        Answer answer = read_answer(file);
        if (list < answer.value.flip_count) refuse(10, 0);
        outcome.answer = answer;
    } catch (const Refusal& refusal) {
        outcome.refusal = refusal;
    }
    return outcome;
}

WriteOutcome write(const AnswerValue& value, const std::vector<Flip>& list, std::size_t room) {
    WriteOutcome outcome;
    try {
        judge(value, list);
        if (room < answer_length(value.group_count, value.flip_count)) refuse(10, 0);
        outcome.file = answer_file(Answer{value, list});
    } catch (const Refusal& refusal) {
        outcome.refusal = refusal;
    }
    return outcome;
}

}  // namespace oracle
