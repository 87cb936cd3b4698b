// Compares flipcut_read and flipcut_write, called as C calls them, with the independent program: numbers, result, list,
// output.
//   answer_trial FOLDER [COUNT]
#include "gen/answers.h"
#include "gen/cases.h"
#include "gen/damage.h"
#include "gen/matrices.h"
#include "lent.h"
#include "oracle/build.h"
#include "packed.h"
#include "specimens.h"
#include "tally.h"
#include "trial.h"

// By their fields: what lies between them is nobody's.
static bool operator==(const flipcut_flip& a, const flipcut_flip& b) {
    return a.column == b.column && a.raised == b.raised && a.lowered == b.lowered;
}
static bool operator==(const flipcut_answer& a, const flipcut_answer& b) {
    return a.n == b.n && a.m == b.m && a.groups == b.groups && a.flips == b.flips && a.total == b.total &&
           std::equal(std::begin(a.taxa), std::end(a.taxa), std::begin(b.taxa)) &&
           std::equal(std::begin(a.costs), std::end(a.costs), std::begin(b.costs));
}

namespace {

using gen::ReadCase;
using gen::WriteCase;
using oracle::AnswerValue;
using oracle::Flip;

// As the header has it; by name, so that the order of its fields is tried too.
flipcut_answer c_answer(const AnswerValue& value) {
    flipcut_answer answer;
    answer.n = value.n;
    answer.m = value.m;
    answer.groups = value.group_count;
    answer.flips = value.flip_count;
    answer.total = value.total;
    for (std::size_t k = 0; k < FLIPCUT_MOST_GROUPS; ++k) {
        answer.taxa[k] = value.groups[k].taxa;
        answer.costs[k] = value.groups[k].cost;
    }
    return answer;
}

// As a reading puts it; by name, so that the header's places are tried too.
std::vector<std::uint64_t> result_of(const AnswerValue& value) {
    std::vector<std::uint64_t> result(FLIPCUT_READ_RESULTS);
    result[FLIPCUT_N] = value.n;
    result[FLIPCUT_M] = value.m;
    result[FLIPCUT_GROUPS] = value.group_count;
    result[FLIPCUT_FLIPS] = value.flip_count;
    result[FLIPCUT_TOTAL] = value.total;
    for (std::size_t k = 0; k < FLIPCUT_MOST_GROUPS; ++k) {
        result[FLIPCUT_TAXA + k] = value.groups[k].taxa;
        result[FLIPCUT_COSTS + k] = value.groups[k].cost;
    }
    return result;
}

std::vector<flipcut_flip> c_list(const std::vector<Flip>& flips) {
    std::vector<flipcut_flip> list(flips.size());
    for (std::size_t k = 0; k < flips.size(); ++k) {
        list[k].column = flips[k].column;
        list[k].raised = flips[k].raised;
        list[k].lowered = flips[k].lowered;
    }
    return list;
}

void compare_read(Tally& tally, gen::Random& random, const ReadCase& given, const Call& call = usual_call) {
    const oracle::ReadOutcome expected = oracle::read(given.file, given.list);
    const AnswerValue& value = expected.answer.value;
    Lent<flipcut_flip> list(random, given.list);
    Lent<std::uint64_t> result(random, FLIPCUT_READ_RESULTS);
    const auto file = passed(given.file, call);
    const auto entries = list.passed(call);
    const std::uint64_t packed =
        flipcut_read(file.start, file.length, entries.start, entries.length, result.wanted(call));
    const std::string which = " for a list of " + std::to_string(given.list);
    compare_packed(tally, packed, expected.refusal, 0, which, given.file);
    const bool put = call.wanted && !expected.refusal.refused();
    if (!result.holds(put ? result_of(value) : std::vector<std::uint64_t>{}))
        tally.differ("the result" + which, given.file);
    if (put && !(flipcut_answer_of(result.wanted(call)) == c_answer(value)))
        tally.differ("the answer of the result" + which, given.file);
    if (!list.holds(c_list(expected.answer.flips))) tally.differ("the flip list" + which, given.file);
    tally.agreed(expected.refusal.number);
}

// What reproduces a difference in writing: all that was given, as text.
oracle::Bytes described(const WriteCase& given) {
    const AnswerValue& value = given.value;
    std::string text = "room " + std::to_string(given.room) + "\nhead";
    for (std::uint32_t number : {std::uint32_t{value.n}, std::uint32_t{value.m}, std::uint32_t{value.group_count},
                                 std::uint32_t{value.flip_count}, value.total})
        text += " " + std::to_string(number);
    for (const oracle::Group& group : value.groups)
        text += "\ngroup " + std::to_string(group.taxa) + " " + std::to_string(group.cost);
    for (const Flip& flip : given.list)
        text += "\nentry " + std::to_string(flip.column) + " " + std::to_string(flip.raised) + " " +
                std::to_string(flip.lowered);
    text += "\n";
    return oracle::Bytes(text.begin(), text.end());
}

// A null answer is one of zeros.
void compare_write(Tally& tally, gen::Random& random, WriteCase given, const Call& call = usual_call) {
    if (!call.wanted) given.value = {};
    const oracle::WriteOutcome expected = oracle::write(given.value, given.list, given.room);
    const std::uint64_t written = expected.file.size();
    const flipcut_answer answer = c_answer(given.value);
    const std::vector<flipcut_flip> entries = c_list(given.list);
    Lent<std::uint8_t> out(random, given.room);
    const auto list = passed(entries, call);
    const auto bytes = out.passed(call);
    const std::uint64_t packed =
        flipcut_write(call.wanted ? &answer : nullptr, list.start, list.length, bytes.start, bytes.length);
    compare_packed(tally, packed, expected.refusal, written << 32, "", described(given));
    if (flipcut_written(packed) != written) tally.differ("the length of what is written", described(given));
    if (!out.holds(expected.file)) tally.differ("the output", described(given));
    tally.agreed(expected.refusal.number);
}

// Answers of random builds: whole, cut at every byte, each byte changed, the total off by one and the
// costs by 2 to the 32.
void built_answers(Tally& tally, gen::Random& random) {
    for (unsigned n : {1u, 2u, 5u, 9u, 64u}) {
        const unsigned m = n < 10 ? 4 : 2;
        const oracle::Answer answer =
            oracle::answer_of(gen::random_matrix(random, n, m, gen::Style{gen::Shape::free, gen::Weights::any, 100, n > 2}));
        const oracle::Bytes file = oracle::answer_file(answer);
        const std::size_t list = answer.flips.size();
        compare_read(tally, random, {file, list});
        for (const oracle::Bytes& other : gen::prefixes(file)) compare_read(tally, random, {other, list});
        for (const oracle::Bytes& other : gen::byte_changes(file)) compare_read(tally, random, {other, list + 3});
        for (std::uint32_t off : {1u, 0xffffffffu}) {
            oracle::Answer other = answer;
            other.value.total += off;
            compare_read(tally, random, {oracle::answer_file(other), list});
        }
        oracle::Answer wrapped = answer;
        gen::wrap_costs(wrapped.value);
        compare_read(tally, random, {oracle::answer_file(wrapped), list});
    }
}

// Those of specimens 1, which has two flips, and 5, which has none.
struct SpecimenAnswers {
    oracle::Answer flipped = oracle::answer_of(oracle::read_matrix(specimens()[0].file));
    oracle::Answer whole = oracle::answer_of(oracle::read_matrix(specimens()[4].file));
};

// An empty file, and an empty list that is too short and that is not; also a result that is not wanted.
void unusual_reads(Tally& tally, gen::Random& random) {
    const SpecimenAnswers answers;
    for (const Call& call : unusual_calls) {
        compare_read(tally, random, {{}, 2}, call);
        for (std::size_t list : {0u, 2u})
            compare_read(tally, random, {oracle::answer_file(answers.flipped), list}, call);
        compare_read(tally, random, {oracle::answer_file(answers.whole), 0}, call);
    }
}

// An empty list that is too short and that is not, and no output; also no answer.
void unusual_writes(Tally& tally, gen::Random& random) {
    const SpecimenAnswers answers;
    for (const Call& call : unusual_calls) {
        compare_write(tally, random, {answers.flipped.value, {}, FLIPCUT_MOST_ANSWER}, call);
        compare_write(tally, random, {answers.whole.value, {}, FLIPCUT_MOST_ANSWER}, call);
        compare_write(tally, random, {answers.flipped.value, answers.flipped.flips, 0}, call);
    }
}

}  // namespace

int main(int argc, char** argv) {
    const TrialWords words = trial_words(argc, argv, 20000);
    gen::Random random(6);
    Tally read("read", words.folder);
    for (int k = 0; k < 3; ++k) built_answers(read, random);
    unusual_reads(read, random);
    for (unsigned long k = 0; k < words.count; ++k) compare_read(read, random, gen::read_case(random));
    read.finish({0, 1, 2, 3, 4, 6, 8, 10, 12, 13, 14});
    Tally write("write", words.folder);
    unusual_writes(write, random);
    for (unsigned long k = 0; k < words.count; ++k) compare_write(write, random, gen::write_case(random));
    write.finish({0, 3, 4, 6, 10, 12, 13, 14});
    return 0;
}
