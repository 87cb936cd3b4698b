// Compares flipcut_check_names, called as C calls it, with the independent program.
//   names_trial FOLDER [COUNT]
#include "gen/cases.h"
#include "gen/damage.h"
#include "gen/texts.h"
#include "lent.h"
#include "oracle/name_list.h"
#include "packed.h"
#include "tally.h"
#include "trial.h"
#include "worked.h"

namespace {

using oracle::Bytes;

void compare(Tally& tally, const Bytes& list, const Call& call = usual_call) {
    const oracle::NamesOutcome expected = oracle::check_names(list);
    const auto file = passed(list, call);
    const std::uint64_t packed = flipcut_check_names(file.start, file.length);
    compare_packed(tally, packed, expected.refusal, expected.count, "", list);
    if (flipcut_names(packed) != expected.count) tally.differ("the number of names", list);
    tally.agreed(expected.refusal.number);
}

// As document 02's words have them.
void worked_cases(Tally& tally) {
    for (const WorkedList& worked : worked_lists()) {
        const std::uint64_t packed = flipcut_check_names(worked.file.data(), worked.file.size());
        if (refusal_of(packed) != worked.refusal || flipcut_names(packed) != worked.count)
            tally.differ(worked.what + " is not as document 02 says", worked.file);
        compare(tally, worked.file);
    }
}

// Every byte as a name of its own, and beside a letter.
void every_letter(Tally& tally) {
    for (unsigned byte = 0; byte < 256; ++byte) {
        const std::string letter(1, static_cast<char>(byte));
        for (const std::string& name : {letter, "x" + letter, letter + "x"}) compare(tally, oracle::names_file({"A", name}));
    }
}

// A name of every length, also of those whose low byte would do.
void every_length(Tally& tally) {
    for (std::size_t length = 0; length < 600; ++length)
        compare(tally, oracle::names_file({"A", std::string(length, 'B'), "C"}));
}

// One name of many repeated, each with each.
void every_repeat(Tally& tally, gen::Random& random) {
    const std::vector<std::string> names = gen::random_names(random, 40);
    for (std::size_t from = 0; from < names.size(); ++from)
        for (std::size_t to = 0; to < names.size(); ++to) {
            std::vector<std::string> other = names;
            other[to] = names[from];
            compare(tally, oracle::names_file(other));
        }
}

void every_prefix_and_byte(Tally& tally, gen::Random& random) {
    for (std::size_t count : {0u, 1u, 2u, 3u, 9u, 64u, 70u}) {
        const Bytes file = oracle::names_file(gen::random_names(random, count));
        for (const Bytes& other : gen::prefixes(file)) compare(tally, other);
        if (count < 10)
            for (const Bytes& other : gen::all_byte_changes(file)) compare(tally, other);
        for (const Bytes& other : gen::byte_changes(file)) compare(tally, other);
    }
}

// More names than a byte, or than 2 bytes of a file's length, can count.
void long_lists(Tally& tally, gen::Random& random) {
    for (std::size_t count : {65u, 255u, 256u, 257u, 3000u}) {
        const std::vector<std::string> names = gen::random_names(random, count);
        compare(tally, oracle::names_file(names));
        std::vector<std::string> repeated = names;
        repeated.push_back(names[0]);
        compare(tally, oracle::names_file(repeated));
    }
}

}  // namespace

int main(int argc, char** argv) {
    const TrialWords words = trial_words(argc, argv, 20000);
    Tally tally("names", words.folder);
    gen::Random random(10);
    worked_cases(tally);
    for (const Call& call : unusual_calls) compare(tally, {}, call);
    every_letter(tally);
    every_length(tally);
    every_repeat(tally, random);
    every_prefix_and_byte(tally, random);
    long_lists(tally, random);
    for (unsigned long k = 0; k < words.count; ++k) compare(tally, gen::names_case(random));
    tally.finish({0, 1, 2, 8, 16, 18});
    return 0;
}
