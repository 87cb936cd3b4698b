// Compares flipcut_check, called as C calls it, with the independent check.
//   check_trial FOLDER [COUNT]   COUNT random cases of each kind; FOLDER takes what differs
#include <string>

#include "gen/damage.h"
#include "gen/matrices.h"
#include "lent.h"
#include "oracle/matrix.h"
#include "packed.h"
#include "specimens.h"
#include "tally.h"
#include "trial.h"

namespace {

using oracle::Bytes;
using oracle::CheckOutcome;

std::uint64_t called(const Bytes& given, const Call& call = usual_call) {
    const auto file = passed(given, call);
    return flipcut_check(file.start, file.length);
}

// Through the header's functions.
CheckOutcome unpacked(std::uint64_t packed) {
    CheckOutcome outcome;
    outcome.refusal = refusal_of(packed);
    outcome.n = flipcut_taxa(packed);
    outcome.m = flipcut_columns(packed);
    return outcome;
}

std::string text(const CheckOutcome& outcome) {
    return text(outcome.refusal) + " n " + std::to_string(outcome.n) + " m " + std::to_string(outcome.m);
}

void compare(Tally& tally, const Bytes& file, const Call& call = usual_call) {
    const CheckOutcome expected = oracle::check(file);
    const std::uint64_t packed = called(file, call);
    const CheckOutcome found = unpacked(packed);
    if (!(found == expected)) tally.differ("expected " + text(expected) + ", found " + text(found), file);
    compare_packed(tally, packed, expected.refusal, (std::uint64_t{expected.m} << 16) | expected.n, "", file);
    tally.agreed(expected.refusal.number, file);
}

void specimen_cases(Tally& tally) {
    for (const Specimen& specimen : specimens()) {
        if (unpacked(called(specimen.file)).refusal != specimen.refusal)
            tally.differ("specimen " + specimen.name + " is not as the documents say", specimen.file);
        compare(tally, specimen.file);
    }
}

// A file of each m for the smallest n and the largest two.
void every_size(Tally& tally, gen::Random& random) {
    for (unsigned n : {1u, 63u, 64u})
        for (unsigned m = 0; m <= 256; ++m)
            compare(tally, oracle::matrix_file(gen::random_matrix(random, n, m, gen::random_style(random))));
}

void every_prefix_and_byte(Tally& tally, gen::Random& random) {
    for (unsigned n : {1u, 3u, 8u, 9u, 63u, 64u})
        for (unsigned m : {0u, 1u, 2u, 7u}) {
            gen::Style style = gen::random_style(random);
            style.merged = m == 1;
            const Bytes file = oracle::matrix_file(gen::random_matrix(random, n, m, style));
            for (const Bytes& other : gen::prefixes(file)) compare(tally, other);
            for (const Bytes& other : gen::byte_changes(file)) compare(tally, other);
        }
    // The largest file, where a column's place needs more than a byte.
    const Bytes largest = oracle::matrix_file(gen::heaviest_matrix(random, 64));
    for (const Bytes& other : gen::prefixes(largest)) compare(tally, other);
}

// One taxon with every multiplicity, two with those at the edges of what is taken and of a byte.
void every_multiplicity(Tally& tally) {
    for (unsigned only = 0; only < 256; ++only) compare(tally, oracle::matrix_file({1, {static_cast<std::uint8_t>(only)}, {}}));
    const Bytes edges{0, 1, 2, 63, 64, 65, 126, 127, 128, 129, 200, 254, 255};
    for (std::uint8_t first : edges)
        for (std::uint8_t second : edges) compare(tally, oracle::matrix_file({2, {first, second}, {}}));
}

// Every sum around the most there may be, and the record missing, elsewhere, twice and of other lengths.
void every_record_of_multiplicities(Tally& tally, gen::Random& random) {
    for (unsigned n : {1u, 2u, 3u, 63u, 64u}) {
        oracle::Matrix matrix = gen::random_matrix(random, n, 2, gen::Style{});
        for (unsigned sum : {127u, 128u, 255u, 256u, 257u, 383u, 384u, 512u}) {
            matrix.multiplicities = gen::multiplicities_of_sum(random, n, sum);
            compare(tally, oracle::matrix_file(matrix));
        }
        matrix.multiplicities = gen::random_multiplicities(random, n);
        for (const Bytes& other : gen::misplaced_multiplicities(matrix)) compare(tally, other);
    }
}

void random_cases(Tally& tally, gen::Random& random, unsigned long count) {
    for (unsigned long k = 0; k < count; ++k) {
        const oracle::Matrix matrix = gen::random_matrix(random);
        compare(tally, gen::random_bytes(random));
        compare(tally, gen::damaged(random, oracle::matrix_file(matrix)));
        compare(tally, gen::unlawful_matrix(random, matrix));
    }
}

}  // namespace

int main(int argc, char** argv) {
    const TrialWords words = trial_words(argc, argv, 5000);
    Tally tally("check", words.folder);
    gen::Random random(1);
    specimen_cases(tally);
    for (const Call& call : unusual_calls) compare(tally, {}, call);
    every_size(tally, random);
    every_prefix_and_byte(tally, random);
    every_multiplicity(tally);
    every_record_of_multiplicities(tally, random);
    random_cases(tally, random, words.count);
    tally.finish({0, 1, 2, 3, 4, 5, 6, 7, 8, 21});
    return 0;
}
