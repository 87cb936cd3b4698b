// Compares what a program prints with what the independent program would.
//   outline_trial FOLDER COUNT outline PROGRAM [ARGUMENT...]   the tree of the matrix on standard input
//   outline_trial FOLDER COUNT sample PROGRAM [ARGUMENT...]    the same, and its score, of a file that is named by one
//                                                              argument more; status 1 for one that is refused
#include <cstdio>
#include <cstdlib>
#include <fstream>
#include <sstream>
#include <string>
#include <vector>

#include "gen/damage.h"
#include "gen/matrices.h"
#include "oracle/matrix.h"
#include "oracle/outline.h"
#include "program.h"
#include "specimens.h"
#include "tally.h"

namespace {

using oracle::Bytes;

// The first line that is not the same, for people to read.
std::string first_difference(const std::string& expected, const std::string& found) {
    std::istringstream of_expected(expected), of_found(found);
    std::string x, y;
    for (int line = 1;; ++line) {
        const bool more_x = static_cast<bool>(std::getline(of_expected, x));
        const bool more_y = static_cast<bool>(std::getline(of_found, y));
        if (more_x && more_y && x == y) continue;
        if (!more_x && !more_y) return "the same lines, but not the same line feeds";
        return "line " + std::to_string(line) + ", expected '" + (more_x ? x : "") + "', found '" + (more_y ? y : "") + "'";
    }
}

class OutlineTrial {
public:
    OutlineTrial(const std::string& folder, const std::string& name, std::vector<std::string> command)
        : tally_(name, folder),
          sample_(name == "sample"),
          input_(folder + "/given.matrix"),
          command_(std::move(command)) {
        if (sample_) command_.push_back(input_);
    }

    // `tree` is how the text starts, where the documents give it.
    void compare(const Bytes& file, const std::string& tree = "") {
        std::ofstream(input_, std::ios::binary).write(reinterpret_cast<const char*>(file.data()),
                                                      static_cast<std::streamsize>(file.size()));
        const std::string text = oracle::outline(file, sample_).replace(0, tree.size(), tree);
        const oracle::Refusal refusal = oracle::check(file).refusal;
        const Printed found = run_program(command_, input_);
        if (found.status != (sample_ && refusal.refused() ? 1 : 0))
            tally_.differ("the program ended with status " + std::to_string(found.status), file);
        if (found.text != text) tally_.differ(first_difference(text, found.text), file);
        tally_.agreed(refusal.number, file);
    }

    void finish() const { tally_.finish({0, 1, 2, 3, 4, 5, 6, 7, 8, 21}); }

private:
    Tally tally_;
    bool sample_;
    std::string input_;
    std::vector<std::string> command_;
};

void specimen_cases(OutlineTrial& trial) {
    for (const Specimen& specimen : specimens()) {
        if (!specimen.printed.empty()) trial.compare(specimen.file, specimen.printed);
        trial.compare(specimen.file);
    }
}

// The largest size in every style, the half known ones with multiplicities.
void largest_cases(OutlineTrial& trial, gen::Random& random) {
    for (gen::Shape shape : {gen::Shape::free, gen::Shape::tree, gen::Shape::noisy_tree, gen::Shape::intervals,
                             gen::Shape::blocks})
        for (gen::Weights weights : {gen::Weights::one, gen::Weights::heavy})
            for (unsigned known : {100u, 50u, 8u})
                trial.compare(oracle::matrix_file(gen::random_matrix(random, 64, 256, {shape, weights, known, known == 50})));
    // Every entry a 1: the longest workspace that any matrix needs.
    trial.compare(oracle::matrix_file({64, {}, std::vector<oracle::Column>(256, {1, oracle::all_taxa(64), 0})}));
}

// Column c has the taxa from c on, so that a split takes one taxon off and the next has all the others; turned entries make flows run.
oracle::Matrix nested(gen::Random& random, std::uint64_t heaviest, unsigned turned_percent) {
    oracle::Matrix matrix{64, {}, {}};
    for (unsigned c = 0; c < 256; ++c) {
        oracle::Column column{random.between(1, heaviest), 0, 0};
        for (unsigned taxon = 0; taxon < 64; ++taxon) {
            const bool one = (taxon >= c % 63) != random.chance(turned_percent);
            (one ? column.ones : column.zeros) |= oracle::only(taxon);
        }
        matrix.columns.push_back(column);
    }
    return matrix;
}

// The deepest trees of the largest size: where the program needs the most stack. Those of heavy columns have multiplicities.
void deep_cases(OutlineTrial& trial, gen::Random& random) {
    for (std::uint64_t heaviest : {4u, 65535u})
        for (unsigned turned_percent : {0u, 1u, 5u, 15u}) {
            oracle::Matrix matrix = nested(random, heaviest, turned_percent);
            if (heaviest > 4) matrix.multiplicities = gen::multiplicities_of_sum(random, 64, gen::most_specimens);
            trial.compare(oracle::matrix_file(matrix));
        }
}

// Far more bytes than a matrix can have: before, at and after a buffer for the largest.
void long_files(OutlineTrial& trial, gen::Random& random) {
    const Bytes largest = oracle::matrix_file(gen::heaviest_matrix(random, 64));
    const Bytes without = oracle::matrix_file(gen::random_matrix(random, 64, 256, gen::Style{}));
    for (std::size_t more : {1u, 2u, 3u, 4u, 4096u, 100000u}) {
        for (Bytes file : {specimens()[0].file, without, largest}) {
            file.resize(file.size() + more);
            trial.compare(file);
        }
    }
    trial.compare(Bytes(100000, 255));
}

void random_cases(OutlineTrial& trial, gen::Random& random, unsigned long count) {
    for (unsigned long k = 0; k < count; ++k) {
        const oracle::Matrix matrix = gen::random_matrix(random);
        trial.compare(oracle::matrix_file(matrix));
        if (k % 4 == 0) trial.compare(gen::damaged(random, oracle::matrix_file(matrix)));
        if (k % 4 == 1) trial.compare(gen::unlawful_matrix(random, matrix));
    }
}

}  // namespace

int main(int argc, char** argv) {
    if (argc < 5) {
        std::fprintf(stderr, "usage: outline_trial FOLDER COUNT outline|sample PROGRAM [ARGUMENT...]\n");
        return 2;
    }
    OutlineTrial trial(argv[1], argv[3], std::vector<std::string>(argv + 4, argv + argc));
    gen::Random random(3);
    specimen_cases(trial);
    for (const Bytes& file : gen::prefixes(specimens()[0].file)) trial.compare(file);
    for (const Bytes& file : gen::byte_changes(specimens()[0].file)) trial.compare(file);
    for (const Bytes& file : gen::prefixes(specimens()[merged_second].file)) trial.compare(file);
    random_cases(trial, random, std::strtoul(argv[2], nullptr, 10));
    largest_cases(trial, random);
    long_files(trial, random);
    deep_cases(trial, random);
    trial.finish();
    return 0;
}
