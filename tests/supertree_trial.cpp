// Compares what the program `supertree` prints and tells with what the independent program would.
//   supertree_trial FOLDER COUNT PROGRAM [ARGUMENT...]   COUNT random texts of each kind; FOLDER takes what differs
#include <cstdio>
#include <cstdlib>
#include <fstream>
#include <iterator>
#include <string>
#include <vector>

#include "gen/damage.h"
#include "gen/texts.h"
#include "oracle/supertree.h"
#include "program.h"
#include "tally.h"
#include "worked.h"

namespace {

using oracle::Bytes;

class SupertreeTrial {
public:
    SupertreeTrial(const std::string& folder, char** first, char** last)
        : tally_("supertree", folder),
          input_(folder + "/given.newick"),
          told_(folder + "/told"),
          command_{"sh", "-c", "exec \"$@\" 2>\"$0\"", told_} {
        command_.insert(command_.end(), first, last);
    }

    void compare(const Bytes& text) {
        std::ofstream(input_, std::ios::binary).write(reinterpret_cast<const char*>(text.data()),
                                                      static_cast<std::streamsize>(text.size()));
        const oracle::SupertreeOutcome expected = oracle::supertree(text);
        const Printed found = run_program(command_, input_);
        std::ifstream on_error(told_, std::ios::binary);
        const std::string told{std::istreambuf_iterator<char>(on_error), {}};
        if (found.status != 0) tally_.differ("the program ended with status " + std::to_string(found.status), text);
        if (found.text != expected.said) tally_.differ("expected '" + expected.said + "', printed '" + found.text + "'", text);
        if (told != expected.told) tally_.differ("expected '" + expected.told + "', told '" + told + "'", text);
        tally_.agreed(expected.refusal.number);
    }

    void finish() const { tally_.finish({0, 16, 17, 18, 19, 20}); }

private:
    Tally tally_;
    std::string input_, told_;
    std::vector<std::string> command_;
};

// A line feed, and another byte that cannot stand there, at every place: every line and every column is told once.
void line_cases(SupertreeTrial& trial) {
    const Bytes text = bytes_of("((A,B),\n\n\tC);\r\n(B,\n(C,A));\n");
    for (const Bytes& start : gen::prefixes(text)) trial.compare(start);
    for (std::size_t at = 0; at < text.size(); ++at)
        for (std::uint8_t byte : {'\n', '*'}) {
            Bytes other = text;
            other[at] = byte;
            trial.compare(other);
        }
}

// The deepest tree, the most columns and one more; then the longest texts that are taken and longer ones, their trees at the end.
void largest_cases(SupertreeTrial& trial) {
    for (const std::string& text : {comb(64) + ";", many_columns(256), many_columns(257)}) trial.compare(bytes_of(text));
    for (const Bytes& trees : {bytes_of("(A,B);"), bytes_of("(A,B)"), bytes_of("(A,B);*")})
        for (std::size_t size : {oracle::longest_text - 1, oracle::longest_text, oracle::longest_text + 1, 3 * oracle::longest_text}) {
            Bytes text(size - trees.size(), '\n');
            text.insert(text.end(), trees.begin(), trees.end());
            trial.compare(text);
        }
}

void random_cases(SupertreeTrial& trial, gen::Random& random, unsigned long count) {
    for (unsigned long k = 0; k < count; ++k) {
        const Bytes trees = gen::random_trees(random), lavish = gen::lavish_trees(random);
        for (const Bytes& text : {trees, lavish, gen::damaged_text(random, trees), gen::damaged_text(random, lavish),
                                  gen::wandering_text(random)})
            trial.compare(text);
    }
}

}  // namespace

int main(int argc, char** argv) {
    if (argc < 4) {
        std::fprintf(stderr, "usage: supertree_trial FOLDER COUNT PROGRAM [ARGUMENT...]\n");
        return 2;
    }
    SupertreeTrial trial(argv[1], argv + 3, argv + argc);
    gen::Random random(17);
    for (const WorkedText& worked : worked_texts()) trial.compare(worked.text);
    line_cases(trial);
    largest_cases(trial);
    random_cases(trial, random, std::strtoul(argv[2], nullptr, 10));
    trial.finish();
    return 0;
}
