// Compares flipcut_read_newick, called as C calls it, with the independent program: numbers and both outputs.
//   newick_trial FOLDER [COUNT]   COUNT random cases of each kind; FOLDER takes what differs
#include "gen/cases.h"
#include "gen/damage.h"
#include "gen/texts.h"
#include "lent.h"
#include "oracle/name_list.h"
#include "oracle/source_trees.h"
#include "packed.h"
#include "tally.h"
#include "trial.h"
#include "worked.h"

namespace {

using gen::NewickCase;
using oracle::Bytes;
using oracle::NewickOutcome;

// What is read is a matrix and a name list that the other functions take.
void compare_read(const Tally& tally, const NewickOutcome& expected, const Bytes& text) {
    const oracle::CheckOutcome of_matrix = oracle::check(expected.matrix);
    const std::uint64_t checked = flipcut_check(expected.matrix.data(), expected.matrix.size());
    const std::uint64_t names = flipcut_check_names(expected.names.data(), expected.names.size());
    if (checked != ((std::uint64_t{of_matrix.m} << 16) | of_matrix.n) || names != of_matrix.n)
        tally.differ("the matrix or the names are not taken", text);
}

void compare(Tally& tally, gen::Random& random, const NewickCase& given, const Call& call = usual_call) {
    const NewickOutcome expected = oracle::read_newick(given.text, given.matrix_room, given.names_room);
    const std::uint64_t matrix_length = expected.matrix.size(), names_length = expected.names.size();
    Lent<std::uint8_t> matrix(random, given.matrix_room), names(random, given.names_room);
    const auto text = passed(given.text, call);
    const auto first = matrix.passed(call), second = names.passed(call);
    const std::uint64_t packed =
        flipcut_read_newick(text.start, text.length, first.start, first.length, second.start, second.length);
    const std::string which = " for a matrix of " + std::to_string(given.matrix_room) + " and names of " +
                              std::to_string(given.names_room) + " bytes";
    compare_packed(tally, packed, expected.refusal, (matrix_length << 32) | names_length, which, given.text);
    if (flipcut_written(packed) != matrix_length || flipcut_names_written(packed) != names_length)
        tally.differ("the lengths" + which, given.text);
    if (!matrix.holds(expected.matrix)) tally.differ("the matrix" + which, given.text);
    if (!names.holds(expected.names)) tally.differ("the names" + which, given.text);
    if (!expected.refusal.refused()) compare_read(tally, expected, given.text);
    tally.agreed(expected.refusal.number);
}

// A text with outputs that are just long enough; where it is refused, with some.
NewickCase with_room(const Bytes& text) {
    const NewickOutcome whole = oracle::read_newick(text, FLIPCUT_MOST_SOURCE_MATRIX, FLIPCUT_MOST_NAMES);
    if (whole.refusal.refused()) return {text, 60, 20};
    return {text, whole.matrix.size(), whole.names.size()};
}

// Each output just long enough, longer, one byte too short, and none.
void room_cases(Tally& tally, gen::Random& random, const Bytes& text) {
    const NewickCase enough = with_room(text);
    const std::size_t matrix = enough.matrix_room, names = enough.names_room;
    for (std::size_t first : {matrix, matrix - 1, matrix + 7, std::size_t{0}})
        for (std::size_t second : {names, names - 1, names + 9, std::size_t{0}}) compare(tally, random, {text, first, second});
}

// As document 02's words have them.
void worked_cases(Tally& tally, gen::Random& random) {
    for (const WorkedText& worked : worked_texts()) {
        Bytes matrix(FLIPCUT_MOST_SOURCE_MATRIX), names(FLIPCUT_MOST_NAMES);
        const std::uint64_t packed = flipcut_read_newick(worked.text.data(), worked.text.size(), matrix.data(),
                                                         matrix.size(), names.data(), names.size());
        matrix.resize(flipcut_written(packed));
        names.resize(flipcut_names_written(packed));
        if (refusal_of(packed) != worked.refusal)
            tally.differ(worked.what + " is not as document 02 says: " + text(refusal_of(packed)), worked.text);
        if (!worked.matrix.empty() && matrix != worked.matrix) tally.differ("the matrix of " + worked.what, worked.text);
        if (!worked.names.empty() && names != worked.names) tally.differ("the names of " + worked.what, worked.text);
        room_cases(tally, random, worked.text);
        compare(tally, random, {worked.text, FLIPCUT_MOST_SOURCE_MATRIX, FLIPCUT_MOST_NAMES});
    }
}

// Every text of so many bytes over few letters, as long as its beginning may go on; and what a letter more makes of it.
void short_texts(Tally& tally, gen::Random& random, std::size_t longest, Bytes& text) {
    compare(tally, random, with_room(text));
    const NewickOutcome found = oracle::read_newick(text, FLIPCUT_MOST_SOURCE_MATRIX, FLIPCUT_MOST_NAMES);
    const bool ends_in_name = !text.empty() && oracle::may_be_in_a_name(text.back());
    const bool unfinished = found.refusal == oracle::Refusal{16, text.size()};
    if (text.size() == longest || !(unfinished || ends_in_name || !found.refusal.refused())) return;
    for (char letter : {'(', ')', ',', ';', 'A', 'B', ' '}) {
        text.push_back(static_cast<std::uint8_t>(letter));
        short_texts(tally, random, longest, text);
        text.pop_back();
    }
}

// Every other byte at every place.
void every_byte(Tally& tally, gen::Random& random, const std::string& text) {
    for (const Bytes& other : gen::all_byte_changes(bytes_of(text))) compare(tally, random, with_room(other));
}

// The bytes that matter, at every place.
void every_telling_byte(Tally& tally, gen::Random& random, const std::string& text) {
    for (std::size_t at = 0; at < text.size(); ++at)
        for (char byte : {'(', ')', ',', ';', 'D', ' ', '*', '\0', '\x80'}) {
            Bytes other = bytes_of(text);
            other[at] = static_cast<std::uint8_t>(byte);
            compare(tally, random, with_room(other));
        }
}

// A small text, names as long as may be among blanks, and one bracket more than may be; then as many names as may be, the
// deepest tree, and as many columns as may be, where places need more than a byte.
void every_prefix_and_byte(Tally& tally, gen::Random& random) {
    const std::string x31(31, 'x');
    const std::string small = "((A,B),C);", deep = std::string(65, '(') + "A";
    const std::string spaced = "( " + x31 + "y,(A," + x31 + "z )\t);\r\n(A,\n" + x31 + ") ;";
    const std::string names = "(" + many_names(0, 63) + ");((063,062),000);", columns = many_columns(256);
    for (const std::string& text : {small, spaced, deep, names, comb(64) + ";", columns})
        for (const Bytes& other : gen::prefixes(bytes_of(text))) compare(tally, random, with_room(other));
    for (const std::string& text : {small, spaced, deep}) every_byte(tally, random, text);
    for (const std::string& text : {names, comb(64) + ";", columns}) every_telling_byte(tally, random, text);
}

// Two names of each length that differ in one letter, at each place, met again in either order, up to the text's end.
void like_names(Tally& tally, gen::Random& random) {
    for (std::size_t size = 1; size <= FLIPCUT_MOST_NAME; ++size)
        for (std::size_t place = 0; place < size; ++place) {
            const std::string one(size, 'x');
            std::string other = one;
            other[place] = 'y';
            const std::string start = "(" + one + "," + other + ");(" + other + "," + one + ");";
            for (const std::string& end : {std::string(), one + ";", other + ";", "(" + one + "," + one + ");", "((" + other + "," + one + "),z);"})
                compare(tally, random, with_room(bytes_of(start + end)));
        }
}

// Every length of each output, up to a few bytes more than it needs.
void every_room(Tally& tally, gen::Random& random) {
    const Bytes text = bytes_of("(Quercus_robur,(Q.petraea,Q-pubescens));(Fagus,(Quercus_robur,Q.petraea));");
    const NewickCase enough = with_room(text);
    for (std::size_t room = 0; room < enough.matrix_room + 3; ++room) compare(tally, random, {text, room, enough.names_room});
    for (std::size_t room = 0; room < enough.names_room + 3; ++room) compare(tally, random, {text, enough.matrix_room, room});
}

// The header's constants are what the largest text needs: 64 names of 32 bytes, 256 columns.
void largest_lengths(Tally& tally, gen::Random& random) {
    std::vector<std::string> names;
    for (unsigned taxon = 0; taxon < FLIPCUT_MOST_TAXA; ++taxon)
        names.push_back(std::to_string(100 + taxon) + std::string(FLIPCUT_MOST_NAME - 3, '-'));
    std::string text = "(" + names[0];
    for (unsigned taxon = 1; taxon < FLIPCUT_MOST_TAXA; ++taxon) text += "," + names[taxon];
    text += ");";
    for (unsigned column = 0; column < FLIPCUT_MOST_COLUMNS; ++column)
        text += "((" + names[column % 64] + "," + names[(column + 1) % 64] + ")," + names[(column + 7) % 64] + ");\n";
    const NewickCase largest = with_room(bytes_of(text));
    if (largest.matrix_room != FLIPCUT_MOST_SOURCE_MATRIX || largest.names_room != FLIPCUT_MOST_NAMES)
        tally.differ("the header's constants", largest.text);
    room_cases(tally, random, largest.text);
}

// Places that need more than two bytes, and than three: a million bytes of trees that give no column, 17 million of blanks.
void long_texts(Tally& tally, gen::Random& random) {
    std::string trees;
    while (trees.size() < 1000000) trees += "(A,B);C;\n(B,D,A,C); ";
    for (const std::string& start : {trees, std::string(17000000, ' ')})
        for (const char* end : {"", "((A,B),C);", "(A,A"}) compare(tally, random, with_room(bytes_of(start + end)));
}

// An empty text, and empty outputs; for this text nothing is long enough that is empty.
void unusual_cases(Tally& tally, gen::Random& random) {
    const NewickCase whole = with_room(bytes_of("(A,(B,C));"));
    for (const Call& call : unusual_calls) {
        compare(tally, random, {{}, 60, 20}, call);
        compare(tally, random, {{}, 0, 0}, call);
        compare(tally, random, whole, call);
        compare(tally, random, {whole.text, 0, whole.names_room}, call);
        compare(tally, random, {whole.text, whole.matrix_room, 0}, call);
        compare(tally, random, {whole.text, 0, 0}, call);
        compare(tally, random, {bytes_of("(A,A"), 0, 0}, call);
    }
}

void random_cases(Tally& tally, gen::Random& random, unsigned long count) {
    for (unsigned long k = 0; k < count; ++k) {
        const Bytes trees = gen::random_trees(random), lavish = gen::lavish_trees(random);
        compare(tally, random, gen::newick_case(random, trees));
        compare(tally, random, gen::newick_case(random, gen::damaged_text(random, trees)));
        compare(tally, random, gen::newick_case(random, lavish));
        compare(tally, random, gen::newick_case(random, gen::damaged_text(random, lavish)));
        compare(tally, random, gen::newick_case(random, gen::wandering_text(random)));
    }
}

}  // namespace

int main(int argc, char** argv) {
    const TrialWords words = trial_words(argc, argv, 15000);
    Tally tally("newick", words.folder);
    gen::Random random(9);
    worked_cases(tally, random);
    Bytes text;
    short_texts(tally, random, 9, text);
    every_prefix_and_byte(tally, random);
    like_names(tally, random);
    every_room(tally, random);
    largest_lengths(tally, random);
    long_texts(tally, random);
    unusual_cases(tally, random);
    random_cases(tally, random, words.count);
    tally.finish({0, 10, 16, 17, 18, 19, 20});
    return 0;
}
