#include "worked.h"

#include <stdexcept>

namespace {

using oracle::Bytes;

std::string repeated(const std::string& text, unsigned count) {
    std::string all;
    for (unsigned k = 0; k < count; ++k) all += text;
    return all;
}

// The name of a number up to 999.
std::string numbered(unsigned number) {
    const std::string digits = std::to_string(number);
    return std::string(digits.size() < 3 ? 3 - digits.size() : 0, '0') + digits;
}

Bytes with_byte(Bytes file, std::uint8_t byte) {
    file.push_back(byte);
    return file;
}

// A list of so many numbered names.
Bytes numbered_list(unsigned count) {
    Bytes file;
    for (unsigned k = 0; k < count; ++k) {
        const Bytes record = bytes_of(std::string("\x03\0\x21\0", 4) + numbered(k));
        file.insert(file.end(), record.begin(), record.end());
    }
    const Bytes end = hex("0000 2200");
    file.insert(file.end(), end.begin(), end.end());
    return file;
}

WorkedText refused(const std::string& text, unsigned number, std::size_t place) {
    return {text.substr(0, 30), bytes_of(text), {number, place}, {}, {}};
}

WorkedText taken(const std::string& text, const std::string& matrix = "", const std::string& names = "") {
    return {text.substr(0, 30), bytes_of(text), {}, hex(matrix), hex(names)};
}

const std::string letters32 = "ABCDEFGHIJKLMNOPQRSTUVWXYZ012345";
// Names A, B and C.
const std::string abc = "0100 2100 41  0100 2100 42  0100 2100 43  0000 2200";

// "16 not of this grammar, or no tree, at the first byte that cannot stand there or the file's end"
void add_grammar(std::vector<WorkedText>& all) {
    const std::vector<WorkedText> cases{
        taken("A;", "0400 0100 0100 0000  0000 0300", "0100 2100 41  0000 2200"),
        refused("", 16, 0), refused(" \n", 16, 2), refused(";", 16, 0), refused("A;;", 16, 2),
        refused("a(b,c);", 16, 1), refused("A B;", 16, 2), refused("(A);", 16, 2), refused("();", 16, 1),
        refused("(A,);", 16, 3), refused("A,B;", 16, 1), refused("(A,B));", 16, 5), refused("(A,B)C;", 16, 5),
        refused("(A:1,B);", 16, 2), refused("((A,B));", 16, 6), refused(")", 16, 0), refused(",", 16, 0),
        refused("('A',B);", 16, 1), refused("[x](A,B);", 16, 0), refused("(,A);", 16, 1), refused("(A,B;", 16, 4),
        refused("(A B,C);", 16, 3), refused("(A,B)(C,D);", 16, 5), refused("A;(", 16, 3),
        refused("A", 16, 1), refused("A ", 16, 2), refused("(A,B)", 16, 5), refused("A; B", 16, 4), refused("(", 16, 1),
        refused("(A,", 16, 3), taken("A; \t\r\n"), taken("\r\n( A\t,B )\n; "), taken("A;A;\nA;"),
        refused("\xc3\x84;", 16, 0), refused("\xef\xbb\xbf""A;", 16, 0), refused("A\x80;", 16, 1),
        refused(std::string("A\0;", 3), 16, 1), refused(std::string("A;\0", 3), 16, 2), refused("A\v;", 16, 1),
        refused("A;\f", 16, 2), refused("A+;", 16, 1), refused("A/B;", 16, 1), refused("A@;", 16, 1), refused("A[;", 16, 1),
        refused("A`;", 16, 1), refused("A{;", 16, 1), refused("A~;", 16, 1), refused("A:;", 16, 1), refused("A^;", 16, 1),
        taken("(a.1,-_Z,0-9);", "0400 0100 0300 0000  0000 0300",
              "0300 2100 61 2e 31  0300 2100 2d 5f 5a  0300 2100 30 2d 39  0000 2200"),
        taken("(A,a);", "0400 0100 0200 0000  0000 0300", "0100 2100 41  0100 2100 61  0000 2200"),
    };
    all.insert(all.end(), cases.begin(), cases.end());
}

// "17 name too long, at its 33rd byte, and then neither 18 nor 19; 18 name twice in one tree, at its first byte"
void add_names(std::vector<WorkedText>& all) {
    const std::string long33 = letters32 + "6", long40 = letters32 + "6789abcd";
    const std::vector<WorkedText> cases{
        taken(letters32 + ";"), taken("(" + letters32 + "," + letters32.substr(1) + ");"),
        refused(long33 + ";", 17, 32), refused(long33, 17, 32), refused(repeated("x", 1000) + ";", 17, 32),
        refused(letters32 + "*", 16, 32), refused(letters32, 16, 32), refused(long40 + "*", 17, 32),
        refused("(A, " + long40 + ",A);", 17, 36), refused("A " + long40, 16, 2), refused("(A,B)" + long40, 16, 5),
        refused("(" + long33 + "," + long33 + ");", 17, 33),
        taken("(A,AB);"), taken("(AB,A);"), refused("(A,A", 18, 3), refused("(A,A*", 18, 3), refused("(A,A)", 18, 3),
        refused("(A,B,A);", 18, 5), refused("((A,B),(C,B));", 18, 10), refused("(A,B)A;", 16, 5),
        refused("(" + letters32 + ",B," + letters32 + ");", 18, 36),
        taken("(A,B);(A,C);(B,A);"), refused("(A,B);(C,C);", 18, 9), refused("(A,A);(", 18, 3), refused("(A,A,,", 18, 3),
    };
    all.insert(all.end(), cases.begin(), cases.end());
}

// "19 more than 64 names or 256 columns, at the name or bracket; 20 brackets nested above 64, at the bracket"
void add_limits(std::vector<WorkedText>& all) {
    const std::string names64 = "(" + many_names(0, 64), long33 = letters32 + "6";
    const std::string full = names64 + ");";  // 258 bytes
    const std::string columns256 = many_columns(256);
    // 63 brackets closed and 64 open, the outermost among them.
    const std::string wide = "(" + comb(64) + "," + repeated("(", 63);
    const std::vector<WorkedText> cases{
        taken(full), refused(names64 + ",b);", 19, 257), refused(names64 + ",b*", 19, 257), refused(names64 + ",b", 19, 257),
        refused(names64 + "*", 16, 256), refused(names64 + "," + long33, 17, 289), refused(names64 + ",063", 18, 257),
        taken(full + "(000,063);063;"), refused(full + "(000,b);", 19, 263), refused(full + " b;", 19, 259),
        refused(full + "(000,000", 18, 263), refused(full + "((000,063),(001,b", 19, 274),
        taken(columns256), refused(columns256 + "((A,B),C);", 19, 2561), refused(columns256 + "((", 19, 2561),
        refused(columns256 + "(A,( ", 19, 2563), refused(columns256 + "(A", 16, 2562), refused(columns256 + "A(", 16, 2561),
        taken(columns256 + repeated("(A,B);D;", 1000)), refused(columns256 + "(A,A,(", 18, 2563),
        refused(repeated("(", 65), 20, 64), refused(repeated("(", 64), 16, 64), refused(repeated("(", 1000), 20, 64),
        refused(repeated("( ", 65), 20, 128), refused(repeated("(", 64) + "A", 16, 65), refused(repeated("(", 64) + "(A", 20, 64),
        refused("A" + repeated("(", 65), 16, 1), refused(repeated("(A,", 65), 18, 4),
        // 63 more columns in 64 brackets: the next bracket is over both limits, or over that of nesting alone.
        refused(many_columns(193) + repeated("(", 65), 19, 1994), refused(many_columns(192) + repeated("(", 65), 20, 1984),
        taken(comb(64) + ";"), taken("(" + comb(63) + ",y);"), refused("(" + comb(64) + ",y);", 19, 383),
        refused(wide, 16, 446), refused(wide + "(", 20, 446), refused(wide + "y", 19, 446), refused(wide + "000", 18, 446),
    };
    all.insert(all.end(), cases.begin(), cases.end());
}

// "Every inner vertex but the root gives a column of weight 1 .. Trees give columns in file order, vertices in order of their
// opening bracket. Taxa are numbered by first appearance."
void add_columns(std::vector<WorkedText>& all) {
    const std::string column = "1200 0200 0100 ", end = "0000 0300";
    const std::string ab_c = column + "0300000000000000 0400000000000000 ";
    const std::vector<WorkedText> cases{
        taken("((A,B),C);", "0400 0100 0300 0100 " + ab_c + end, abc),
        taken("((A,B),C);((A,B),C);", "0400 0100 0300 0200 " + ab_c + ab_c + end, abc),
        taken("(A,B);((C,B),A);", "0400 0100 0300 0100 " + column + "0600000000000000 0100000000000000 " + end, abc),
        // Parents before children; the third tree knows nothing of C and D, the fourth gives nothing.
        taken("((A,(B,C)),D);(A,(D,B),C);((A,B),E);(E,A);E;",
              "0400 0100 0500 0400 " + column + "0700000000000000 0800000000000000 " +
                  column + "0600000000000000 0900000000000000 " +
                  column + "0a00000000000000 0500000000000000 " +
                  column + "0300000000000000 1000000000000000 " + end,
              "0100 2100 41  0100 2100 42  0100 2100 43  0100 2100 44  0100 2100 45  0000 2200"),
    };
    all.insert(all.end(), cases.begin(), cases.end());
}

// An answer of these groups, all costs 0.
Bytes tree_file(unsigned n, const std::vector<oracle::TaxonSet>& groups) {
    oracle::Answer answer;
    answer.value.n = static_cast<std::uint16_t>(n);
    answer.value.group_count = static_cast<std::uint16_t>(groups.size());
    for (std::size_t k = 0; k < groups.size(); ++k) answer.value.groups[k].taxa = groups[k];
    return oracle::answer_file(answer);
}

}  // namespace

oracle::Bytes bytes_of(const std::string& text) { return Bytes(text.begin(), text.end()); }

oracle::Bytes hex(const std::string& digits) {
    Bytes bytes;
    std::string pair;
    for (char digit : digits) {
        if (digit == ' ') continue;
        pair += digit;
        if (pair.size() < 2) continue;
        bytes.push_back(static_cast<std::uint8_t>(std::stoul(pair, nullptr, 16)));
        pair.clear();
    }
    if (!pair.empty()) throw std::logic_error("half a byte");
    return bytes;
}

std::string many_columns(unsigned count) { return repeated("((A,B),C);", count); }

std::string many_names(unsigned first, unsigned count) {
    std::string names;
    for (unsigned k = first; k < first + count; ++k) names += (k == first ? "" : ",") + numbered(k);
    return names;
}

std::string comb(unsigned count) {
    std::string text;
    for (unsigned k = 0; k + 1 < count; ++k) text += "(" + numbered(k) + ",";
    return text + numbered(count - 1) + std::string(count - 1, ')');
}

std::vector<WorkedText> worked_texts() {
    std::vector<WorkedText> all;
    add_grammar(all);
    add_names(all);
    add_limits(all);
    add_columns(all);
    return all;
}

// "In a name list, at the record: 2 also for a name not 1 to 32 long, 16 a wrong byte, 18 a repeat", and 1, 2 and 8 as in any
// file.
std::vector<WorkedList> worked_lists() {
    const std::string a = "0100 2100 41 ", b = "0100 2100 42 ", end = "0000 2200 ", x32 = repeated("78", 32);
    return {
        {"no name", hex(end), {}, 0},
        {"one name", hex(a + end), {}, 1},
        {"two names", hex(a + b + end), {}, 2},
        {"70 names", numbered_list(70), {}, 70},
        {"32 bytes", hex("2000 2100 " + x32 + end), {}, 1},
        {"nothing", {}, {1, 0}, 0},
        {"less than a frame", hex(a + "0000 22"), {1, 5}, 0},
        {"no end", hex(a + b), {1, 10}, 0},
        {"a short name", hex(a + "0400 2100 41 41 41"), {1, 5}, 0},
        {"a short name of 33 bytes", hex(a + "2100 2100 41"), {2, 5}, 0},
        {"no byte", hex(a + "0000 2100 " + end), {2, 5}, 0},
        {"33 bytes", hex(a + "2100 2100 " + x32 + "78 " + end), {2, 5}, 0},
        {"257 bytes", hex(a + "0101 2100 " + repeated("78", 257) + end), {2, 5}, 0},
        {"an end with a byte", hex(a + "0100 2200 41"), {2, 5}, 0},
        {"an end with a byte that is missing", hex(a + "0100 2200"), {2, 5}, 0},
        {"an end of 256 bytes", hex(a + "0001 2200"), {2, 5}, 0},
        {"another kind", hex(a + "0100 2000 41 " + end), {2, 5}, 0},
        {"a third kind", hex(a + "0100 2300 41 " + end), {2, 5}, 0},
        {"a kind of two bytes", hex(a + "0100 2101 41 " + end), {2, 5}, 0},
        {"the end of a matrix", hex(a + "0000 0300"), {2, 5}, 0},
        {"a blank", hex(a + "0200 2100 42 20 " + b + end), {16, 5}, 0},
        {"a byte of 0", hex("0200 2100 42 00 " + b + end), {16, 0}, 0},
        {"a byte of 128", hex(a + b + "0100 2100 80 " + end), {16, 10}, 0},
        {"a repeat", hex(a + b + "0200 2100 41 42 " + a + b), {18, 16}, 0},
        {"a repeat, and then a wrong byte", hex(a + a + "0100 2100 2a " + end), {18, 5}, 0},
        {"a wrong byte twice", hex(a + "0100 2100 2a 0100 2100 2a " + end), {16, 5}, 0},
        {"names that differ by case", hex(a + "0100 2100 61 " + end), {}, 2},
        {"bytes after it", hex(a + end + "00"), {8, 9}, 0},
        {"a name after it", hex(a + end + b + end), {8, 9}, 0},
        {"two ends", hex(end + end), {8, 4}, 0},
    };
}

// "without blanks, parts by lowest taxon"; "inputs are read in the order named", "15 at 0 where it has not n names", then 10.
std::vector<WorkedTree> worked_trees() {
    const Bytes three = tree_file(3, {7, 6}), bad_answer = tree_file(3, {6, 7}), long_answer = with_byte(three, 0);
    const Bytes names = hex(abc), bad_names = hex("0100 2100 2a 0000 2200"), none = hex("0000 2200");
    return {
        {"three taxa", three, names, 10, {}, "(A,(B,C));"},
        {"three taxa, room for more", three, names, 64, {}, "(A,(B,C));"},
        {"a star", tree_file(3, {7}), names, 8, {}, "(A,B,C);"},
        {"the first and the last", tree_file(3, {7, 5}), names, 10, {}, "((A,C),B);"},
        {"by number, not by name", tree_file(3, {7, 5}), hex("0100 2100 5a  0100 2100 41  0100 2100 4d  0000 2200"), 10, {},
         "((Z,M),A);"},
        {"leaves among groups", tree_file(6, {0x3f, 0x12, 0x24}), numbered_list(6), 30, {}, "(000,(001,004),(002,005),003);"},
        {"one taxon", tree_file(1, {}), hex("0100 2100 41  0000 2200"), 2, {}, "A;"},
        {"one taxon, no room", tree_file(1, {}), hex("0100 2100 41  0000 2200"), 1, {10, 0}, ""},
        {"no room", three, names, 9, {10, 0}, ""},
        {"no name", three, none, 0, {15, 0}, ""},
        {"70 names", three, numbered_list(70), 0, {15, 0}, ""},
        {"a name more", tree_file(2, {3}), names, 9, {15, 0}, ""},
        {"a wrong name, and not as many", three, bad_names, 0, {16, 0}, ""},
        {"a name twice, and not as many", three, hex("0100 2100 41  0100 2100 41  0000 2200"), 0, {18, 5}, ""},
        {"bytes after not as many names", three, with_byte(none, 0), 64, {8, 4}, ""},
        {"a wrong answer and a wrong name", bad_answer, bad_names, 0, {12, 16}, ""},
        {"a wrong answer and no list", bad_answer, {}, 0, {12, 16}, ""},
        {"a byte after the answer, and no list", long_answer, {}, 0, {8, 52}, ""},
        {"no answer", {}, {}, 0, {1, 0}, ""},
        {"no list", three, {}, 0, {1, 0}, ""},
    };
}
