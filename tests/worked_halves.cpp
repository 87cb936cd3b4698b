#include "worked_halves.h"

#include "specimens.h"
#include "worked.h"

namespace {

using oracle::Bytes;

// A specimen with what document 01 says of it, and document 02's C-14 and C-13 of the last three: the two files' bytes, how many
// 1s the matrix has, and the rooms, 20 + 16(n-1) and 22m more. The head goes up to the number of groups; then come the number of
// flips, by which the two differ, and the total.
struct Whole {
    std::size_t specimen;
    std::string head, groups, flips;
    std::uint8_t flip_count;
    std::uint8_t total;
    std::size_t ones, tree_room, room;
};

const std::string end = "0000 1400";

const std::vector<Whole>& wholes() {
    static const std::vector<Whole> all{
        {0, "0c00 1100 0400 0300 0300",
         "0c00 1200 0f00000000000000 01000000  0c00 1200 0e00000000000000 01000000  0c00 1200 0c00000000000000 00000000",
         "1200 1300 0000 0000000000000000 0100000000000000  1200 1300 0100 0800000000000000 0000000000000000", 2, 2, 6, 68, 134},
        {1, "0c00 1100 0300 0200 0200", "0c00 1200 0700000000000000 01000000  0c00 1200 0600000000000000 00000000",
         "1200 1300 0000 0400000000000000 0000000000000000", 1, 1, 4, 52, 96},
        {2, "0c00 1100 0300 0200 0200", "0c00 1200 0700000000000000 01000000  0c00 1200 0300000000000000 00000000",
         "1200 1300 0100 0100000000000000 0000000000000000", 1, 1, 4, 52, 96},
        {3, "0c00 1100 0400 0200 0200", "0c00 1200 0f00000000000000 01000000  0c00 1200 0c00000000000000 00000000",
         "1200 1300 0000 0800000000000000 0000000000000000", 1, 1, 5, 68, 112},
        {4, "0c00 1100 0300 0100 0100", "0c00 1200 0700000000000000 00000000", "", 0, 0, 3, 52, 74},
        {5, "0c00 1100 0100 0000 0000", "", "", 0, 0, 0, 20, 20},
        {6, "0c00 1100 0200 0100 0100", "0c00 1200 0300000000000000 00000000", "", 0, 0, 0, 36, 58},
        {merged_second, "0c00 1100 0300 0200 0200", "0c00 1200 0700000000000000 01000000  0c00 1200 0600000000000000 00000000",
         "1200 1300 0000 0000000000000000 0100000000000000", 1, 1, 4, 52, 96},
        {no_one, "0c00 1100 0300 0200 0100", "0c00 1200 0700000000000000 00000000", "", 0, 0, 0, 52, 96},
        {one_one, "0c00 1100 0100 0100 0000", "", "", 0, 0, 1, 20, 42},
    };
    return all;
}

Bytes joined(const std::vector<Bytes>& parts) {
    Bytes file;
    for (const Bytes& part : parts) file.insert(file.end(), part.begin(), part.end());
    return file;
}

Bytes tree_of(const Whole& whole) {
    return joined({hex(whole.head), {0, 0, whole.total, 0, 0, 0}, hex(whole.groups), hex(end)});
}

Bytes answer_of(const Whole& whole) {
    return joined({hex(whole.head), {whole.flip_count, 0, whole.total, 0, 0, 0}, hex(whole.groups), hex(whole.flips), hex(end)});
}

// Taken, and each lent buffer one too short: 9 comes before 10.
void add_first(std::vector<WorkedHalf>& all, const Whole& whole) {
    const Specimen specimen = specimens()[whole.specimen];
    const std::string what = "the tree of specimen " + specimen.name;
    const std::size_t ones = whole.ones, room = whole.tree_room;
    all.push_back({what, specimen.file, {}, ones, room, {}, ones, whole.total, tree_of(whole)});
    all.push_back({what + ", no room", specimen.file, {}, ones, room - 1, {10, 0}, 0, 0, {}});
    if (ones == 0) return;
    all.push_back({what + ", no workspace", specimen.file, {}, ones - 1, room, {9, 0}, 0, 0, {}});
    all.push_back({what + ", neither", specimen.file, {}, ones - 1, room - 1, {9, 0}, 0, 0, {}});
}

// The same; and its whole answer in place of the tree, which is that file where nothing is flipped.
void add_second(std::vector<WorkedHalf>& all, const Whole& whole) {
    const Specimen specimen = specimens()[whole.specimen];
    const Bytes tree = tree_of(whole), answer = answer_of(whole);
    const std::string what = "the flips of specimen " + specimen.name;
    const std::size_t ones = whole.ones, room = whole.room;
    all.push_back({what, specimen.file, tree, ones, room, {}, ones, whole.total, answer});
    all.push_back({what + ", no room", specimen.file, tree, ones, room - 1, {10, 0}, 0, 0, {}});
    if (ones > 0) {
        all.push_back({what + ", no workspace", specimen.file, tree, ones - 1, room, {9, 0}, 0, 0, {}});
        all.push_back({what + ", neither", specimen.file, tree, ones - 1, room - 1, {9, 0}, 0, 0, {}});
    }
    const std::string given = what + ", its answer given";
    if (whole.flip_count == 0) all.push_back({given, specimen.file, answer, ones, room, {}, ones, whole.total, answer});
    else all.push_back({given, specimen.file, answer, ones, room, {26, 0}, ones, 0, {}});
}

// A matrix that is refused, and nothing else is lent or given.
void add_refused(std::vector<WorkedHalf>& all) {
    for (const Specimen& specimen : specimens())
        if (specimen.refusal.refused())
            all.push_back({"specimen " + specimen.name, specimen.file, {}, 0, 0, specimen.refusal, 0, 0, {}});
}

// Files that are given with specimen 2, which has 4 entries that are 1 and needs 96 bytes of room.
struct Given {
    std::string what;
    std::string tree;  // in hexadecimal
    oracle::Refusal refusal;
};

const std::string head = "0c00 1100 ", own = head + "0300 0200 0200 0000 ", flipped = head + "0300 0200 0200 0100 ";
const std::string seven = "0c00 1200 0700000000000000 ", six = "0c00 1200 0600000000000000 ";
const std::string three = "0c00 1200 0300000000000000 ", fifteen = "0c00 1200 0f00000000000000 ";
const std::string zero = "00000000 ", one = "01000000 ", two = "02000000 ";

// Each is refused as it is, whatever the buffers are: "those of reading an answer", and 15.
const std::vector<Given>& refused_files() {
    static const std::vector<Given> all{
        {"nothing", "", {1, 0}},
        {"less than a frame", "0c00 11", {1, 0}},
        {"a short head", head + "0300 0200 0200 0000 0100", {1, 0}},
        {"a short group", own + one + seven + one + "0c00 1200 06", {1, 32}},
        {"a short end", own + one + seven + one + six + zero + "0000 14", {1, 48}},
        {"a matrix", "0400 0100 0300 0000 0000 0300", {2, 0}},
        {"a head of 11 bytes", "0b00 1100 0300 0200 0200 0000 " + one + seven + one + six + zero + end, {2, 0}},
        {"a group too few", own + one + seven + one + end, {2, 32}},
        {"a group too many", head + "0300 0200 0100 0000 " + one + seven + one + six + zero + end, {2, 32}},
        {"a matrix's end", own + one + seven + one + six + zero + "0000 0300", {2, 48}},
        {"no taxon", head + "0000 0200 0200 0000 " + one + seven + one + six + zero + end, {3, 0}},
        {"65 taxa", head + "4100 0200 0200 0000 " + one + seven + one + six + zero + end, {3, 0}},
        {"257 columns", head + "0300 0101 0200 0000 " + one + seven + one + six + zero + end, {4, 0}},
        {"a taxon too high", own + one + seven + one + "0c00 1200 0a00000000000000 " + zero + end, {6, 32}},
        {"a byte after it", own + one + seven + one + six + zero + end + "00", {8, 52}},
        {"three groups", head + "0300 0200 0300 0000 " + one + seven + one + six + zero + end, {12, 0}},
        {"the whole last", own + one + six + zero + seven + one + end, {12, 16}},
        {"a group of one taxon", own + one + seven + one + "0c00 1200 0400000000000000 " + zero + end, {12, 32}},
        {"three flips", head + "0300 0200 0200 0300 " + one + seven + one + six + zero + end, {13, 0}},
        {"an empty flip",
         flipped + one + seven + one + six + zero + "1200 1300 0000 0000000000000000 0000000000000000 " + end,
         {13, 48}},
        {"another total", own + two + seven + one + six + zero + end, {14, 48}},
        {"another cost", own + one + seven + one + six + one + end, {14, 48}},
        {"another total, and a byte after it", own + two + seven + one + six + zero + end + "00", {14, 48}},
        {"another total, and a taxon more", head + "0400 0200 0100 0000 " + two + fifteen + one + end, {14, 32}},
        {"a taxon more", head + "0400 0200 0100 0000 " + one + fifteen + one + end, {15, 0}},
        {"a taxon less", head + "0200 0200 0100 0000 " + one + three + one + end, {15, 0}},
        {"a column more", head + "0300 0300 0200 0000 " + one + seven + one + six + zero + end, {15, 0}},
        {"a column less", head + "0300 0100 0200 0000 " + one + seven + one + six + zero + end, {15, 0}},
        {"256 columns", head + "0300 0001 0200 0000 " + one + seven + one + six + zero + end, {15, 0}},
    };
    return all;
}

// Each is an answer file of three taxa and two columns, and not the tree's.
const std::vector<Given>& other_files() {
    static const std::vector<Given> all{
        {"specimen 3's", own + one + seven + one + three + zero + end, {26, 0}},
        {"a star", head + "0300 0200 0100 0000 " + one + seven + one + end, {26, 0}},
        {"costs the other way", own + one + seven + zero + six + one + end, {26, 0}},
        {"a cost more", own + two + seven + two + six + zero + end, {26, 0}},
        {"a cost less", own + zero + seven + zero + six + zero + end, {26, 0}},
        {"a cost more in the last", own + two + seven + one + six + one + end, {26, 0}},
        {"a cost of 2 to the 31 more",
         head + "0300 0200 0200 0000 01000080 " + seven + "01000080 " + six + zero + end, {26, 0}},
        {"its flips",
         flipped + one + seven + one + six + zero + "1200 1300 0000 0400000000000000 0000000000000000 " + end,
         {26, 0}},
        {"other flips",
         flipped + one + seven + one + six + zero + "1200 1300 0100 0000000000000000 0700000000000000 " + end,
         {26, 0}},
    };
    return all;
}

// 9 and 10 come before 26, after everything else, and every refusal of the matrix before all of these.
void add_second_order(std::vector<WorkedHalf>& all) {
    const Bytes matrix = specimens()[1].file;
    Bytes cut = matrix, longer = matrix;
    cut.pop_back();
    longer.push_back(0);
    const std::size_t ones = 4, room = 96;
    const auto add = [&](const Given& given, std::size_t workspace, std::size_t bytes, oracle::Refusal refusal,
                         std::size_t cleared) {
        all.push_back({given.what, matrix, hex(given.tree), workspace, bytes, refusal, cleared, 0, {}});
        all.push_back({given.what + ", a short matrix", cut, hex(given.tree), workspace, bytes, {1, 52}, 0, 0, {}});
        all.push_back({given.what + ", a long matrix", longer, hex(given.tree), workspace, bytes, {8, 56}, 0, 0, {}});
    };
    for (const Given& given : refused_files())
        for (std::size_t workspace : {ones, ones - 1})
            for (std::size_t bytes : {room, room - 1}) add(given, workspace, bytes, given.refusal, 0);
    for (const Given& given : other_files()) {
        add(given, ones, room, {26, 0}, ones);
        add(given, ones + 3, room + 7, {26, 0}, ones);
        add(given, ones, room - 1, {10, 0}, 0);
        add(given, ones - 1, room, {9, 0}, 0);
        add(given, ones - 1, room - 1, {9, 0}, 0);
        add(given, 0, 0, {9, 0}, 0);
    }
}

}  // namespace

std::vector<WorkedHalf> worked_first() {
    std::vector<WorkedHalf> all;
    for (const Whole& whole : wholes()) add_first(all, whole);
    add_refused(all);
    return all;
}

std::vector<WorkedHalf> worked_second() {
    std::vector<WorkedHalf> all;
    for (const Whole& whole : wholes()) add_second(all, whole);
    add_refused(all);
    add_second_order(all);
    return all;
}
