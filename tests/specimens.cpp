#include "specimens.h"

namespace {

using oracle::Bytes;
using oracle::Column;

Bytes file_of(unsigned n, std::vector<Column> columns, Bytes multiplicities = {}) {
    return oracle::matrix_file({n, std::move(multiplicities), std::move(columns)});
}

// The matrix above the specimens: three columns over four taxa.
Bytes first() { return file_of(4, {{1, 0x3, 0xc}, {1, 0x6, 0x9}, {2, 0xc, 0x3}}); }

Bytes second(Bytes multiplicities) { return file_of(3, {{1, 0x3, 0x4}, {1, 0x6, 0x1}}, std::move(multiplicities)); }

// Three taxa, no column, and these bytes between the head and the end.
Bytes between(const Bytes& record) {
    Bytes file;
    for (const Bytes& bytes : {Bytes{4, 0, 1, 0, 3, 0, 0, 0}, record, Bytes{0, 0, 3, 0}})
        file.insert(file.end(), bytes.begin(), bytes.end());
    return file;
}

Bytes cut_to(Bytes file, std::size_t length) {
    file.resize(length);
    return file;
}

Bytes with_byte(Bytes file, std::uint8_t byte) {
    file.push_back(byte);
    return file;
}

}  // namespace

std::vector<Specimen> specimens() {
    return {
        {"1", first(), {},
         "taxa 4 columns 3 total 2\n"
         "group f cost 1\n"
         "group e cost 1\n"
         "group c cost 0\n"
         "flip 0 raise 0 lower 1\n"
         "flip 1 raise 8 lower 0\n"},
        {"2", second({}), {},
         "taxa 3 columns 2 total 1\ngroup 7 cost 1\ngroup 6 cost 0\nflip 0 raise 4 lower 0\n"},
        {"3", file_of(3, {{2, 0x3, 0x4}, {1, 0x6, 0x1}}), {},
         "taxa 3 columns 2 total 1\ngroup 7 cost 1\ngroup 3 cost 0\nflip 1 raise 1 lower 0\n"},
        {"4", file_of(4, {{1, 0x7, 0x8}, {3, 0xc, 0x3}}), {},
         "taxa 4 columns 2 total 1\ngroup f cost 1\ngroup c cost 0\nflip 0 raise 8 lower 0\n"},
        {"5", file_of(3, {{1, 0x7, 0x0}}), {}, "taxa 3 columns 1 total 0\ngroup 7 cost 0\n"},
        {"6", file_of(1, {}), {}, "taxa 1 columns 0 total 0\n"},
        {"7", file_of(2, {{5, 0x0, 0x3}}), {}, "taxa 2 columns 1 total 0\ngroup 3 cost 0\n"},
        {"8, empty input", {}, {1, 0}, "refused 1 at 0\n"},
        {"8, n=65", file_of(65, {}), {3, 0}, "refused 3 at 0\n"},
        {"8, n=64", file_of(64, {}), {}, ""},
        {"9, cut to 77 bytes", cut_to(first(), 77), {1, 74}, "refused 1 at 74\n"},
        {"9, one byte added", with_byte(first(), 0), {8, 78}, "refused 8 at 78\n"},
        {"10, ones {3} for n=3", file_of(3, {{1, 0x8, 0x0}}), {6, 8}, "refused 6 at 8\n"},
        {"10, m=257", file_of(3, std::vector<Column>(257, Column{1, 0x1, 0x2})), {4, 0}, "refused 4 at 0\n"},
        {"10, weight 65,535", file_of(3, {{65535, 0x1, 0x2}}), {}, ""},
        {"2 with multiplicities 1, 1, 2", second({1, 1, 2}), {},
         "taxa 3 columns 2 total 1\ngroup 7 cost 1\ngroup 6 cost 0\nflip 0 raise 0 lower 1\n"},
        {"C-14, taken", between({3, 0, 5, 0, 1, 1, 2}), {}, "taxa 3 columns 0 total 0\ngroup 7 cost 0\n"},
        {"C-14, all are 1", between({3, 0, 5, 0, 1, 1, 1}), {21, 8}, "refused 21 at 8\n"},
        {"C-14, not one for each taxon", between({2, 0, 5, 0, 1, 2}), {2, 8}, "refused 2 at 8\n"},
        {"C-14, cut inside", cut_to(between({3, 0, 5, 0, 1, 1, 2}), 14), {1, 8}, "refused 1 at 8\n"},
        {"C-14, a 0", second({1, 0, 2}), {21, 8}, "refused 21 at 8\n"},
        {"C-14, 127 together", second({1, 63, 63}), {}, ""},
        {"C-14, 128 together", second({1, 64, 63}), {21, 8}, "refused 21 at 8\n"},
        {"C-14, 257 together", second({255, 1, 1}), {21, 8}, "refused 21 at 8\n"},
        {"C-14, twice", between({3, 0, 5, 0, 1, 1, 2, 3, 0, 5, 0, 1, 1, 2}), {2, 15}, "refused 2 at 15\n"},
        {"C-14, ones {3} in the second column", file_of(3, {{1, 0x3, 0x4}, {1, 0x8, 0x1}}, {1, 1, 2}), {6, 37},
         "refused 6 at 37\n"},
        {"C-13, no 1", file_of(3, {{1, 0x0, 0x7}, {2, 0x0, 0x0}}), {}, "taxa 3 columns 2 total 0\ngroup 7 cost 0\n"},
        {"C-13, one taxon with a 1", file_of(1, {{1, 0x1, 0x0}}), {}, "taxa 1 columns 1 total 0\n"},
    };
}
