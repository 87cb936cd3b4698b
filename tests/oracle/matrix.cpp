#include "matrix.h"

namespace oracle {

namespace {

// Order of the head's own refusals: by number, so an n that is refused hides an m that would be.
unsigned read_head(RecordReader& reader, unsigned& m) {
    reader.open(Kind::matrix_head);
    const unsigned n = static_cast<unsigned>(reader.take(2));
    m = static_cast<unsigned>(reader.take(2));
    if (n == 0 || n > 64) refuse(3, reader.place());
    if (m > 256) refuse(4, reader.place());
    return n;
}

// "21 where a multiplicity is 0, the sum is above 127, or all are 1"
Bytes read_multiplicities(RecordReader& reader, unsigned n) {
    reader.open(Kind::multiplicities, n);
    Bytes multiplicities;
    unsigned sum = 0;
    bool any_zero = false;
    for (unsigned taxon = 0; taxon < n; ++taxon) {
        multiplicities.push_back(static_cast<std::uint8_t>(reader.take(1)));
        sum += multiplicities.back();
        any_zero = any_zero || multiplicities.back() == 0;
    }
    if (any_zero || sum > 127 || multiplicities == Bytes(n, 1)) refuse(21, reader.place());
    return multiplicities;
}

Column read_column(RecordReader& reader, unsigned n) {
    reader.open(Kind::column);
    Column column{};
    column.weight = reader.take(2);
    column.ones = reader.take(8);
    column.zeros = reader.take(8);
    if (column.weight == 0) refuse(5, reader.place());
    if (!within(column.ones | column.zeros, all_taxa(n))) refuse(6, reader.place());
    if ((column.ones & column.zeros) != 0) refuse(7, reader.place());
    return column;
}

}  // namespace

std::uint64_t mass(const Matrix& matrix, TaxonSet set) {
    if (matrix.multiplicities.empty()) return size(set);
    std::uint64_t sum = 0;
    for (; set != 0; set &= set - 1) sum += matrix.multiplicities[__builtin_ctzll(set)];
    return sum;
}

std::size_t one_entries(const Matrix& matrix) {
    std::size_t count = 0;
    for (const Column& column : matrix.columns) count += members(column.ones).size();
    return count;
}

Matrix read_matrix(const Bytes& file) {
    RecordReader reader(file);
    Matrix matrix;
    unsigned m = 0;
    matrix.n = read_head(reader, m);
    if (reader.next_is(Kind::multiplicities)) matrix.multiplicities = read_multiplicities(reader, matrix.n);
    for (unsigned c = 0; c < m; ++c) matrix.columns.push_back(read_column(reader, matrix.n));
    reader.open(Kind::matrix_end);
    reader.finish();
    return matrix;
}

bool names_multiplicities(const Bytes& file) {
    const std::size_t kind = record_length(Kind::matrix_head) + 2;
    return file.size() >= kind + 2 && file[kind] == 5 && file[kind + 1] == 0;
}

CheckOutcome check(const Bytes& file) {
    CheckOutcome outcome;
    try {
        const Matrix matrix = read_matrix(file);
        outcome.n = matrix.n;
        outcome.m = static_cast<unsigned>(matrix.columns.size());
    } catch (const Refusal& refusal) {
        outcome.refusal = refusal;
    }
    return outcome;
}

Bytes matrix_file(const Matrix& matrix) {
    Bytes file;
    put_record(file, Kind::matrix_head, {{2, matrix.n}, {2, matrix.columns.size()}});
    std::vector<Field> multiplicities;
    for (std::uint8_t multiplicity : matrix.multiplicities) multiplicities.push_back({1, multiplicity});
    if (!multiplicities.empty()) put_record(file, Kind::multiplicities, multiplicities);
    for (const Column& column : matrix.columns)
        put_record(file, Kind::column, {{2, column.weight}, {8, column.ones}, {8, column.zeros}});
    put_record(file, Kind::matrix_end, {});
    return file;
}

}  // namespace oracle
