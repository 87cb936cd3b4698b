#include "damage.h"

#include <utility>

#include "matrices.h"

namespace gen {

namespace {

using Records = std::vector<Bytes>;

std::size_t length_at(const Bytes& file, std::size_t at) { return file[at] + 256u * file[at + 1]; }

// Mostly a small number, since those pass the most tests.
std::uint8_t random_byte(Random& random) {
    return static_cast<std::uint8_t>(random.chance(60) ? random.below(22) : random.bits());
}

void cut(Random& random, Bytes& file) { file.resize(random.below(file.size() + 1)); }

void add_bytes(Random& random, Bytes& file) {
    for (std::uint64_t k = random.between(1, 30); k > 0; --k) file.push_back(random_byte(random));
}

void change_byte(Random& random, Bytes& file) {
    if (!file.empty()) file[random.below(file.size())] = random_byte(random);
}

void turn_bit(Random& random, Bytes& file) {
    if (!file.empty()) file[random.below(file.size())] ^= static_cast<std::uint8_t>(1u << random.below(8));
}

void take_out_byte(Random& random, Bytes& file) {
    if (!file.empty()) file.erase(file.begin() + static_cast<std::ptrdiff_t>(random.below(file.size())));
}

// One of the head's 2-byte numbers: one more, one less, or another.
void change_count(Random& random, Bytes& file) {
    const std::size_t at = oracle::frame_length + 2 * random.below(4);
    if (file.size() < at + 2) return;
    const std::uint64_t odd[] = {0, 1, 63, 64, 65, 256, 257, 65535};
    const std::uint64_t now = length_at(file, at);
    const std::uint64_t changed[] = {now + 1, now + 65535, odd[random.below(8)]};
    const std::uint64_t number = changed[random.below(3)] % 65536;
    file[at] = static_cast<std::uint8_t>(number % 256);
    file[at + 1] = static_cast<std::uint8_t>(number / 256);
}

void swap_records(Random& random, Bytes& file) {
    Records records = records_of(file);
    if (records.empty()) return;
    std::swap(records[random.below(records.size())], records[random.below(records.size())]);
    file = joined(records);
}

void double_record(Random& random, Bytes& file) {
    Records records = records_of(file);
    if (records.empty()) return;
    const std::size_t which = random.below(records.size());
    const Bytes copy = records[which];
    records.insert(records.begin() + static_cast<std::ptrdiff_t>(which), copy);
    file = joined(records);
}

void drop_record(Random& random, Bytes& file) {
    Records records = records_of(file);
    if (records.empty()) return;
    records.erase(records.begin() + static_cast<std::ptrdiff_t>(random.below(records.size())));
    file = joined(records);
}

// A record of multiplicities, with as many bytes as are given; its length is `length`.
Bytes multiplicity_record(std::size_t length, const Bytes& multiplicities) {
    Bytes record{static_cast<std::uint8_t>(length % 256), static_cast<std::uint8_t>(length / 256), 5, 0};
    record.insert(record.end(), multiplicities.begin(), multiplicities.end());
    return record;
}

// Mostly straight after the head, and of the head's number of taxa.
void add_multiplicities(Random& random, Bytes& file) {
    Records records = records_of(file);
    if (records.empty() || file.size() <= oracle::frame_length) return;
    const unsigned taxa = file[oracle::frame_length];
    const unsigned n = taxa >= 1 && taxa <= 64 && random.chance(80) ? taxa : static_cast<unsigned>(random.between(1, 64));
    const Bytes multiplicities = random.chance(70) ? random_multiplicities(random, n) : unlawful_multiplicities(random, n);
    const std::size_t place = random.chance(80) ? 1 : random.below(records.size() + 1);
    records.insert(records.begin() + static_cast<std::ptrdiff_t>(place), multiplicity_record(n, multiplicities));
    file = joined(records);
}

using Accident = void (*)(Random&, Bytes&);
constexpr Accident accidents[] = {cut,          add_bytes,    change_byte,   change_byte, turn_bit,     turn_bit,
                                  take_out_byte, change_count, swap_records, double_record, drop_record, add_multiplicities};

}  // namespace

std::vector<Bytes> prefixes(const Bytes& file) {
    std::vector<Bytes> shorter;
    for (std::size_t length = 0; length < file.size(); ++length)
        shorter.emplace_back(file.begin(), file.begin() + static_cast<std::ptrdiff_t>(length));
    return shorter;
}

std::vector<Bytes> byte_changes(const Bytes& file) {
    std::vector<Bytes> changed;
    for (std::size_t at = 0; at < file.size(); ++at) {
        const unsigned now = file[at];
        for (unsigned value : {0u, 1u, 2u, 3u, 64u, 65u, 128u, 255u, now + 1, now + 255, now ^ 16u, now ^ 128u}) {
            Bytes other = file;
            other[at] = static_cast<std::uint8_t>(value % 256);
            if (other != file) changed.push_back(other);
        }
    }
    return changed;
}

std::vector<Bytes> all_byte_changes(const Bytes& file) {
    std::vector<Bytes> changed;
    for (std::size_t at = 0; at < file.size(); ++at)
        for (unsigned value = 0; value < 256; ++value) {
            Bytes other = file;
            other[at] = static_cast<std::uint8_t>(value);
            if (other != file) changed.push_back(other);
        }
    return changed;
}

std::vector<Bytes> records_of(const Bytes& file) {
    Records records;
    for (std::size_t at = 0; at < file.size();) {
        std::size_t past = file.size();
        if (past - at >= oracle::frame_length) {
            const std::size_t length = oracle::frame_length + length_at(file, at);
            if (length < past - at) past = at + length;
        }
        records.emplace_back(file.begin() + static_cast<std::ptrdiff_t>(at), file.begin() + static_cast<std::ptrdiff_t>(past));
        at = past;
    }
    return records;
}

Bytes joined(const std::vector<Bytes>& records) {
    Bytes file;
    for (const Bytes& record : records) file.insert(file.end(), record.begin(), record.end());
    return file;
}

Bytes damaged(Random& random, Bytes file) {
    for (std::uint64_t k = random.between(1, 3); k > 0; --k)
        accidents[random.below(sizeof accidents / sizeof accidents[0])](random, file);
    return file;
}

std::vector<Bytes> misplaced_multiplicities(const oracle::Matrix& matrix) {
    const Bytes& multiplicities = matrix.multiplicities;
    const Bytes record = multiplicity_record(matrix.n, multiplicities);
    const Records whole = records_of(oracle::matrix_file(matrix));
    Records without = whole;
    without.erase(without.begin() + 1);
    std::vector<Bytes> files{joined(without)};
    for (const Records& records : {without, whole})
        for (std::size_t place = 0; place <= records.size(); ++place) {
            Records other = records;
            other.insert(other.begin() + static_cast<std::ptrdiff_t>(place), record);
            files.push_back(joined(other));
        }
    for (std::size_t length = 0; length <= matrix.n + 1; ++length) {
        Bytes fitted = multiplicities;
        fitted.resize(length, 1);
        for (const Bytes& held : {multiplicities, fitted}) {
            Records other = whole;
            other[1] = multiplicity_record(length, held);
            files.push_back(joined(other));
        }
    }
    return files;
}

Bytes unlawful_multiplicities(Random& random, unsigned n) {
    Bytes lawful = random_multiplicities(random, n), ones(n, 1);
    const std::uint64_t taxon = random.below(n);
    switch (random.below(7)) {
        case 0: return ones;
        case 1: ones[taxon] = 0; return ones;
        case 2: lawful[taxon] = 0; return lawful;
        case 3: lawful[taxon] = 255; return lawful;
        case 4: return multiplicities_of_sum(random, n, most_specimens + 1);
        case 5: return multiplicities_of_sum(random, n, static_cast<unsigned>(random.between(256, 256 + most_specimens)));
        default: return multiplicities_of_sum(random, n, static_cast<unsigned>(random.between(most_specimens + 1, 1000)));
    }
}

Bytes unlawful_matrix(Random& random, oracle::Matrix matrix) {
    if (random.chance(20)) matrix.multiplicities = unlawful_multiplicities(random, matrix.n);
    else if (matrix.columns.empty()) matrix.n = random.chance(50) ? 0 : 65;
    for (std::uint64_t k = matrix.columns.empty() ? 0 : random.between(1, 3); k > 0; --k) {
        oracle::Column& column = matrix.columns[random.below(matrix.columns.size())];
        const oracle::TaxonSet taxon = oracle::only(static_cast<unsigned>(random.below(matrix.n)));
        const oracle::TaxonSet beyond = random.bits() & ~oracle::all_taxa(matrix.n);
        switch (random.below(4)) {
            case 0: column.weight = 0; break;
            case 1: column.ones |= beyond; break;
            case 2: column.zeros |= beyond; break;
            default: column.ones |= taxon, column.zeros |= taxon; break;
        }
    }
    return oracle::matrix_file(matrix);
}

Bytes random_bytes(Random& random) {
    Bytes file;
    if (random.chance(50)) {
        add_bytes(random, file);
        return file;
    }
    const std::uint8_t kinds[] = {1, 2, 3, 5, 17, 18, 19, 20};
    for (std::uint64_t k = random.between(1, 6); k > 0; --k) {
        const std::uint8_t taxa = file.size() > oracle::frame_length ? file[oracle::frame_length] : 1;
        const std::uint8_t lengths[] = {4, 18, 0, taxa, 12, 12, 18, 0};
        const std::size_t kind = random.chance(60) && file.empty() ? 0 : random.below(8);
        const std::uint8_t length = random.chance(95) ? lengths[kind] : random_byte(random);
        for (std::uint8_t byte : {length, std::uint8_t{0}, kinds[kind], std::uint8_t{0}}) file.push_back(byte);
        for (unsigned i = 0; i < length; ++i) file.push_back(i % 2 == 1 ? 0 : random_byte(random));
    }
    if (random.chance(20)) cut(random, file);
    return file;
}

}  // namespace gen
