#include "records.h"

#include <stdexcept>

namespace oracle {

namespace {

std::uint64_t number_at(const Bytes& file, std::size_t place, std::size_t width) {
    std::uint64_t number = 0;
    for (std::size_t k = width; k > 0; --k) number = number * 256 + file[place + k - 1];
    return number;
}

void put_number(Bytes& file, std::size_t width, std::uint64_t number) {
    for (std::size_t k = 0; k < width; ++k, number /= 256) file.push_back(static_cast<std::uint8_t>(number % 256));
}

}  // namespace

std::size_t payload_length(Kind kind) {
    switch (kind) {
        case Kind::matrix_head: return 4;
        case Kind::column: return 18;
        case Kind::matrix_end: return 0;
        case Kind::multiplicities:
        case Kind::name: break;
        case Kind::answer_head: return 12;
        case Kind::group: return 12;
        case Kind::flips: return 18;
        case Kind::answer_end: return 0;
        case Kind::name_end: return 0;
    }
    throw std::logic_error("a record of no length in particular");
}

bool RecordReader::next_is(Kind kind) const {
    return file_.size() - next_ >= frame_length && number_at(file_, next_ + 2, 2) == static_cast<std::uint64_t>(kind);
}

// "Within a record: fewer than 4 bytes left (1), kind or length (2), payload short (1)."
std::size_t RecordReader::open_between(Kind kind, std::size_t least, std::size_t most) {
    start_ = next_;
    if (file_.size() - start_ < frame_length) refuse(1, start_);
    const std::size_t length = number_at(file_, start_, 2);
    if (!next_is(kind) || length < least || length > most) refuse(2, start_);
    if (file_.size() - start_ < frame_length + length) refuse(1, start_);
    payload_ = start_ + frame_length;
    next_ = payload_ + length;
    return length;
}

void RecordReader::open(Kind kind, std::size_t length) { open_between(kind, length, length); }

std::uint64_t RecordReader::take(std::size_t width) {
    const std::uint64_t number = number_at(file_, payload_, width);
    payload_ += width;
    return number;
}

void RecordReader::finish() const {
    if (next_ < file_.size()) refuse(8, next_);
}

void put_record(Bytes& file, Kind kind, const std::vector<Field>& payload) {
    std::size_t length = 0;
    for (const Field& field : payload) length += field.width;
    put_number(file, 2, length);
    put_number(file, 2, static_cast<std::uint64_t>(kind));
    for (const Field& field : payload) put_number(file, field.width, field.value);
}

}  // namespace oracle
