// Records: length (2 bytes, payload only), kind (2 bytes), payload; little-endian.
#pragma once

#include <cstddef>
#include <cstdint>
#include <vector>

#include "refusal.h"

namespace oracle {

using Bytes = std::vector<std::uint8_t>;

enum class Kind : std::uint16_t {
    matrix_head = 1,
    column = 2,
    matrix_end = 3,
    multiplicities = 5,
    answer_head = 17,
    group = 18,
    flips = 19,
    answer_end = 20,
    name = 33,
    name_end = 34,
};

constexpr std::size_t frame_length = 4;

// For every kind but the multiplicities, whose length is the number of taxa, and names, whose length is their own.
std::size_t payload_length(Kind kind);

// Frame and payload together.
inline std::size_t record_length(Kind kind) { return frame_length + payload_length(kind); }

// Walks through a file record by record; throws a Refusal where the file breaks a rule.
class RecordReader {
public:
    explicit RecordReader(const Bytes& file) : file_(file) {}

    // Whether the next record has a whole frame that names this kind; nothing is refused.
    bool next_is(Kind kind) const;
    // The next record has to be of this kind and length: refusals 1, 2 and 1, in this order.
    void open(Kind kind, std::size_t length);
    void open(Kind kind) { open(kind, payload_length(kind)); }
    // The same where the record says its length itself, from `least` to `most`; what it says.
    std::size_t open_between(Kind kind, std::size_t least, std::size_t most);
    // The next number of the open record's payload.
    std::uint64_t take(std::size_t width);
    // Where the open record starts.
    std::size_t place() const { return start_; }
    // Nothing may follow the last record: refusal 8.
    void finish() const;

private:
    const Bytes& file_;
    std::size_t start_ = 0;
    std::size_t payload_ = 0;
    std::size_t next_ = 0;
};

struct Field {
    std::size_t width;
    std::uint64_t value;
};

// Adds a record at the end of a file. Its length is that of the payload.
void put_record(Bytes& file, Kind kind, const std::vector<Field>& payload);

}  // namespace oracle
