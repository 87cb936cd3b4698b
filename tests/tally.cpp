#include "tally.h"

#include <cstdio>
#include <cstdlib>
#include <utility>

#include "oracle/matrix.h"

namespace {

std::size_t count_of(const std::map<unsigned, std::size_t>& counts, unsigned number) {
    const auto found = counts.find(number);
    return found == counts.end() ? 0 : found->second;
}

std::size_t sum_of(const std::map<unsigned, std::size_t>& counts) {
    std::size_t sum = 0;
    for (const auto& entry : counts) sum += entry.second;
    return sum;
}

}  // namespace

Tally::Tally(std::string operation, std::string folder)
    : operation_(std::move(operation)), folder_(std::move(folder)) {}

void Tally::agreed(unsigned number) { ++counts_[number]; }

void Tally::agreed(unsigned number, const oracle::Bytes& matrix_file) {
    agreed(number);
    if (oracle::names_multiplicities(matrix_file)) ++with_multiplicities_[number];
}

void Tally::differ(const std::string& what, const oracle::Bytes& file) const {
    const std::string name = folder_ + "/" + operation_ + "-differs.bytes";
    std::FILE* out = std::fopen(name.c_str(), "wb");
    const bool written = out != nullptr && std::fwrite(file.data(), 1, file.size(), out) == file.size();
    if (out != nullptr) std::fclose(out);
    std::printf("%s: DIFFERS: %s\n%s: the file is %s%s\n", operation_.c_str(), what.c_str(), operation_.c_str(),
                name.c_str(), written ? "" : ", which could not be written");
    std::exit(1);
}

void Tally::finish(std::initializer_list<unsigned> numbers) const {
    std::printf("%s: %zu compared, %zu taken, refused", operation_.c_str(), sum_of(counts_), count_of(counts_, 0));
    for (const auto& [number, count] : counts_)
        if (number != 0) std::printf(" %u: %zu", number, count);
    std::printf("\n");
    if (!with_multiplicities_.empty())
        std::printf("%s: %zu of them with multiplicities, %zu of these taken\n", operation_.c_str(),
                    sum_of(with_multiplicities_), count_of(with_multiplicities_, 0));
    for (unsigned number : numbers) {
        if (count_of(counts_, number) == 0) fail("number " + std::to_string(number) + " never occurred");
        if (number == 21 && count_of(with_multiplicities_, 0) == 0) fail("multiplicities were never taken");
    }
}

void Tally::fail(const std::string& what) const {
    std::printf("%s: FAILED: %s\n", operation_.c_str(), what.c_str());
    std::exit(1);
}
