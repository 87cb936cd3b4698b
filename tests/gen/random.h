// Random choices that are the same on every machine for one seed, if no statement makes two whose order the compiler may choose.
#pragma once

#include <cstdint>
#include <random>

namespace gen {

class Random {
public:
    explicit Random(std::uint64_t seed) : engine_(seed) {}

    std::uint64_t bits() { return engine_(); }
    // 0 to end-1. (The library's distributions differ between machines; a remainder does not.)
    std::uint64_t below(std::uint64_t end) { return engine_() % end; }
    std::uint64_t between(std::uint64_t first, std::uint64_t last) { return first + below(last - first + 1); }
    bool chance(unsigned percent) { return below(100) < percent; }

private:
    std::mt19937_64 engine_;
};

}  // namespace gen
