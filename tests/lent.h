// Memory that a trial lends to the Rattle code, and how C passes it.
#pragma once

#include <algorithm>
#include <cstddef>
#include <cstdint>
#include <cstring>
#include <vector>

#include "gen/random.h"

// How a call is made. What is empty is a null pointer, whatever length comes with it, or has the length 0, whatever
// pointer comes with it, also one where no number may stand. Where a split's result or an answer is not wanted, its
// pointer is null.
struct Call {
    std::uintptr_t empty_start = 0;
    std::size_t empty_length = 0;
    bool wanted = true;
};
constexpr Call usual_call{};
constexpr Call unusual_calls[] = {{0, 78, true}, {1, 0, true}, {0, 0, false}};

// A file, a list or a buffer as a call passes it.
template <class T>
struct Passed {
    Passed(T* list, std::size_t count, const Call& call)
        : start(count == 0 ? reinterpret_cast<T*>(call.empty_start) : list),
          length(count == 0 ? call.empty_length : count) {}

    T* start;
    std::size_t length;
};

template <class T>
Passed<const T> passed(const std::vector<T>& list, const Call& call) {
    return {list.data(), list.size(), call};
}

// A lent buffer full of noise, with a margin behind it that belongs to nobody.
template <class T>
class Lent {
public:
    Lent(gen::Random& random, std::size_t length) : length_(length), before_(length + margin) {
        for (T& value : before_) value = noise(random);
        now_ = before_;
    }

    Passed<T> passed(const Call& call) { return {now_.data(), length_, call}; }
    // Where it is a split's result or an answer.
    T* wanted(const Call& call) { return call.wanted ? now_.data() : nullptr; }

    // Whether it starts with these values and is as it was past them, the margin too.
    bool holds(const std::vector<T>& front) const {
        return front.size() <= length_ && std::equal(front.begin(), front.end(), now_.begin()) &&
               std::equal(now_.begin() + static_cast<std::ptrdiff_t>(front.size()), now_.end(),
                          before_.begin() + static_cast<std::ptrdiff_t>(front.size()));
    }

private:
    // In every byte of a value, whatever fields it has.
    static T noise(gen::Random& random) {
        T value{};
        for (std::size_t at = 0; at < sizeof value; at += sizeof(std::uint64_t)) {
            const std::uint64_t bits = random.bits();
            std::memcpy(reinterpret_cast<char*>(&value) + at, &bits, std::min(sizeof bits, sizeof value - at));
        }
        return value;
    }

    static constexpr std::size_t margin = 5;
    std::size_t length_;
    std::vector<T> before_;
    std::vector<T> now_;
};
