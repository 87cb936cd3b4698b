// The packed numbers that the functions of include/flipcut.h answer.
#pragma once

#include <cstdint>
#include <string>

#include "flipcut.h"
#include "oracle/refusal.h"
#include "tally.h"

// Through the header's functions.
inline oracle::Refusal refusal_of(std::uint64_t packed) { return {flipcut_number(packed), flipcut_place(packed)}; }

// The number itself: a refusal, or these results, and no bit beside them.
inline std::uint64_t packed_number(const oracle::Refusal& refusal, std::uint64_t results) {
    if (!refusal.refused()) return results;
    return (std::uint64_t{1} << 63) | (std::uint64_t{refusal.place} << 8) | refusal.number;
}

// Ends the trial where a call answered another number; `which` says how the call was made.
inline void compare_packed(const Tally& tally, std::uint64_t packed, const oracle::Refusal& refusal,
                           std::uint64_t results, const std::string& which, const oracle::Bytes& file) {
    const oracle::Refusal found = refusal_of(packed);
    if (found != refusal || flipcut_refused(packed) != refusal.refused())
        tally.differ("expected " + text(refusal) + ", found " + text(found) + which, file);
    if (packed != packed_number(refusal, results)) tally.differ("the results, or bits beside the fields" + which, file);
}
