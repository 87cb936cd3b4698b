// Sets of taxa: a 64-bit number, taxon i worth 2 to the i.
#pragma once

#include <bitset>
#include <cstdint>
#include <vector>

namespace oracle {

using TaxonSet = std::uint64_t;

inline TaxonSet only(unsigned taxon) { return TaxonSet{1} << taxon; }

inline bool has(TaxonSet set, unsigned taxon) { return (set & only(taxon)) != 0; }

inline unsigned size(TaxonSet set) { return static_cast<unsigned>(std::bitset<64>(set).count()); }

// The taxa 0 to n-1, for n up to 64.
inline TaxonSet all_taxa(unsigned n) { return n >= 64 ? ~TaxonSet{0} : only(n) - 1; }

// The taxa of a set, rising.
inline std::vector<unsigned> members(TaxonSet set) {
    std::vector<unsigned> taxa;
    for (unsigned i = 0; i < 64; ++i)
        if (has(set, i)) taxa.push_back(i);
    return taxa;
}

// The lowest taxon of a set that is not empty.
inline unsigned lowest(TaxonSet set) { return members(set).front(); }

inline bool within(TaxonSet inner, TaxonSet outer) { return (inner & ~outer) == 0; }

inline bool nested_or_disjoint(TaxonSet x, TaxonSet y) {
    return (x & y) == 0 || within(x, y) || within(y, x);
}

}  // namespace oracle
