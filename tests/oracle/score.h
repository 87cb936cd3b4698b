// The score of an answer's tree against a matrix.
#pragma once

#include <cstdint>

#include "answer.h"
#include "matrix.h"

namespace oracle {

struct ScoreOutcome {
    Refusal refusal;
    std::uint64_t raises = 0;  // 0 to 1, each times its column's weight and its taxon's multiplicity
    std::uint64_t lowers = 0;  // 1 to 0, the same

    bool operator==(const ScoreOutcome& other) const {
        return refusal == other.refusal && raises == other.raises && lowers == other.lowers;
    }
};

// The flips, each times weight and multiplicity, that bring a matrix's column to the nearest node of the tree. This was the
// score of every column before document 02's C-12; it still is that of a column with a 1.
struct Flips {
    std::uint64_t raises;
    std::uint64_t lowers;
};
Flips nearest_flips(const Matrix& matrix, const Column& column, const AnswerValue& tree);

// The operation: score. No list is lent, so an answer is refused by its file alone.
ScoreOutcome score(const Bytes& matrix_file, const Bytes& answer_file);

}  // namespace oracle
