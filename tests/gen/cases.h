// One random case of each operation: what is given to it, lawful or not.
#pragma once

#include <cstddef>
#include <vector>

#include "../oracle/answer.h"
#include "../oracle/matrix.h"
#include "../oracle/records.h"
#include "random.h"

namespace gen {

struct SplitCase {
    oracle::Bytes file;
    oracle::TaxonSet group;
    std::size_t workspace;
};

struct BuildCase {
    oracle::Bytes file;
    std::size_t workspace;
    std::size_t room;
};

// The second half of a build (document 02's C-18).
struct FlipsCase {
    oracle::Bytes matrix;
    oracle::Bytes tree;
    std::size_t workspace;
    std::size_t room;
};

struct ReadCase {
    oracle::Bytes file;
    std::size_t list;
};

struct WriteCase {
    oracle::AnswerValue value;
    std::vector<oracle::Flip> list;
    std::size_t room;
};

struct ScoreCase {
    oracle::Bytes matrix;
    oracle::Bytes answer;
};

// A pair that is taken, small enough to list every choice of flips.
struct SmallScoreCase {
    oracle::Matrix matrix;
    oracle::Answer answer;
    bool built;  // the answer is the matrix's own
};

struct NewickCase {
    oracle::Bytes text;
    std::size_t matrix_room;
    std::size_t names_room;
};

struct NewickTextCase {
    oracle::Bytes answer;
    oracle::Bytes names;
    std::size_t room;
};

SplitCase split_case(Random& random);
BuildCase build_case(Random& random);
// The first half of a build, which needs less room.
BuildCase tree_case(Random& random);
// The matrix's own tree, one that is nearly so, its whole answer, that of another matrix or of none.
FlipsCase flips_case(Random& random);
ReadCase read_case(Random& random);
WriteCase write_case(Random& random);
ScoreCase score_case(Random& random);
SmallScoreCase small_score_case(Random& random);
// Of this text: each output just long enough, now and then longer or too short; where the text is refused, of any length.
NewickCase newick_case(Random& random, const oracle::Bytes& text);
oracle::Bytes names_case(Random& random);
NewickTextCase newick_text_case(Random& random);

}  // namespace gen
