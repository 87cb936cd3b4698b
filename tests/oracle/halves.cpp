#include "halves.h"

namespace oracle {

namespace {

// "the second gives 15, 9, 10, then 26 where that file is not the first's, and on 26 alone .. the workspace is left as after
// success". The two files are read before, in the order named; no list is lent, so the tree's is refused by itself alone.
template <class AnswerOf>
BuildOutcome judged(const Bytes& matrix_file, const Bytes& tree_file, std::size_t workspace, std::size_t room,
                    const AnswerOf& built) {
    BuildOutcome outcome;
    try {
        const Matrix matrix = read_matrix(matrix_file);
        const AnswerValue given = read_answer(tree_file).value;
        const std::size_t m = matrix.columns.size();
        if (given.n != matrix.n || given.m != m) refuse(15, 0);
        if (workspace < one_entries(matrix)) refuse(9, 0);
        if (room < 20 + 16 * (matrix.n - 1) + 22 * m) refuse(10, 0);
        const Answer answer = built(matrix);
        outcome.cleared = one_entries(matrix);
        if (tree_file != answer_file(without_flips(answer))) refuse(26, 0);
        outcome.total = answer.value.total;
        outcome.file = answer_file(answer);
    } catch (const Refusal& refusal) {
        outcome.refusal = refusal;
    }
    return outcome;
}

}  // namespace

Answer without_flips(Answer answer) {
    answer.value.flip_count = 0;
    answer.flips.clear();
    return answer;
}

// "both keep 9 and 10, the first with room 20 + 16(n-1)"
BuildOutcome tree(const Bytes& matrix_file, std::size_t workspace, std::size_t room) {
    BuildOutcome outcome;
    try {
        const Matrix matrix = read_matrix(matrix_file);
        if (workspace < one_entries(matrix)) refuse(9, 0);
        if (room < 20 + 16 * (matrix.n - 1)) refuse(10, 0);
        const Answer first = without_flips(answer_of(matrix));
        outcome.total = first.value.total;
        outcome.file = answer_file(first);
        outcome.cleared = one_entries(matrix);
    } catch (const Refusal& refusal) {
        outcome.refusal = refusal;
    }
    return outcome;
}

BuildOutcome flips(const Bytes& matrix_file, const Bytes& tree_file, std::size_t workspace, std::size_t room) {
    return judged(matrix_file, tree_file, workspace, room, answer_of);
}

BuildOutcome flips(const Bytes& matrix_file, const Bytes& tree_file, std::size_t workspace, std::size_t room,
                   const Answer& known) {
    return judged(matrix_file, tree_file, workspace, room, [&known](const Matrix&) { return known; });
}

}  // namespace oracle
