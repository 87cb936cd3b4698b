#include "outline.h"

#include <sstream>

#include "build.h"
#include "score.h"

namespace oracle {

namespace {

std::string printed(const Answer& answer) {
    const AnswerValue& value = answer.value;
    std::ostringstream out;
    out << "taxa " << value.n << " columns " << value.m << " total " << value.total << '\n';
    for (std::size_t k = 0; k < value.group_count; ++k)
        out << "group " << std::hex << value.groups[k].taxa << std::dec << " cost " << value.groups[k].cost << '\n';
    for (const Flip& flip : answer.flips)
        out << "flip " << flip.column << std::hex << " raise " << flip.raised << " lower " << flip.lowered << std::dec
            << '\n';
    return out.str();
}

std::string printed(const ScoreOutcome& score) {
    return "raises " + std::to_string(score.raises) + " lowers " + std::to_string(score.lowers) + " score " +
           std::to_string(score.raises + score.lowers) + "\n";
}

}  // namespace

std::string outline(const Bytes& file, bool scored) {
    try {
        const Answer answer = answer_of(read_matrix(file));
        return printed(answer) + (scored ? printed(score(file, answer_file(answer))) : "");
    } catch (const Refusal& refusal) {
        return text(refusal) + "\n";
    }
}

}  // namespace oracle
