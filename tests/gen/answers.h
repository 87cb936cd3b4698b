// Random answers, lawful and not.
#pragma once

#include "../oracle/answer.h"
#include "random.h"

namespace gen {

// An answer that reading takes, of no matrix in particular: the clades of a random tree, any costs, any flips.
oracle::Answer random_answer(Random& random, unsigned n, unsigned m);
oracle::Answer random_answer(Random& random);

// Changes one thing that a group, a flip or the total says; mostly the answer then breaks a rule.
void spoil_records(Random& random, oracle::Answer& answer);

// Changes one thing so that reading still takes the answer: a cost with the total, two costs against each other, a group but the
// first left out, a flip put in, where there is room for it.
void change_lawfully(Random& random, oracle::Answer& answer);

// Changes one number of the head to any value at all.
void spoil_head(Random& random, oracle::AnswerValue& value);

// Adds 2 to the 32 to the sum of the costs, where two groups have room for that, and leaves the total.
void wrap_costs(oracle::AnswerValue& value);

}  // namespace gen
