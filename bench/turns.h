// Two builds of one case that take turns: their answers compared, and the least processor time of each. C and C++.
#ifndef TURNS_H
#define TURNS_H

#include "cases.h"
#include "../include/flipcut.h"

// A build of the case: the length of the answer file that it wrote, 0 for a refusal.
typedef size_t Build(uint8_t *out);

// The operation "build", as one library has it: the function itself, since nothing here is null.
typedef __typeof__(flipcut_build) Operation;

static inline size_t build_with(Operation *build, uint8_t *out) {
    return flipcut_written(build(file, file_length, ws, (size_t)(taxa * columns), out, OUT_LENGTH));
}

// How many numbers the workspace must have: with one fewer the refusal is 9, with so many it is 10, since no output is lent.
static inline size_t workspace_needed(Operation *build) {
    size_t least = 0, enough = N * M;
    while (least < enough) {
        size_t middle = (least + enough) / 2;
        unsigned refusal = flipcut_number(build(file, file_length, ws, middle, file, 0));
        if (refusal == 9) least = middle + 1; else enough = middle;
    }
    return enough;
}

static inline size_t operation(uint8_t *out) { return build_with(flipcut_build, out); }

// One turn of each; false where the answers differ.
static inline int turn(Build *const builds[2], double times[2]) {
    static uint8_t out[2][OUT_LENGTH];
    size_t length[2];
    for (int which = 0; which < 2; which++) {
        double at = now();
        length[which] = builds[which](out[which]);
        times[which] = now() - at;
    }
    return length[0] != 0 && length[0] == length[1] && memcmp(out[0], out[1], length[0]) == 0;
}

enum { TURNS = 3 };
static const double LEAST_TIME = 0.2;  // seconds of turns for a case that is over sooner

// The least time of each; false where the answers differ.
static inline int take_turns(Build *const builds[2], double least[2]) {
    double spent = 0, times[2];
    for (int i = 0; i < TURNS || spent < LEAST_TIME; i++) {
        if (!turn(builds, times)) return 0;
        for (int which = 0; which < 2; which++)
            if (i == 0 || times[which] < least[which]) least[which] = times[which];
        spent += times[0] + times[1];
    }
    return 1;
}

#endif
