// What every trial has: its folder, its count of random cases, its seed.
#pragma once

#include <cstdio>
#include <cstdlib>
#include <string>

#include "gen/random.h"

struct TrialWords {
    std::string folder;
    unsigned long count;
};

// `NAME FOLDER [COUNT]`; ends the program where FOLDER is missing.
inline TrialWords trial_words(int argc, char** argv, unsigned long usual_count) {
    if (argc < 2) {
        std::fprintf(stderr, "usage: %s FOLDER [COUNT]\n", argv[0]);
        std::exit(2);
    }
    return {argv[1], argc > 2 ? std::strtoul(argv[2], nullptr, 10) : usual_count};
}
