// What a trial keeps: how many cases it compared, and how they ended.
#pragma once

#include <cstddef>
#include <initializer_list>
#include <map>
#include <string>

#include "oracle/records.h"

class Tally {
public:
    // One operation; what reproduces a difference is written into this folder.
    Tally(std::string operation, std::string folder);

    // Counts one case that agreed, by the number of its refusal (0: taken).
    void agreed(unsigned number);
    // The same where a matrix file was given: those with multiplicities are counted for themselves too.
    void agreed(unsigned number, const oracle::Bytes& matrix_file);
    // Ends the trial: says what differed and leaves the case's file.
    [[noreturn]] void differ(const std::string& what, const oracle::Bytes& file) const;
    // Prints the counts. Ends the trial with a failure where one of these numbers never occurred, or where multiplicities
    // were refused and never taken.
    void finish(std::initializer_list<unsigned> numbers) const;

private:
    [[noreturn]] void fail(const std::string& what) const;

    std::string operation_;
    std::string folder_;
    std::map<unsigned, std::size_t> counts_;
    std::map<unsigned, std::size_t> with_multiplicities_;
};
