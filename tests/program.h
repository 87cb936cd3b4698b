// Runs a program on a file and keeps what it prints.
#pragma once

#include <string>
#include <vector>

struct Printed {
    std::string text;
    int status = -1;  // -1 where the program did not end by itself
};

// `command` is the program and its arguments; the file becomes its standard input.
Printed run_program(const std::vector<std::string>& command, const std::string& file_name);
