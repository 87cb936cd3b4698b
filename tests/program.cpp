#include "program.h"

#include <fcntl.h>
#include <sys/wait.h>
#include <unistd.h>

#include <stdexcept>

namespace {

// In the child: never returns.
[[noreturn]] void become(const std::vector<std::string>& command, const std::string& file_name, int output) {
    const int input = open(file_name.c_str(), O_RDONLY);
    std::vector<char*> words;
    for (const std::string& word : command) words.push_back(const_cast<char*>(word.c_str()));
    words.push_back(nullptr);
    if (input >= 0 && dup2(input, 0) >= 0 && dup2(output, 1) >= 0) execvp(words[0], words.data());
    _exit(127);
}

std::string all_of(int input) {
    std::string text;
    char piece[4096];
    for (ssize_t got; (got = read(input, piece, sizeof piece)) > 0;) text.append(piece, static_cast<std::size_t>(got));
    return text;
}

}  // namespace

Printed run_program(const std::vector<std::string>& command, const std::string& file_name) {
    int ends[2];
    if (pipe2(ends, O_CLOEXEC) != 0) throw std::runtime_error("no pipe");
    const pid_t child = fork();
    if (child < 0) throw std::runtime_error("no process");
    if (child == 0) become(command, file_name, ends[1]);
    close(ends[1]);
    Printed printed;
    printed.text = all_of(ends[0]);
    close(ends[0]);
    int status = 0;
    waitpid(child, &status, 0);
    if (WIFEXITED(status)) printed.status = WEXITSTATUS(status);
    return printed;
}
