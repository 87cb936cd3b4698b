// Stands between the header and the library in every linked trial (tests/run, --wrap). The library takes no null pointer and
// none where a value of its kind may not stand, also with the length 0, where nothing would come of it today: so a call that
// passes one ends the trial.
#include <cstdint>
#include <cstdio>
#include <cstdlib>

#include "flipcut.h"

namespace {

template <class T>
T* lent(T* pointer) {
    if (pointer != nullptr && reinterpret_cast<std::uintptr_t>(pointer) % alignof(T) == 0) return pointer;
    std::printf("FAILED: the library is given the pointer %p\n", static_cast<const void*>(pointer));
    std::exit(1);
}

}  // namespace

// The names are the linker's: __wrap_ is what is called, __real_ the library's.
extern "C" {

decltype(flipcut_check) __real_flipcut_check;
decltype(flipcut_build) __real_flipcut_build;
decltype(flipcut_tree) __real_flipcut_tree;
decltype(flipcut_flips) __real_flipcut_flips;
decltype(flipcut_split) __real_flipcut_split;
decltype(flipcut_read) __real_flipcut_read;
decltype(flipcut_write) __real_flipcut_write;
decltype(flipcut_score) __real_flipcut_score;
decltype(flipcut_read_newick) __real_flipcut_read_newick;
decltype(flipcut_write_newick) __real_flipcut_write_newick;
decltype(flipcut_check_names) __real_flipcut_check_names;

std::uint64_t __wrap_flipcut_check(const std::uint8_t* file, std::size_t len) {
    return __real_flipcut_check(lent(file), len);
}

std::uint64_t __wrap_flipcut_build(const std::uint8_t* matrix, std::size_t matrix_len, std::int32_t* workspace,
                                   std::size_t workspace_len, std::uint8_t* out, std::size_t out_len) {
    return __real_flipcut_build(lent(matrix), matrix_len, lent(workspace), workspace_len, lent(out), out_len);
}

std::uint64_t __wrap_flipcut_tree(const std::uint8_t* matrix, std::size_t matrix_len, std::int32_t* workspace,
                                  std::size_t workspace_len, std::uint8_t* out, std::size_t out_len) {
    return __real_flipcut_tree(lent(matrix), matrix_len, lent(workspace), workspace_len, lent(out), out_len);
}

std::uint64_t __wrap_flipcut_flips(const std::uint8_t* matrix, std::size_t matrix_len, const std::uint8_t* tree,
                                   std::size_t tree_len, std::int32_t* workspace, std::size_t workspace_len,
                                   std::uint8_t* out, std::size_t out_len) {
    return __real_flipcut_flips(lent(matrix), matrix_len, lent(tree), tree_len, lent(workspace), workspace_len, lent(out),
                                out_len);
}

std::uint64_t __wrap_flipcut_split(const std::uint8_t* matrix, std::size_t matrix_len, std::uint64_t group,
                                   std::int32_t* workspace, std::size_t workspace_len, std::uint64_t* result) {
    return __real_flipcut_split(lent(matrix), matrix_len, group, lent(workspace), workspace_len, lent(result));
}

std::uint64_t __wrap_flipcut_read(const std::uint8_t* file, std::size_t len, flipcut_flip* list, std::size_t list_len,
                                  std::uint64_t* result) {
    return __real_flipcut_read(lent(file), len, lent(list), list_len, lent(result));
}

std::uint64_t __wrap_flipcut_write(const flipcut_answer* answer, const flipcut_flip* list, std::size_t list_len,
                                   std::uint8_t* out, std::size_t out_len) {
    return __real_flipcut_write(lent(answer), lent(list), list_len, lent(out), out_len);
}

std::uint64_t __wrap_flipcut_score(const std::uint8_t* matrix, std::size_t matrix_len, const std::uint8_t* answer,
                                   std::size_t answer_len) {
    return __real_flipcut_score(lent(matrix), matrix_len, lent(answer), answer_len);
}

std::uint64_t __wrap_flipcut_read_newick(const std::uint8_t* text, std::size_t text_len, std::uint8_t* matrix,
                                         std::size_t matrix_len, std::uint8_t* names, std::size_t names_len) {
    return __real_flipcut_read_newick(lent(text), text_len, lent(matrix), matrix_len, lent(names), names_len);
}

std::uint64_t __wrap_flipcut_write_newick(const std::uint8_t* answer, std::size_t answer_len, const std::uint8_t* names,
                                          std::size_t names_len, std::uint8_t* out, std::size_t out_len) {
    return __real_flipcut_write_newick(lent(answer), answer_len, lent(names), names_len, lent(out), out_len);
}

std::uint64_t __wrap_flipcut_check_names(const std::uint8_t* names, std::size_t len) {
    return __real_flipcut_check_names(lent(names), len);
}

}
