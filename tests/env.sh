# Sourced by the scripts that compile something beside the proofs. It sets, beside what scripts/machine.sh sets,
#   cc, cxx         the compilers
#   outline_stack   the stack, in KiB, that the program `outline` has to do with (document 02's C-16)
#   limit_stack     a function that sets run_limited, the words before a program that is to have no more stack than it says
#   c_flags, cxx_flags   the words after a compiler
#   add_package     a function that installs one of Debian's packages
#   need_dendropy   a function that sees to DendroPy, a library for Debian's own Python, /usr/bin/python3
# and installs what is missing from Debian's packages.

. "$(dirname "${BASH_SOURCE[0]}")/../scripts/machine.sh"

add_package() { # PACKAGE
    [ "$(id -u)" = 0 ] || { echo "Debian's package $1 is missing: install it" >&2; exit 3; }
    echo "installing $1" >&2
    apt-get update -qq >&2 && DEBIAN_FRONTEND=noninteractive apt-get install -y -qq --no-install-recommends "$1" >/dev/null ||
        { echo "Debian's package $1 could not be installed" >&2; exit 3; }
}

# Installs a package where its command is missing.
need() { # COMMAND PACKAGE
    command -v "$1" >/dev/null || add_package "$2"
}

need_dendropy() {
    /usr/bin/python3 -c 'import dendropy' 2>/dev/null || add_package python3-dendropy
}

need g++ g++
cc=gcc cxx=g++

outline_stack=160
# A program's variables stand on its stack, so it is given none.
limit_stack() { # KIB
    run_limited=(env -i sh -c 'ulimit -s "$1" && shift && exec "$@"' sh "$1")
}

c_flags=(-std=c11 -O2 -Wall -Wextra -Werror)
cxx_flags=(-std=c++17 -O2 -Wall -Wextra -Werror)
