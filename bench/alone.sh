# Sourced by the scripts of this folder, at the repository's top, after tests/env.sh; it brings scripts/program.sh. `alone` makes a crate that exports
# a function to C, outside the repository, over what was proved of the crates, and its static library in `room`.

. scripts/program.sh
. scripts/prover.sh
room=$(mktemp -d)
trap 'rm -rf "$room"' EXIT

quietly() { "$@" >"$room/log" 2>&1 || { tail -20 "$room/log"; exit 1; }; }

# A library of the crates, where rt has not left it.
have() { # CRATE
    [ -e "crates/$1/out/rlib/$1.rlib" ] || (cd "crates/$1" && quietly rt lib)
}

alone() { # NAME NEEDS, its source on standard input
    local crate
    for crate in $2; do have "$crate"; done
    mkdir -p "$room/$1/src"
    cat >"$room/$1/src/lib.rt"
    (cd "$room/$1" && quietly make_static "$1" "$2" "$room/lib$1.a")
}

# What is timed has each function at a page's start: where a loop runs over a page's end is chance. The flags are for what is compiled, the function is for
# a library.
apart_flags=(-falign-functions=4096)
apart() { # LIBRARY COPY, and more words for objcopy
    objcopy --set-section-alignment '.text.*=4096' "${@:3}" "$1" "$2"
}
