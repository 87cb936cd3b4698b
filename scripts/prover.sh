# Sourced after scripts/program.sh and scripts/machine.sh, at the repository's top, by what goes on where rt has ended: the prover, called as rt calls it, over
# the libraries that rt proved and left in crates/NAME/out. (`rt lib` takes nothing that `rt ci` left, and would prove every crate again.)

# What a crate rests on, by crates.txt.
needs_of() { # CRATE
    sed 's/#.*//' "$top/crates.txt" | awk -F: -v crate="$1" '{ split($1, word, " ") } word[1] == crate { print $2 }'
}

prover() { # COMMAND CRATE ROOT NEEDS WORD...
    local words=() crate
    for crate in $4; do words+=(--extern "$crate=$top/crates/$crate/out/rlib/$crate.rlib"); done
    for crate in $(for crate in $4; do "$top/scripts/layers" "$crate"; done | sort -u); do words+=(-L "dependency=$top/crates/$crate/out/rlib"); done
    "$kit/bin/rattle" "$1" --crate-name "$2" "$3" --extern "std=$kit/rlibs/std.rlib" -L "dependency=$kit/rlibs" ${words[@]+"${words[@]}"} \
        --antt-project "$kit/rattle/logic/antt-project.json" --logic-built "$kit/logic_built" --links "$2=" "${@:5}"
}

# Proves a crate of functions for C, in the folder where this runs, and makes a static library of it.
make_static() { # CRATE NEEDS LIBRARY
    prover build "$1" src/lib.rt "$2" --crate-type staticlib --toolchain "$kit/toolchain" --backend llvm -o "$3"
}
