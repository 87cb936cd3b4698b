# Sourced by the scripts that people run: words that are judged before anything is proved, progress while it is, and a status that tells how it ended.
#   0   done
#   1   the input is refused or could not be read, or what was to be printed was lost
#   2   the words after the script's name are not as they should be
#   3   a crate is not proved, or this machine lacks something
# A script that judges words sets `usage`, one line, first.

top=$(dirname "$(dirname "$(readlink -f "${BASH_SOURCE[0]}")")")
name=${0##*/}

stop() { # STATUS LINE
    printf '%s: %s\n' "$name" "$2" >&2
    exit "$1"
}

# A descriptor that is closed would be taken by the next file that is opened. Of a folder nothing can be read.
[ -e /dev/fd/2 ] || exec 2>/dev/null
[ -e /dev/fd/1 ] || stop 1 "standard output is closed"
[ -e /dev/fd/0 ] || exec <"$top"

# ---- words

count_words() { # LEAST MOST WORD...
    case ${3:-} in -h | --help) stop 2 "$usage" ;; esac
    [ $(($# - 2)) -ge "$1" ] || stop 2 "no file is named; $usage"
    [ $(($# - 2)) -le "$2" ] || stop 2 "too many words; $usage"
}

# A word that names a file to read.
judge_file() { # WORD
    [ -n "$1" ] || stop 2 "the name of a file is empty; $usage"
    [ -e "$1" ] || stop 2 "there is no file '$1'"
    [ ! -d "$1" ] || stop 2 "'$1' is a folder, not a file"
    [ -r "$1" ] || stop 2 "'$1' may not be read by you"
}

# The one word of a script that takes a file, or - for standard input; `file` is how it is told of.
take_file() { # WORD...
    count_words 1 1 "$@"
    if [ "$1" = - ]; then
        file='standard input'
    else
        judge_file "$1"
        file="'$1'"
    fi
}

# ---- proving

clock() { printf '%d:%02d' $(($1 / 60)) $(($1 % 60)); }

# How far the run is, told from what rt says, in the file `said`: a crate that it begins is named there, and those before it have ended. `told` holds how
# many of them were told of. A crate that was proved before is passed over.
progress() { # ENDED, 1 once rt has ended well
    local begun place crate now= done=0 clock
    clock=$(clock $((SECONDS - began)))
    begun=$(sed -n 's/^rt: chose --jobs [0-9]* for //p' "$said" | tail -n 1)
    for place in "${!wanted[@]}"; do
        [ "${wanted[place]}" != "$begun" ] || done=$place now=$begun
    done
    [ "$1" != 1 ] || done=${#wanted[@]} now=
    while [ "$told" -lt "$done" ]; do
        crate=${wanted[told]}
        told=$((told + 1))
        [ -t 2 ] || ! grep -q "^rt: chose --jobs [0-9]* for $crate\$" "$said" || echo "$crate proved: crate $told of ${#wanted[@]}, $clock so far" >&2
    done
    [ ! -t 2 ] || [ -z "$now" ] || printf '\r\033[Kproving %s: %d of %d crates done, %s so far' "$now" "$done" ${#wanted[@]} "$clock" >&2
}

# Runs of these scripts in one repository wait for each other. The lock is descriptor 9.
lock() {
    { mkdir -p "$top/target/bin" "$top/target/staticlib" "$top/target/sum" && exec 9>"$top/target/prove.lock"; } 2>/dev/null ||
        stop 3 "$top/target cannot be written, and what is proved is kept there"
    flock -n 9 || { echo "$name: another run proves here; this one waits for it" >&2 && flock 9; }
}

# A sum of all that a crate is made from: the toolchain, and the files of the crate and of those that it rests on.
sum_of() { # CRATE
    (
        cd "$top"
        rt version </dev/null
        for crate in $(scripts/layers "$1"); do
            find "crates/$crate" -regex '[^/]*/[^/]*/\(src\|specs\|proofs\)/.*' -type f -exec sha256sum {} + 2>/dev/null | sort
        done
        cat crates.txt
    ) | sha256sum
}

# What stands in target/ is of the crates as they are now. (sum_of reads them anew each time; a change meanwhile is a change for the next run.)
is_made() { # CRATE SUM FILE
    [ "$(cat "$top/target/sum/$1" 2>/dev/null)" = "$2" ] && [ -e "$top/target/$3" ]
}

# Puts what rt made of a crate where the scripts take it from: at once, since a run before may be starting it.
take() { # CRATE SUM MADE FILE
    rm -f "$top/target/sum/$1"
    cp "$top/crates/$1/out/$3" "$top/target/$4.new" && mv "$top/target/$4.new" "$top/target/$4" && printf '%s\n' "$2" >"$top/target/sum/$1"
}

# Has rt prove a crate and make its program or library, beside which progress is told. What rt prints goes to a file, which is named when something fails.
make_of() { # CRATE VERB MADE FILE
    local said=$top/target/prove-$1.log began=$SECONDS job status=0 wanted told=0 sum why
    sum=$(sum_of "$1")
    ! is_made "$1" "$sum" "$4" || return 0
    lock
    if is_made "$1" "$sum" "$4"; then
        exec 9>&-
        return 0
    fi
    mapfile -t wanted < <("$top/scripts/layers" "$1")
    # A process group of its own, so that what rt started ends with this script.
    set -m
    (cd "$top/crates/$1" && exec rt "$2") </dev/null >"$said" 2>&1 9>&- &
    job=$!
    set +m
    trap 'kill -- -$job 2>/dev/null; echo >&2; exit 130' INT TERM HUP
    while kill -0 "$job" 2>/dev/null; do
        progress 0
        sleep 0.2
    done
    wait "$job" || status=$?
    trap - INT TERM HUP
    [ "$status" != 0 ] || progress 1
    [ ! -t 2 ] || printf '\r\033[K' >&2
    if [ "$status" = 0 ] && take "$1" "$sum" "$3" "$4"; then
        exec 9>&-
        return 0
    fi
    exec 9>&-
    why=$(grep -m 1 '^fn .*: \(not proved\|no proof\)\|^rt: the library .* did not build' "$said" || tail -n 1 "$said")
    stop 3 "$1 could not be proved: $why; the prover's lines are in $said"
}

# A program, target/bin/NAME. (`rt run` makes it and runs it, here with nothing to read.)
prove() { make_of "$1" run "$1" "bin/$1"; }

# The library for C, target/staticlib/libNAME.a.
archive() { make_of "$1_c" lib "lib$1_c.a" "staticlib/lib$1.a"; }

# ---- printing

# What a program says of a file, of which it reads so many bytes; ERRORS is 1 where what it tells on standard error counts too. The file is read here, so
# that one that breaks off in reading is told by its name.
said_of() { # PROGRAM WORD MOST [ERRORS]
    local ended
    head -c "$3" -- "$2" 2>/dev/null | "$top/target/bin/$1" 2>&"${4:-2}"
    ended=("${PIPESTATUS[@]}")
    [ "${ended[0]}" = 0 ] || stop 1 "$file could not be read"
    [ "${ended[1]}" = 0 ] || stop 1 "the program ended early, with status ${ended[1]}"
}

# In words, why a file is refused: the row of this number in the table of docs/RULES.md.
refusal_in_words() { # NUMBER
    awk -F ' *[|] *' -v number="$1" '/^## / { on = $0 == "## Refusals" } on && $2 == number { print $3; exit }' "$top/docs/RULES.md"
}

# Prints what a program said of a file. All of it is at hand before any is printed, so none is lost unnoticed.
tell() { # TEXT FILE
    [ -n "$1" ] || stop 1 "the program said nothing of $2"
    trap '' PIPE
    printf '%s\n' "$1" 2>/dev/null || stop 1 "standard output was lost: not all of the answer could be written"
    trap - PIPE
    local last=${1##*$'\n'} word number place
    [ "${last%% *}" = refused ] || return 0
    read -r word number word place <<<"$last"
    stop 1 "$2 is refused, with $number at byte $place: $(refusal_in_words "$number")"
}

# ---- the C programs of samples/

# Compiles one with the proved library, runs it on files, and prints what it says.
run_sample() { # NAME FILE...
    local file said status=0
    for file in "${@:2}"; do judge_file "$file"; done
    . "$top/tests/env.sh"
    archive flipcut
    room=$(mktemp -d)
    trap 'rm -rf "$room"' EXIT
    "$cc" "${c_flags[@]}" -I "$top/include" "$top/samples/$1.c" "$top/target/staticlib/libflipcut.a" -o "$room/$1" ||
        stop 3 "samples/$1.c could not be compiled"
    said=$("$room/$1" "${@:2}") || status=$?
    case $status in
    0 | 1) ;;
    2) exit 1 ;; # it told which file it could not read
    *) stop 1 "the program ended early, with status $status" ;;
    esac
    # Where two files are named, it says a line of each.
    case $#$said in
    3*$'\n'*) tell "$said" "'$3'" ;;
    *) tell "$said" "'$2'" ;;
    esac
}
