#!/usr/bin/env bash
# Prints the most stack that each operation and the program `outline` use over ten kinds of matrices of 64 taxa and 256 columns, the heavy ones with
# multiplicities too, and ends with 1 where one of them uses more than it may (the limits stand in bench/stack.c and tests/env.sh).
# A library with one operation has one caller of the search.
set -euo pipefail
here=$(cd "$(dirname "$0")" && pwd -P)
[ $# = 0 ] || { echo "usage: bench/stack.sh" >&2; exit 2; }
cd "$(dirname "$here")"
. tests/env.sh
. bench/alone.sh

archive flipcut
prove outline

alone build_alone "record tree" <<'RT'
#![tactic(auto)]
#[unsafe(no_mangle)]
pub extern "C" fn build_alone(file: &[u8], workspace: &mut [i32], out: &mut [u8]) -> u64 {
    match tree::build(file, workspace, out) {
        Ok(built) => built.size as u64,
        Err(_) => 0,
    }
}
RT

alone split_alone "record split" <<'RT'
#![tactic(auto)]
#[unsafe(no_mangle)]
pub extern "C" fn split_alone(file: &[u8], group: u64, workspace: &mut [i32]) -> u64 {
    match split::split(file, group, workspace) {
        Ok(found) => found.side,
        Err(_) => 0,
    }
}
RT

status=0
"$cc" "${c_flags[@]}" bench/stack.c target/staticlib/libflipcut.a "$room"/lib{build,split}_alone.a -o "$room/stack"
"$room/stack" "$room" || status=1

# Whether the program prints a file's tree with this much stack.
prints_tree() { # FILE KIB
    limit_stack "$2"
    { "${run_limited[@]}" target/bin/outline <"$1" | cmp -s - "$1.tree"; } 2>/dev/null
}

# The least stack with which the program prints every tree, in pages. Less than the floor is not tried.
page=4 floor=128 enough=8192
least=$floor
for file in "$room"/*.matrix; do
    target/bin/outline <"$file" >"$file.tree"
    prints_tree "$file" $least && continue
    most=$enough
    while [ $((most - least)) -gt $page ]; do
        middle=$(((least + most) / (2 * page) * page))
        if prints_tree "$file" $middle; then most=$middle; else least=$middle; fi
    done
    least=$most
done
said="$least KiB"
[ $least -gt $floor ] || said="$said or less"
said="$said, allowed $outline_stack"
[ $least -le "$outline_stack" ] || { said="$said  TOO MUCH" status=1; }
echo "outline, ulimit -s  $said"
exit $status
