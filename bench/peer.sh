#!/usr/bin/env bash
# Times whole builds by the operation "build" against FlipCut on LEMON's Preflow, a library of largest flows (Debian's package liblemon-dev):
#   bench/peer.sh          ten kinds of matrices of 64 taxa and 256 columns
#   bench/peer.sh growth   random and interval matrices of 16 to 64 taxa, and of 64 to 256 columns
# Both stand in one program. What is not yet proved is proved first.
set -euo pipefail
here=$(cd "$(dirname "$0")" && pwd -P)
case "$#${1:-}" in
0 | 1growth) ;;
*) echo "usage: bench/peer.sh [growth]" >&2; exit 2 ;;
esac
cd "$(dirname "$here")"
. tests/env.sh
. bench/alone.sh

# The library is headers alone, the same for any machine; nothing else of the folder where they stand is for the cross compiler.
headers=/usr/include/lemon
[ -e $headers/preflow.h ] || add_package liblemon-dev
ln -s $headers "$room"

archive flipcut
apart target/staticlib/libflipcut.a "$room/flipcut.a"
# LEMON makes nodes and arcs before it fills them, inlined into the program, so the compiler warns in spite of -isystem.
"$cxx" "${cxx_flags[@]}" "${apart_flags[@]}" -Wno-maybe-uninitialized -isystem "$room" bench/peer.cpp "$room/flipcut.a" -o "$room/peer"
"$room/peer" "$@"
