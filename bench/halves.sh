#!/usr/bin/env bash
# Times the operations "tree" and "flips" beside "build", for 64 taxa and 256 columns.
# All three stand in one program. What is not yet proved is proved first.
set -euo pipefail
here=$(cd "$(dirname "$0")" && pwd -P)
[ $# = 0 ] || { echo "usage: bench/halves.sh" >&2; exit 2; }
cd "$(dirname "$here")"
. tests/env.sh
. bench/alone.sh

archive flipcut
apart target/staticlib/libflipcut.a "$room/now.a"
"$cc" "${c_flags[@]}" "${apart_flags[@]}" bench/halves.c "$room/now.a" -o "$room/halves"
"$room/halves"
