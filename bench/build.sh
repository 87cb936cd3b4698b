#!/usr/bin/env bash
# Times whole builds of 64 taxa and 256 columns by the operation "build", and says how long a workspace it needs:
#   bench/build.sh                 against plain C of the same method, with the stack that the operation uses
#   bench/build.sh compare OLD.a   against an earlier libflipcut.a, with the bytes that are lent to each
# Both stand in one program. What is not yet proved is proved first.
set -euo pipefail
here=$(cd "$(dirname "$0")" && pwd -P)
case "$#${1:-}" in
0) earlier='' ;;
2compare)
    earlier=$(readlink -e "$2") || { echo "there is no $2" >&2; exit 2; }
    grep -qs flipcut_build "$earlier" || { echo "$2 has no flipcut_build" >&2; exit 2; }
    ;;
*) echo "usage: bench/build.sh [compare OLD.a]" >&2; exit 2 ;;
esac
cd "$(dirname "$here")"
. tests/env.sh
. bench/alone.sh

archive flipcut
apart target/staticlib/libflipcut.a "$room/now.a"
parts=(bench/build.c "$room/now.a")
if [ -n "$earlier" ]; then
    # One program cannot have two functions of one name: the earlier build gets another, and nothing else of its library is seen.
    apart "$earlier" "$room/earlier.a" --redefine-sym flipcut_build=earlier_build --keep-global-symbol=earlier_build
    parts=(bench/compare.c "$room/now.a" "$room/earlier.a")
fi
"$cc" "${c_flags[@]}" "${apart_flags[@]}" "${parts[@]}" -o "$room/build"
"$room/build"
