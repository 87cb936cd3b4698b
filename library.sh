#!/usr/bin/env bash
# Makes the static library for C programs, with its file for pkg-config beside it, and tells how to install them; the first run proves the library and
# takes some minutes. How it ends is told by its status: scripts/program.sh.
set -euo pipefail
usage='usage: ./library.sh makes the library for C programs'
. "$(dirname "$(readlink -f "$0")")/scripts/program.sh"
count_words 0 0 "$@"
. "$top/scripts/machine.sh"
archive flipcut

# It names no folder of this machine, so that it is right here and wherever the second line puts it.
cat >"$top/target/staticlib/flipcut.pc" <<'PC'
includedir=${pcfiledir}/../../include
Name: flipcut
Description: FlipCut supertrees, proved
Version: 4
Cflags: -I${includedir}
Libs: -L${pcfiledir} -L${pcfiledir}/.. -lflipcut
PC

# As it is named from the folder where this runs.
named() { printf %q "$(realpath --relative-base=. "$top/$1")"; }
header=$(named include/flipcut.h)
library=$(named target/staticlib/libflipcut.a)
package=$(named target/staticlib/flipcut.pc)
put='install -Dm644 -t'
tell "a C program needs $header and $library
$put \"\${PREFIX:?}/include\" $header && $put \"\$PREFIX/lib\" $library && $put \"\$PREFIX/lib/pkgconfig\" $package" 'the library'
