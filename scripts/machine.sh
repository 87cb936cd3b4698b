# Sourced by scripts that prove, or that run what Rattle compiles. It sets
#   kit   the toolchain's folder
# and ends with 3 where this machine cannot.

command -v rt >/dev/null || { echo "rt, the Rattle toolchain's command, is not in PATH" >&2; exit 3; }
kit=${RATTLE_HOME:-$(dirname "$(dirname "$(readlink -f "$(command -v rt)")")")}
machine=$(uname -m)
[ "$machine" = x86_64 ] || { echo "the toolchain, and what it compiles, run on x86-64 alone, and this machine is $machine" >&2; exit 3; }
