#!/usr/bin/env bash
# Prints the tree of a matrix file; the first run proves and builds the program and takes some minutes. How it ends is told by its status:
# scripts/program.sh.
set -euo pipefail
usage='usage: ./outline.sh FILE prints the tree of a matrix file (- is standard input)'
. "$(dirname "$(readlink -f "$0")")/scripts/program.sh"
take_file "$@"
. "$top/scripts/machine.sh"
prove outline

most=5713
said=$(said_of outline "$1" $most)
tell "$said" "$file"
