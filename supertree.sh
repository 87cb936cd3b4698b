#!/usr/bin/env bash
# Prints one tree of a file of source trees; the first run proves and builds the program and takes some minutes. How it ends is told by its status:
# scripts/program.sh.
set -euo pipefail
usage='usage: ./supertree.sh FILE prints one tree of all source trees in a file of Newick text (- is standard input)'
. "$(dirname "$(readlink -f "$0")")/scripts/program.sh"
take_file "$@"
. "$top/scripts/machine.sh"
prove supertree

most=1048577
said=$(said_of supertree "$1" $most 1)
# A tree is written without blanks; why there is none is told with some.
case $said in *' '*) stop 1 "$said" ;; esac
tell "$said" "$file"
