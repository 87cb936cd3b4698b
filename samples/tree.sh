#!/usr/bin/env bash
# Prints the tree of a matrix file, and its score, with the proved library, called from C; the first run proves the library and takes a few minutes.
# How it ends is told by its status: scripts/program.sh.
set -euo pipefail
usage='usage: samples/tree.sh MATRIX prints the tree of a matrix file, and its score against the matrix'
. "$(dirname "$(readlink -f "$0")")/../scripts/program.sh"
count_words 1 1 "$@"
run_sample tree "$@"
