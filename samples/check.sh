#!/usr/bin/env bash
# Checks a matrix file and scores an answer file against it with the proved library, called from C; the first run proves the library and takes a few
# minutes. How it ends is told by its status: scripts/program.sh.
set -euo pipefail
usage='usage: samples/check.sh MATRIX [ANSWER] checks a matrix file, and scores an answer file against it'
. "$(dirname "$(readlink -f "$0")")/../scripts/program.sh"
count_words 1 2 "$@"
run_sample check "$@"
