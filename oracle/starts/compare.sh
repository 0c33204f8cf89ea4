#!/bin/sh
# Compares the start models that crates/run_starts works out with start.py's, on the larger set of record.py: compare.sh [SEED]. Run from
# the repository's top after `bin/progress run run_starts`; needs python3.
set -e
work=$(mktemp -d)
trap 'rm -r "$work"' EXIT
python3 oracle/starts/record.py "$work" "${1:-1}"
crates/run_starts/out/run_starts <"$work/stdin" >"$work/ours"
cmp "$work/ours" "$work/stdout"
echo "$(wc -l <"$work/ours") answers: equal"
