#!/bin/sh
# Compares a million texts (values.py; another count and seed: compare.sh COUNT SEED) and half as many that are hard to shorten (ties.py), read,
# written again and shortened by crates/run_decimals, with C's strtod and printf (judge.c). Run from the repository's top after
# `bin/progress run run_decimals`; needs cc and python3.
set -e
here=oracle/decimal
count=${1:-1000000}
seed=${2:-2}
work=$(mktemp -d)
trap 'rm -r "$work"' EXIT
cc -O2 -o "$work/judge" $here/judge.c -lm
{ python3 $here/values.py "$count" "$seed"; python3 $here/ties.py $((count / 2)) "$seed"; } >"$work/in"
"$work/judge" <"$work/in" >"$work/theirs"
crates/run_decimals/out/run_decimals <"$work/in" >"$work/ours"
cmp "$work/ours" "$work/theirs"
echo "$(wc -l <"$work/ours") texts: equal"
