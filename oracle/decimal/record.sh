#!/bin/sh
# Writes crates/run_decimals/stdin and stdout: the texts of hard.txt, 3000 of values.py, those of short.txt 19 times each, so that each is
# shortened to every count of digits, and faults.txt, each of which has the place of its fault behind it. C's strtod and printf (judge.c)
# judge all but the last. Run from the repository's top; needs cc and python3.
set -e
here=oracle/decimal
work=$(mktemp -d)
trap 'rm -r "$work"' EXIT
cc -O2 -o "$work/judge" $here/judge.c -lm
{
    python3 -c 'for l in open("oracle/decimal/hard.txt"): print(l.rstrip("\n").ljust(95))'
    python3 $here/values.py 3000 1
    python3 -c 'for l in open("oracle/decimal/short.txt"): print("\n".join([l.rstrip("\n").ljust(95)] * 19))'
} >"$work/good"
python3 -c 'for l in open("oracle/decimal/faults.txt"): print(l.rstrip("\n").rsplit(" ", 1)[0].ljust(95))' >"$work/bad"
cat "$work/good" "$work/bad" >crates/run_decimals/stdin
{ "$work/judge" <"$work/good"; sed 's/.* /wrong /' $here/faults.txt; } >crates/run_decimals/stdout
