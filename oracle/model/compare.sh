#!/usr/bin/env bash
# Compares the library's model calls with the Rust they were ported from, on cases drawn by a seed: every bit, every refusal,
# and the promises on lent memory and on the two rules.
# oracle/model/compare.sh SOURCES quick|full [SEED [LIBRARY]]
# SOURCES: the folder with the Rust sources; they are never copied into the repository.
# quick: 1,000 cases and 400 fits; full: 40,000 and 20,000.
# LIBRARY: a folder with libc_interface.a and msar.h to compare instead of this repository's.
# Status 0: no difference, 1: some, or something was not met; 2: it could not be run.
set -euo pipefail

stop() {
    echo "$0: $1" >&2
    exit 2
}
[[ $# -ge 2 && $# -le 4 ]] || stop "usage: $0 SOURCES quick|full [SEED [LIBRARY]]"
case $2 in
quick) count=1000 fits=400 ;;
full) count=40000 fits=20000 ;;
*) stop "quick or full, not $2" ;;
esac
seed=${3:-1}
[[ $seed =~ ^[0-9]+$ ]] || stop "the seed is a whole number"
for tool in rustc python3; do
    command -v "$tool" >/dev/null || stop "$tool is missing"
done

here=$(cd "$(dirname "${BASH_SOURCE[0]}")" && pwd)
top=$(cd "$here/../.." && pwd)
# the archive is for x86-64: on Arm it runs under an emulator, beside the Rust compiled for this machine
. "$top/tests/compiler.sh" || exit 2
room=$(mktemp -d)
trap 'rm -rf "$room"' EXIT
export PYTHONDONTWRITEBYTECODE=1

if [[ $# -eq 4 ]]; then
    header=$4 archive=$4/libc_interface.a
else
    (cd "$top/crates/c_interface_c" && rt lib) >"$room/said" 2>&1 || { cat "$room/said" >&2; exit 2; }
    header=$top/include archive=$top/crates/c_interface_c/out/libc_interface_c.a
fi
"$here/build.sh" "$1" "$room"
"${cc[@]}" -std=c11 -O2 -Wall -Wextra -Werror -I"$header" -o "$room/candidate" "$here/candidate.c" "$archive" || exit 2

python3 "$here/draw.py" calls "$seed" "$count" >"$room/calls"
python3 "$here/draw.py" fits "$seed" "$fits" | cat "$room/calls" - >"$room/cases"
"$room/routed/oracle" <"$room/cases" >"$room/oracle.answers" &
oracle=$!
"${under[@]}" "$room/candidate" again <"$room/cases" >"$room/candidate.answers" || stop "the candidate stopped"
wait "$oracle" || stop "the oracle stopped"
# no fits: a last digit may decide how many passes one makes; and no rule 2 at order zero, which is not the Rust's
python3 "$here/own.py" <"$room/calls" | "$room/untouched/oracle" >"$room/untouched.answers"

status=0
python3 "$here/compare.py" "$room/cases" "$room/oracle.answers" "$room/candidate.answers" || status=1
python3 "$here/coverage.py" "$room/cases" "$room/oracle.answers" || status=1
echo "the untouched Rust beside the routed one:"
python3 "$here/compare.py" --gaps "$room/oracle.answers" "$room/untouched.answers"
exit $status
