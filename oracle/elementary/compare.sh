#!/usr/bin/env bash
# Compares the library's root, logarithm and exponential with Java's StrictMath on MILLIONS million arguments.
# oracle/elementary/compare.sh SEED MILLIONS; status 0: no difference, 1: some, 2: it could not be run.
set -euo pipefail

if [[ $# -ne 2 || ! $1 =~ ^[0-9]+$ || ! $2 =~ ^[1-9][0-9]*$ ]]; then
    echo "usage: $0 SEED MILLIONS" >&2
    exit 2
fi
if [[ $(uname -m) != x86_64 ]]; then
    echo "$0: the archive that rt lib writes is for x86-64, and this machine is $(uname -m)" >&2
    exit 2
fi
for tool in rt java javac gcc; do
    command -v "$tool" >/dev/null || { echo "$0: $tool is missing" >&2; exit 2; }
done

here=$(cd "$(dirname "${BASH_SOURCE[0]}")" && pwd)
top=$(cd "$here/../.." && pwd)
room=$(mktemp -d)
trap 'rm -rf "$room"' EXIT

cd "$top"
(cd crates/c_interface_c && rt lib) >"$room/said" 2>&1 || { cat "$room/said" >&2; exit 2; }
# no contraction, so that lnpdf's operations in C round one by one
gcc -std=c11 -O2 -Wall -Wextra -ffp-contract=off -Iinclude -o "$room/compare" \
    "$here/compare.c" crates/c_interface_c/out/libc_interface_c.a || exit 2
javac -d "$room" "$here"/*.java || exit 2
java -version 2>&1 | sed -n '2p'
java -cp "$room" Stream "$1" "$2" | "$room/compare" "${2}000000"
