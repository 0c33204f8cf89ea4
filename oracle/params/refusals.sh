#!/usr/bin/env bash
# Writes the answers of the Rust to the records and specs of crates/run_refusals: crates/run_refusals/stdout, or FILE.
# oracle/params/refusals.sh SOURCES [FILE]
# SOURCES: the folder with the Rust sources (spec.rs, params.rs); they are never copied into the repository.
set -euo pipefail

[[ $# -eq 1 || $# -eq 2 ]] || { echo "usage: $0 SOURCES [FILE]" >&2; exit 2; }
for f in spec.rs params.rs; do
    [[ -f $1/$f ]] || { echo "$0: no $f in $1" >&2; exit 2; }
done
command -v rustc >/dev/null || { echo "$0: rustc is missing" >&2; exit 2; }

here=$(cd "$(dirname "${BASH_SOURCE[0]}")" && pwd)
file=${2:-$here/../../crates/run_refusals/stdout}
room=$(mktemp -d)
trap 'rm -rf "$room"' EXIT

cp "$1/spec.rs" "$1/params.rs" "$here/refusals.rs" "$here/../model/standins/error.rs" "$room/"
rustc --edition 2021 -O -A warnings -o "$room/refusals" "$room/refusals.rs"
"$room/refusals" > "$file"
