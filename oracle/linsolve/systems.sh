#!/usr/bin/env bash
# Writes the systems of the crate run_systems anew, and the answers of the Rust's `solve`: FOLDER/stdin and FOLDER/stdout.
# oracle/linsolve/systems.sh SOURCES [FOLDER [SEED ROUNDS]]
# SOURCES: the folder with the Rust sources (linsolve.rs); they are never copied into the repository.
# FOLDER: crates/run_systems where none is given. SEED, ROUNDS: those of the crate's files where none are given.
set -euo pipefail

usage() {
    echo "usage: $0 SOURCES [FOLDER [SEED ROUNDS]]" >&2
    exit 2
}
[[ $# -eq 1 || $# -eq 2 || $# -eq 4 ]] || usage
[[ -f $1/linsolve.rs ]] || { echo "$0: no linsolve.rs in $1" >&2; exit 2; }

here=$(cd "$(dirname "${BASH_SOURCE[0]}")" && pwd)
folder=${2:-$here/../../crates/run_systems}
seed=${3:-19890301}
rounds=${4:-1}
[[ $seed =~ ^[0-9]+$ && $rounds =~ ^[1-9][0-9]*$ ]] || usage
[[ -d $folder ]] || { echo "$0: no folder $folder" >&2; exit 2; }
command -v rustc >/dev/null || { echo "$0: rustc is missing" >&2; exit 2; }

room=$(mktemp -d)
trap 'rm -rf "$room"' EXIT

cp "$1/linsolve.rs" "$here"/{systems,column}.rs "$room/"
# with debug assertions linsolve.rs tests the lengths that it is handed; it has functions that are not used here
rustc --edition 2021 -C opt-level=3 -C debug-assertions=on -A dead_code -o "$room/systems" "$room/systems.rs"
"$room/systems" "$folder" "$seed" "$rounds"
