#!/usr/bin/env bash
# Writes the test vectors of the crate run_vectors anew, by Java: FOLDER/stdin and FOLDER/stdout.
# oracle/elementary/vectors.sh [FOLDER]; FOLDER is crates/run_vectors where none is given.
set -euo pipefail

for tool in javac java; do
    command -v "$tool" >/dev/null || { echo "$0: $tool is missing" >&2; exit 2; }
done

here=$(cd "$(dirname "${BASH_SOURCE[0]}")" && pwd)
folder=${1:-$here/../../crates/run_vectors}
room=$(mktemp -d)
trap 'rm -rf "$room"' EXIT

javac -d "$room" "$here"/*.java
java -cp "$room" Vectors "$folder"
