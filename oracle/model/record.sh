#!/usr/bin/env bash
# Writes the recorded cases of the crate run_replay anew, and the answers of the Rust: stdin and stdout of that crate.
# oracle/model/record.sh SOURCES [FOLDER]
# SOURCES: the folder with the Rust sources; they are never copied into the repository.
set -euo pipefail

[[ $# -eq 1 || $# -eq 2 ]] || { echo "usage: $0 SOURCES [FOLDER]" >&2; exit 2; }
here=$(cd "$(dirname "${BASH_SOURCE[0]}")" && pwd)
folder=${2:-$here/../../crates/run_replay}
[[ -d $folder ]] || { echo "$0: no folder $folder" >&2; exit 2; }
room=$(mktemp -d)
trap 'rm -rf "$room"' EXIT
export PYTHONDONTWRITEBYTECODE=1

"$here/build.sh" "$1" "$room"
python3 "$here/record.py" "$room/routed/oracle" "$folder" calls fits rules
