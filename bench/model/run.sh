#!/usr/bin/env bash
# Times filter, smooth and fits of 20 passes beside the untouched Rust, and prints one table.
# bench/model/run.sh SOURCES [all|fits [LIBRARY]]
# SOURCES: the folder with model.rs, params.rs, spec.rs, linsolve.rs. LIBRARY: a folder with libc_interface.a to time instead of
# this repository's, of another version whose calls take a rule (0.4.0 on), or made for another machine than x86-64. It leaves
# nothing behind but rt's own crates/*/out/.
set -euo pipefail

stop() {
    echo "$0: $1" >&2
    exit 2
}
[[ $# -ge 1 && $# -le 3 ]] || stop "usage: $0 SOURCES [all|fits [LIBRARY]]"
what=${2:-all}
[[ $what == all || $what == fits ]] || stop "all or fits, not $what"
[[ $# -eq 3 || $(uname -m) == x86_64 ]] || stop "the archive that rt lib writes is for x86-64, and this machine is $(uname -m): name a LIBRARY"
command -v rustc >/dev/null || stop "rustc is missing"
sources=$(realpath "$1")
here=$(cd "$(dirname "${BASH_SOURCE[0]}")" && pwd)
top=$(cd "$here/../.." && pwd)
room=$(mktemp -d)
trap 'rm -rf "$room"' EXIT

if [[ $# -eq 3 ]]; then
    library=$(realpath "$3")
else
    command -v rt >/dev/null || stop "rt is missing"
    (cd "$top/crates/c_interface_c" && rt lib) >"$room/said" 2>&1 || { cat "$room/said" >&2; exit 2; }
    library=$room/library
    mkdir "$library"
    cp "$top/crates/c_interface_c/out/libc_interface_c.a" "$library/libc_interface.a"
fi
"$top/oracle/model/build.sh" "$sources" "$room/oracle"
rustc --edition 2021 -C opt-level=3 -C codegen-units=1 -L "$room/oracle/untouched" -L "$library" -l static=c_interface \
    --extern tsecon_regime -o "$room/bench" "$here/bench.rs"

sed -n '/^model name/{s/^model name[[:space:]]*: //p;q}' /proc/cpuinfo
rustc --version
"$room/bench" "$what"
