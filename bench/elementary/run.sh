#!/usr/bin/env bash
# Times root, log and exp beside the same algorithms in Rust and the C library's functions, and prints one table.
# bench/elementary/run.sh; it leaves nothing behind but rt's own crates/*/out/.
set -euo pipefail

if [[ $(uname -m) != x86_64 ]]; then
    echo "$0: the archive that rt lib writes is for x86-64, and this machine is $(uname -m)" >&2
    exit 2
fi
for tool in rt rustc gcc; do
    command -v "$tool" >/dev/null || { echo "$0: $tool is missing" >&2; exit 2; }
done

here=$(cd "$(dirname "${BASH_SOURCE[0]}")" && pwd)
top=$(cd "$here/../.." && pwd)
room=$(mktemp -d)
trap 'rm -rf "$room"' EXIT

cd "$top"
(cd crates/c_interface_c && rt lib) >"$room/said" 2>&1 || { cat "$room/said" >&2; exit 2; }
rustc --edition 2021 -C opt-level=3 -C codegen-units=1 -C panic=abort --crate-type staticlib \
    -o "$room/libsame.a" "$here/same.rs"
# -fno-builtin, so that sqrt is the C library's function and not an instruction
gcc -std=gnu11 -O2 -fno-builtin -Wall -Wextra -Iinclude -o "$room/bench" \
    "$here/bench.c" crates/c_interface_c/out/libc_interface_c.a "$room/libsame.a" -lm

sed -n '/^model name/{s/^model name[[:space:]]*: //p;q}' /proc/cpuinfo
rustc --version
gcc --version | sed -n 1p
"$room/bench"
