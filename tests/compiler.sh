# To be sourced: sets `cc`, a C compiler for x86-64, and `under`, what runs its programs, for this machine. The kit's archive is for
# x86-64, so on Arm these are Debian's cross compiler and emulator. What is missing is installed where that is allowed; else it says
# so and gives status 1.
cc=(gcc) under=()
if [[ $(uname -m) != x86_64 ]]; then
    cc=(x86_64-linux-gnu-gcc -static)
    under=(qemu-x86_64)
    if ! { command -v "${cc[0]}" && command -v "${under[0]}"; } >/dev/null && [[ $(id -u) -eq 0 ]] && command -v apt-get >/dev/null; then
        apt-get install -y gcc-x86-64-linux-gnu libc6-dev-amd64-cross qemu-user >/dev/null 2>&1 || true
    fi
    if ! command -v "${under[0]}" >/dev/null; then
        echo "what C links is passed over: ${under[0]} is missing and cannot be installed here (Debian: qemu-user)"
        return 1
    fi
fi
if ! command -v "${cc[0]}" >/dev/null; then
    echo "what C links is passed over: ${cc[0]} is missing and cannot be installed here (Debian: gcc-x86-64-linux-gnu libc6-dev-amd64-cross)"
    return 1
fi
