#!/usr/bin/env bash
# The tests of target/host/aarch64/libflourscoop.a, which `host/build.sh aarch64` makes, in an emulator on an x86-64 machine: every call
# and the frame of c/frame.c from C, and what the archive needs from outside; then the stack of each call. It is no part of the gate. The
# last line is 'N passed, M failed'; the exit status is 0 only where M is 0.
set -u
cd "$(dirname "${BASH_SOURCE[0]}")" || exit 2
. ./steps.sh
made=../target/host/aarch64
[ -f "$made/libflourscoop.a" ] || stop "target/host/aarch64/libflourscoop.a is not there: run host/build.sh aarch64 first"
need aarch64-linux-gnu-gcc "gcc-aarch64-linux-gnu libc6-dev-arm64-cross" || exit 1
need qemu-aarch64 qemu-user || exit 1
passed=0 failed=0

# Compiles c/$1.c for Arm, with the words after it, and runs it.
emulated() {
    local name=$1
    shift
    aarch64-linux-gnu-gcc -static "$@" -Wall -Wextra -Iinclude "c/$name.c" -L"$made" -lflourscoop -o "$made/$name" && qemu-aarch64 "$made/$name"
}

# Runs c/frame.c likewise, and compares what it writes with c/frame.expected.
frame() { emulated frame -std=c99 >"$made/frame.out" && diff c/frame.expected "$made/frame.out"; }

# What the archive needs from outside is what the header says.
needs_as_said() {
    local needed
    needed=$(aarch64-linux-gnu-nm -u "$made/libflourscoop.a" | awk 'NF == 2 { print $2 }' | sort -u | tr '\n' ' ')
    echo "needed from outside: $needed"
    [ "$needed" = "memset " ]
}

# Counts a command as one test.
count() {
    if "$@"; then
        passed=$((passed + 1))
    else
        failed=$((failed + 1))
    fi
}

say "every call and a frame from C, in an emulator"
count emulated calls -std=c99
count frame
count needs_as_said
say "stack, in an emulator"
emulated stack -O1 || failed=$((failed + 1))

echo "$passed passed, $failed failed"
[ "$failed" -eq 0 ]
