#!/usr/bin/env bash
# The tests of target/host/libflourscoop.a, which host/build.sh makes: every call and the frame of c/frame.c from C and from
# C++, what the archive needs from outside, the model by itself, the archive against the model, and the planner on its lists. The
# last line is 'N passed, M failed'; the exit status is 0 only where M is 0.
set -u
cd "$(dirname "${BASH_SOURCE[0]}")" || exit 2
. ./steps.sh
made=../target/host
need_archive "$made"
need cc "gcc libc6-dev" || exit 1
need c++ g++ || exit 1
# rustc 1.85 or newer
need cargo cargo-web || exit 1

strict="-Wall -Wextra -Wconversion -Wsign-conversion -pedantic -Werror"
passed=0 failed=0

# Compiles c/$1.c by the compiler $2 with the words after it.
compiled() {
    local name=$1
    shift
    # shellcheck disable=SC2086
    "$@" $strict -Iinclude -c "c/$name.c" -o "$made/$name.o" && "$1" "$made/$name.o" -L"$made" -lflourscoop -o "$made/$name"
}

# Compiles c/calls.c likewise, and runs it.
calls_from() { compiled calls "$@" && "$made/calls"; }

# Compiles c/frame.c likewise, runs it, and compares what it writes with c/frame.expected.
frame_from() { compiled frame "$@" && "$made/frame" >"$made/frame.out" && diff c/frame.expected "$made/frame.out"; }

# What the archive needs from outside is what the header says.
needs_as_said() {
    local needed
    needed=$(nm -u "$made/libflourscoop.a" | awk 'NF == 2 { print $2 }' | sort -u | tr '\n' ' ')
    echo "needed from outside: $needed"
    [ "$needed" = "memset " ] && grep -q 'of the C library it needs memset\.$' include/flourscoop.h
}

# Counts a command as one test.
count() {
    if "$@"; then
        passed=$((passed + 1))
    else
        failed=$((failed + 1))
    fi
}

say "every call and a frame from C and from C++"
for from in calls_from frame_from; do
    count $from cc -std=c99
    count $from c++ -std=c++11 -x c++
done
count needs_as_said

say "the archive against the model, and the planner; one to two minutes, and half a minute to compile the first time"
log=$made/cargo-test.log
cargo test --offline --locked --no-fail-fast -- --show-output </dev/null 2>&1 | tee "$log"
ended=${PIPESTATUS[0]}
passed=$((passed + $(awk '/^test result:/ { n += $4 } END { print n + 0 }' "$log")))
broken=$(awk '/^test result:/ { n += $6 } END { print n + 0 }' "$log")
# what fails before a test runs counts as one
[ "$ended" -eq 0 ] || [ "$broken" -ne 0 ] || broken=1
failed=$((failed + broken))

echo "$passed passed, $failed failed"
[ "$failed" -eq 0 ]
