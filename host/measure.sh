#!/usr/bin/env bash
# The measures of docs/PERFORMANCE.md, of target/host/libflourscoop.a as host/build.sh made it: nanoseconds per call beside
# a plain Rust binner, stack per call, code size, and what the archive needs from outside.
# host/measure.sh ARCHIVE times calls on a pool once more, by turns with another version's archive, 0.6.0 or newer.
set -eu
other=${1:+$(realpath -e -- "$1")}
cd "$(dirname "${BASH_SOURCE[0]}")"
. ./steps.sh
made=../target/host
need_archive "$made"
need cc "gcc libc6-dev"
need cargo cargo-web

# Copies the archive $1 as lib$2.a, its functions with $2_ before their names and each at a multiple of 64 bytes: where a function
# lies can cost it a tenth.
renamed() {
    nm -g --defined-only "$1" | awk -v by="$2_" 'NF == 3 { print $3, by $3 }' >"$made/$2.names"
    objcopy --redefine-syms="$made/$2.names" --set-section-alignment '.text*=64' "$1" "$made/lib$2.a"
}
if [ -n "$other" ]; then
    nm -g --defined-only "$other" | grep -q ' flourscoop_bin_list$' || stop "$other is of a version before 0.6.0: it has no flourscoop_bin_list"
    renamed "$other" other
    renamed "$made/libflourscoop.a" this
    export FLOURSCOOP_TURNS=$PWD/$made
fi
say "times, in five runs; one to three minutes on an idle machine"
cargo run --offline --locked --quiet --release -p bench
say "stack"
cc -O1 -Wall -Wextra -Iinclude c/stack.c -L"$made" -lflourscoop -o "$made/stack"
"$made/stack"
say "code"
size -t "$made/libflourscoop.a"
echo "needed from outside:" "$(nm -u "$made/libflourscoop.a" | awk 'NF == 2 { print $2 }' | sort -u | tr '\n' ' ')"
