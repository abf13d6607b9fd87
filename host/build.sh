#!/usr/bin/env bash
# Makes the archive for C and Rust hosts: the proved crate capi, compiled.
#
#   host/build.sh            target/host/libflourscoop.a, for every x86-64 processor
#   host/build.sh aarch64    target/host/aarch64/libflourscoop.a, for Arm, made on x86-64 as well
#
# The kit runs on x86-64 alone. Its `rt lib` proves the crates below capi, and capi, over what earlier checks kept in crates/*/out,
# and the kit's clang compiles it. With --over-ci before the processor, as the gate gives it in a clean clone right after rt ci,
# capi is proved once more, and compiled, over the very libraries that rt ci left there; `rt lib`, which has no use for those, would
# prove each of them a second time. No proof covers the compiler's back end, on either processor.
set -eu
cd "$(dirname "${BASH_SOURCE[0]}")/.."
. host/steps.sh
root=$PWD
log=$root/target/host/build.log

over_ci=
if [ "${1-}" = --over-ci ]; then
    over_ci=yes
    shift
fi
processor=${1:-x86_64}
[ $# -le 1 ] || stop "host/build.sh [--over-ci] [aarch64]"
case $processor in
x86_64)
    made=$root/target/host
    # the first processor of x86-64's list: the code then runs on every one; left out, rt takes x86-64-v2
    kind=(--cpu x86-64)
    ;;
aarch64)
    made=$root/target/host/aarch64
    kind=(--target aarch64-unknown-linux-gnu)
    ;;
*) stop "nothing is known of how to compile for $processor" ;;
esac
[ "$(uname -m)" = x86_64 ] || stop "the kit runs on x86-64 alone: make the archive there, by host/build.sh $(uname -m), and bring it here"
need_kit

# Makes out/libcapi.a over the libraries that stand in crates/*/out, by the words that rt lib would give.
build_over_ci() {
    local kit words=() name path
    kit=$(dirname "$(rt doc)")
    for name in std $(sed -n 's/^capi staticlib: *//p' "$root/crates.txt"); do
        path=$kit/rlibs
        [ ! -d "../$name" ] || path=../$name/out/rlib
        words+=(--extern "$name=$path/$name.rlib")
    done
    for path in "$kit/rlibs" ../*/out/rlib; do
        words+=(-L "dependency=$path")
    done
    mkdir -p out
    "$kit/bin/rattle" build --crate-name capi src/lib.rt "${words[@]}" --antt-project "$kit/rattle/logic/antt-project.json" --logic-built "$kit/logic_built" \
        --jobs 2 --links capi= --crate-type staticlib --toolchain "$kit/toolchain" --backend llvm "$@" -o out/libcapi.a
}

mkdir -p "$made" target/host
rm -f "$made/libflourscoop.a"
cd crates/capi
if [ -n "$over_ci" ]; then
    say "proves capi over what rt ci has proved, and compiles it for $processor; a minute or two"
    proving "$log" build_over_ci "${kind[@]}"
else
    say "proves capi and what it rests on, and compiles it for $processor; from nothing that takes as long as all these proofs, and a minute or two after that"
    proving "$log" rt lib "${kind[@]}"
fi
cp out/libcapi.a "$made/libflourscoop.a"
say "${made#"$root"/}/libflourscoop.a is for $processor"
