#!/usr/bin/env bash
# Proves and builds the lister, and shows its listing of the sample pool: the screen 64 by 32 with two blocks, in which id 7 stands in tile 0.
set -eu
cd "$(dirname "${BASH_SOURCE[0]}")/.."
. host/steps.sh
need_kit
need python3 python3
say "proves and builds the lister and what it rests on; minutes the first time, seconds after that"
mkdir -p target/host
log=$PWD/target/host/sample.log
(cd crates/lister && proving "$log" rt run)
say "the listing of crates/lister/stdin:"
host/lister/run --list crates/lister/stdin
