#!/bin/sh
# Planning and encoding by two builds of the uplink's library in one program,
# called in turn: bench/before.sh BEFORE NOW
# Each of the two directories holds a libuplink.a whose encode is given the size,
# as it is since C-16. QUICK=1: fewer rounds.
# A line for each kind of table planned, and one for each table and size encoded:
# the time of the later build, and its ratio to the earlier one.
set -eu
here=$(cd "$(dirname "$0")" && pwd)
if [ $# -ne 2 ] || [ ! -f "$1/libuplink.a" ] || [ ! -f "$2/libuplink.a" ]; then
    echo "usage: bench/before.sh BEFORE NOW, two directories with a libuplink.a" >&2
    exit 2
fi
build=$(mktemp -d)
trap 'rm -rf "$build"' EXIT
# The earlier build's names get a prefix, so that both can be linked.
nm -g --defined-only "$1/libuplink.a" | awk 'NF == 3 { print $3, "before_" $3 }' | sort -u >"$build/names"
objcopy --redefine-syms="$build/names" "$1/libuplink.a" "$build/libbefore.a"
rustc --edition 2021 -C opt-level=3 -C codegen-units=1 -L "$build" -L "$2" "$here/before.rs" -o "$build/before"
"$build/before"
