#!/bin/sh
# Builds and runs the benchmarks: bench/run.sh [DIR]
# DIR, or LIBDIR, holds libreceiver.a, libuplink.a and libtables.a (default: the
# current directory); each of them that is there is measured. QUICK=1: fewer
# rounds.
# A line for each table as its turn comes, then all figures, then the marks.
# The ratios are what to go by; times are medians in microseconds.
set -eu
here=$(cd "$(dirname "$0")" && pwd)
dir=${1:-${LIBDIR:-.}}
build=$(mktemp -d)
trap 'rm -rf "$build"' EXIT
parts=
for part in uplink receiver tables; do
    if [ -f "$dir/lib$part.a" ]; then
        parts="$parts --cfg $part"
    else
        echo "no lib$part.a in $dir" >&2
    fi
done
if [ -z "$parts" ]; then
    echo "nothing to measure" >&2
    exit 2
fi
# $parts is words.
rustc --edition 2021 -C opt-level=3 -C codegen-units=1 $parts -L "$dir" "$here/bench.rs" -o "$build/bench"
"$build/bench"
