#!/bin/sh
# Checks set aside in regular tables, by the old rule and by C-18's:
# bench/gaps.sh DIR [TABLES [SEED]]
# DIR holds a libuplink.a, since C-20. So many tables of each size (default: 200)
# are made from the seed (default: 1).
# A line for each rule: the least, median and largest gap, the tables refused with
# 6 by the limit of the rule's time, those over the present limit, and the additions
# of a plan. Status 1 if the library and the model differ.
set -eu
here=$(cd "$(dirname "$0")" && pwd)
if [ $# -lt 1 ] || [ $# -gt 3 ] || [ ! -f "$1/libuplink.a" ]; then
    echo "usage: bench/gaps.sh DIR [TABLES [SEED]], a directory with a libuplink.a" >&2
    exit 2
fi
dir=$1
shift
build=$(mktemp -d)
trap 'rm -rf "$build"' EXIT
rustc --edition 2021 -C opt-level=3 -C codegen-units=1 -L "$dir" "$here/gaps.rs" -o "$build/gaps"
"$build/gaps" "$@"
