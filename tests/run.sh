#!/bin/sh
# Builds and runs the tests against the static libraries.
#
#   tests/run.sh [-d DIR] [receiver] [uplink] [tables] [all] [planlist]
#
# DIR, or LIBDIR, holds libreceiver.a, libuplink.a and libtables.a (default: the
# current directory). Without names: each part that is there. all links the
# three into one program. planlist is the program that PLANLIST names, or
# DIR/planlist.
#
# SEED, COUNT   of the random cases; each part has its own default count
# TIMEOUT       seconds for one program (default: 900)
# BUILD         where programs are built (default: a directory that is removed)
# CC, CLIBS     C compiler, and the libraries C examples need besides
#
# The last line adds up all cases: N passed, M failed.

set -u
here=$(cd "$(dirname "$0")" && pwd)
root=$(dirname "$here")
dir=${LIBDIR:-.}
parts=
while [ $# -gt 0 ]; do
    case $1 in
        -d) dir=$2; shift ;;
        receiver|uplink|tables|all|planlist) parts="$parts $1" ;;
        *) echo "usage: run.sh [-d DIR] [receiver] [uplink] [tables] [all] [planlist]" >&2; exit 2 ;;
    esac
    shift
done
PLANLIST=${PLANLIST:-$dir/planlist}
export PLANLIST
if [ -z "$parts" ]; then
    for part in receiver uplink tables; do
        [ -f "$dir/lib$part.a" ] && parts="$parts $part"
    done
    [ "$parts" = " receiver uplink tables" ] && parts="$parts all"
    [ -x "$PLANLIST" ] && parts="$parts planlist"
    if [ -z "$parts" ]; then
        echo "nothing to test in $dir" >&2
        exit 2
    fi
fi

if [ -n "${BUILD:-}" ]; then
    build=$BUILD
    mkdir -p "$build"
else
    build=$(mktemp -d)
    trap 'rm -rf "$build"' EXIT
fi

passed=0
failed=0
seed=${SEED:-1}

# One thing that passes or fails as a whole: a name, then the command.
whole() {
    name=$1
    shift
    if "$@"; then
        passed=$((passed + 1))
    else
        echo "failed: $name"
        failed=$((failed + 1))
    fi
}

# A program whose last line counts its cases.
cases() {
    name=$1
    shift
    echo "$name"
    timeout "${TIMEOUT:-900}" "$@" >"$build/out" 2>&1
    status=$?
    grep -v '^[0-9]* passed, [0-9]* failed$' "$build/out"
    last=$(tail -n 1 "$build/out")
    case $last in
        *" passed, "*" failed")
            p=${last%% *}
            f=${last#* passed, }
            f=${f%% *}
            ;;
        *)
            p=0
            f=1
            ;;
    esac
    [ "$status" -ne 0 ] && [ "$f" -eq 0 ] && f=1
    echo "  $p passed, $f failed"
    passed=$((passed + p))
    failed=$((failed + f))
}

rust() {
    rustc --edition 2021 -O -L "$dir" "$1" -o "$build/$2"
}

# An example, then the libraries that it needs.
c_example() {
    source=$1
    shift
    for library; do
        set -- "$@" "$dir/lib$library.a"
        shift
    done
    # shellcheck disable=SC2086
    ${CC:-cc} -std=c99 -Wall -Wextra -I "$root/include" "$root/examples/$source.c" \
        "$@" ${CLIBS:--lpthread -ldl -lm} -o "$build/${source}_c"
}

example() {
    echo "examples of $1"
    whole "building examples/$1.c" c_example "$1" "$1"
    whole "examples/$1.c" "$build/${1}_c"
    whole "building examples/$1.rs" rust "$root/examples/$1.rs" "${1}_rs"
    whole "examples/$1.rs" "$build/${1}_rs"
}

# Exact buffers without guards, so that reads outside are seen too.
memory() {
    if command -v valgrind >/dev/null; then
        cases "$1 under valgrind" valgrind -q --error-exitcode=1 "$build/$1" "$seed" "$2" 0 bare
    else
        echo "valgrind isn't installed: passed over"
    fi
}

for part in $parts; do
    case $part in
        receiver|uplink|tables)
            whole "building compare_$part" rust "$here/compare_$part.rs" "compare_$part"
            # shellcheck disable=SC2086
            cases "compare_$part" "$build/compare_$part" "$seed" ${COUNT:-}
            few=112
            [ "$part" = receiver ] && few=192
            [ "$part" = tables ] && few=960
            memory "compare_$part" "$few"
            example "$part"
            ;;
        all)
            echo "examples of all libraries"
            whole "building examples/week.c" c_example week tables uplink receiver
            whole "examples/week.c" "$build/week_c"
            ;;
        planlist)
            whole "building compare_planlist" rust "$here/compare_planlist.rs" compare_planlist
            # shellcheck disable=SC2086
            cases "compare_planlist" "$build/compare_planlist" "$seed" ${COUNT:-}
            ;;
    esac
done

echo "$passed passed, $failed failed"
[ "$failed" -eq 0 ]
