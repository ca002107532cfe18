#!/usr/bin/env bash
# Proves and builds the libraries for C and the programs over files, over what earlier checks kept.
#
#   tools/build.sh            target/staticlib/lib{receiver,uplink,tables}.a and target/bin/PROGRAM
#   tools/build.sh NAME..     these of them alone
set -euo pipefail
cd "$(dirname "$0")/.."
libraries="receiver uplink tables"
programs="planlist staircase_file table_to_alist alist_to_table encode_file repair_file full_repair_file merge_file reason_file verify_file check_value"
names=${*:-$libraries $programs}
mkdir -p target/staticlib target/bin
log=$(mktemp)
trap 'rm -f "$log"' EXIT

# built NAME COMMAND..: runs the command in the crate's folder; the whole log only where it fails
built() {
    local name=$1
    shift
    (cd "crates/$name" && "$@") >"$log" 2>&1 </dev/null || {
        cat "$log"
        echo "$name was not built" >&2
        exit 1
    }
    echo "built $name"
}

for name in $names; do
    case " $libraries " in
        *" $name "*)
            built "$name" rt lib
            cp "crates/$name/out/lib$name.a" target/staticlib/
            ;;
        *)
            built "$name" rt run
            cp "crates/$name/out/$name" target/bin/
            ;;
    esac
done
