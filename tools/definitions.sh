#!/bin/sh
# The files of definitions, in the order of reading, cite files of definitions only, so that a reader opens no file of laws.
# Gf2 alone cites laws: it makes its groups of them. Prints each file; the last line is 'N passed, M failed'.
set -eu
cd "$(dirname "$0")/.."

files='lists/Lists gf2/Gf2 refusals/Refusals
table/FirstCause table/Table table/Packets table/PacketCall table/Codewords
making/Written making/Making draws/Generator fill/Fill staircase/Stairs staircase/Staircase
numerals/Numerals numbers/Numbers alist/Alist alist/AlistText
faults/Faults verify/Verify erasure/Restoring erasure/Orders erasure/Offered report/Report suspects/Blame repair/Repair aerials/Aerials merge/Merge longer/Longer entering/Entering lengthen/Lengthen lengthen/Carrying decided/Decided full/Full reasons/Reasons explain/Kinds why/Why
plan/Step plan/Steps plan/Layout rule/Rule rule/PlanOf planning/Planning encoder/Encoding start/Kept
table_file/Words text/Lines plan_text/PlanText listing/Listing
receiver/Answers encoder/Answers uplink/Answers tables/Answers'

# what a file cites: crate/File, and 'declared' for the structs and enums of its own code
cited() {
    sed -n 's/^\(pub \|unfoldable \)*use Rattle\.\([a-z0-9_]*\)\.\(specs\|proofs\)\.\([A-Za-z0-9]*\)\..*/\2\/\4/p' "$1" |
        grep -v '^\(std\|io\)/' | sort -u
}

passed=0
failed=0
for file in $files; do
    law=
    for name in $(cited "crates/${file%/*}/specs/${file#*/}.antt"); do
        case $file:$name in
            gf2/Gf2:lists/Tests | gf2/Gf2:gf2/Xor | *:*/declared) ;;
            *) case " $(echo $files) " in *" $name "*) ;; *) law="$law $name" ;; esac ;;
        esac
    done
    if [ -z "$law" ]; then
        echo "$file"
        passed=$((passed + 1))
    else
        echo "$file cites$law"
        failed=$((failed + 1))
    fi
done
echo "$passed passed, $failed failed"
[ "$failed" -eq 0 ]
