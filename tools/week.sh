#!/bin/sh
# Carries a sample correction file through the week: a staircase's table made, the file cut into sources, encoded to blocks,
# packets lost on the way, repaired, verified, and put together again. Ends with status 0 if the file comes back byte for byte.
#
#   tools/week.sh            builds the programs first
#   tools/week.sh DIR        takes staircase_file, table_to_alist, alist_to_table, planlist, encode_file, repair_file, full_repair_file,
#                            merge_file, reason_file and verify_file from DIR

set -eu
root=$(cd "$(dirname "$0")/.." && pwd)
if [ $# -gt 0 ]; then
    bin=$(cd "$1" && pwd)
else
    bin=$root/target/bin
    "$root/tools/build.sh" staircase_file table_to_alist alist_to_table planlist encode_file repair_file full_repair_file merge_file reason_file \
        verify_file
fi
room=$(mktemp -d)
trap 'rm -rf "$room"' EXIT
cd "$room"

# said WHAT EXPECTED GOT: stops where a program says something else
said() {
    case $3 in
        $2) ;;
        *) echo "$1: said '$3', expected '$2'"; exit 1 ;;
    esac
}

# numbers of a byte each, from standard input, as bytes
bytes() {
    printf "$(awk '{ for (i = 1; i <= NF; i++) printf "\\%03o", $i }')"
}

# lose BLOCK FIRST COUNT: so many packets in a row are zero, and the map marks them
lose() {
    dd if=/dev/zero of="$1" bs=$size seek=$2 count=$3 conv=notrunc 2>/dev/null
    awk -v first=$2 -v count=$3 'BEGIN { for (p = 0; p < 64; p++) print (p >= first && p < first + count) }' | bytes >map
}

# spoil BLOCK PLACE BYTE: this byte of the place's packet becomes ff
spoil() {
    printf '\377' | dd of="$1" bs=1 seek=$(($2 * size + $3)) conv=notrunc 2>/dev/null
}

# blames PLACE COUNTS BLOCK: repair must blame the place, print the counts, and bring the block back as it was sent
blames() {
    said "repair_file $3" "packets contradicted: place $1 blamed, and restored from the others
$2" "$("$bin/repair_file" table "$3" map)"
    cmp "$3" block.aa
}

# refuses WORDS PROGRAM ARGUMENT..: the program must say the words on standard error, and neither print nor write the file none
refuses() {
    words=$1
    program=$2
    shift 2
    said "$program $*" '' "$("$bin/$program" "$@" 2>errors)"
    said "$program $*" "$words" "$(cat errors)"
    [ ! -e none ] || { echo "$program $*: wrote a file"; exit 1; }
}

# A small table, number by number, low byte first; and arguments of which no table is made.
said 'staircase_file' 'table of 28 numbers, 4 checks, 19 ones' "$("$bin/staircase_file" 4 8 3 1 1 small)"
said 'the small table' '2 8 1 4 4 5 5 5 19 0 1 3 4 0 2 3 4 5 0 1 2 5 6 1 2 3 6 7' \
    "$(echo $(od -An -v -tu1 small | awk '{ for (i = 1; i < NF; i += 2) print $i + 256 * $(i + 1) }'))"
refuses 'refused 11' staircase_file 4 8 3 2147483647 1 none
refuses 'refused 2' staircase_file 4 8 3 1 1025 none
refuses 'refused 3' staircase_file 64 67 3 1 1 none
refuses 'SEED is not a decimal number below 2^64' staircase_file 4 8 3 -1 1 none
refuses 'SIZE is not a decimal number below 2^64' staircase_file 4 8 3 1 18446744073709551616 none

# The week's table: 40 sources among 64 packets of 64 bytes, three ones in a source column, seed 1.
said 'staircase_file' 'table of 196 numbers, 24 checks, 167 ones' "$("$bin/staircase_file" 40 64 3 1 64 table)"

# goes out as alist text and comes back the same; texts of which no table is made, and a file that is no table
said 'table_to_alist' 'text of 1151 bytes' "$("$bin/table_to_alist" table text)"
said 'alist_to_table' 'table of 196 numbers, 24 checks, 167 ones' "$("$bin/alist_to_table" text 64 again)"
cmp again table
echo "alist text: $(wc -c <text) bytes, read as the same table"
tr ' ' '\t' <text >tabs
refuses 'refused 12: *' alist_to_table tabs 64 none
echo '2 1 1 1 1 0 1 1 0 2' >one_sided
refuses 'refused 13: *' alist_to_table one_sided 64 none
refuses 'refused 2: *' alist_to_table text 1025 none
refuses 'refused 3: *' table_to_alist tabs none

# and a correction file of 9,000 bytes
awk 'BEGIN { x = 1; for (i = 0; i < 9000; i++) { x = (x * 75 + 74) % 65537; print x % 256 } }' | bytes >corrections

"$bin/planlist" <table >plan
echo "table: $(head -n 1 plan), $(tail -n 1 plan)"
# no check is set aside, and the sources lie at the lowest places
said planlist 'places 64 size 64 kept 24 ones 167 gap 0' "$(head -n 1 plan)"
said planlist "info $(seq -s ' ' 0 39)" "$(sed -n 2p plan)"
size=64
source=$((40 * size))
split -b $source corrections source.
echo "correction file: $(wc -c <corrections) bytes, cut into $(ls source.* | wc -l) sources of up to $source bytes"

: >received
start=0
for part in source.*; do
    block=block.${part#source.}
    said "encode_file $part" 'additions *' "$("$bin/encode_file" table "$part" "$block")"
    said "verify_file $block" codeword "$("$bin/verify_file" table "$block")"

    # lost: ten packets in a row, elsewhere in each block
    lose "$block" $start 10
    said "verify_file $block" 'check * fails at byte *' "$("$bin/verify_file" table "$block")"

    counts=$("$bin/repair_file" table "$block" map)
    said "repair_file $block" 'restored 10 lost 0 *' "$counts"
    said "verify_file $block" codeword "$("$bin/verify_file" table "$block")"
    echo "$part: encoded, packets $start to $((start + 9)) lost, $counts, codeword"
    start=$((start + 17))

    # the source packets, in natural order
    head -c "$(wc -c <"$part")" "$block" >source
    cmp source "$part"
    cat source >>received
done

cmp received corrections

# The same plan with packets of 256 bytes: the whole file in one block. The receiver's table has that size; but for the size, planlist
# prints the same of it.
size=256
said 'staircase_file' 'table of 196 numbers, 24 checks, 167 ones' "$("$bin/staircase_file" 40 64 3 1 $size larger)"
"$bin/planlist" <larger >larger_plan
sed 's/ size 64 / size 256 /' plan | cmp - larger_plan
said 'encode_file, 256 bytes' "additions $(sed -n 's/^adds //p' plan)" "$("$bin/encode_file" table corrections sent $size)"
said 'verify_file, 256 bytes' codeword "$("$bin/verify_file" larger sent)"
refuses 'refused 5' verify_file table sent
cp sent block
lose block 17 10
said 'repair_file, 256 bytes' 'restored 10 lost 0 *' "$("$bin/repair_file" larger block map)"
cmp block sent
head -c "$(wc -c <corrections)" block | cmp - corrections
echo 'packets of 256 bytes: the whole file in one block by the same plan, packets 17 to 26 lost and restored'
# B of the paper, which sets a check aside, with packets of two bytes by a table of one: a5 at byte 0 gives P3's block
echo '2 0 4 0 1 0 3 0 3 0 3 0 3 0 9 0 0 0 1 0 2 0 0 0 1 0 3 0 0 0 2 0 3 0' | bytes >b
echo '165 1' | bytes >pair
said 'encode_file, B' 'additions 9' "$("$bin/encode_file" b pair pairs 2)"
said 'the block of B' '0 0 165 1 165 1 165 1' "$(echo $(od -An -v -tu1 pairs))"
# a packet has 1 to 1,024 bytes, and a block of the programs up to 32,768
refuses 'refused 2: a packet has 1 to 1024 bytes' encode_file table corrections none 0
refuses 'refused 2: a packet has 1 to 1024 bytes' encode_file table corrections none 1025
refuses 'SIZE is not a decimal number below 2^64' encode_file table corrections none 64x
refuses 'the block has more than 32768 bytes' encode_file table corrections none 1024
size=64

# Twenty packets in a row, 10 to 29: repair stalls at 17 of them, and full repair restores all.
cp block.aa stalled
lose stalled 10 20
cp stalled full
cp map full_map
said 'repair_file, stalled' 'restored 3 lost 17 *' "$("$bin/repair_file" table stalled map)"
said 'full_repair_file' 'restored 20 lost 0' "$("$bin/full_repair_file" table full full_map)"
cmp full block.aa
echo 'stalled: packets 10 to 29 lost, 3 restored by repair, 20 by full repair'

# The helpdesk asks: packet 29 comes back by seven checks. With packet 30 lost too, six stay lost, and 11 is one of them. The files are only read.
cp block.aa asked
lose asked 10 20
said 'reason_file, restored' 'place 29 is restored by checks 0 2 3 11 13 16 17
restored 20 lost 0' "$("$bin/reason_file" table asked map 29)"
said 'reason_file, received' 'place 9 was received
restored 20 lost 0' "$("$bin/reason_file" table asked map 9)"
lose asked 10 21
cp asked as_it_came
cp map map_as_it_came
said 'reason_file, lost' 'place 11 stays lost: every check meets the lost places 11 17 24 25 29 30 an even number of times
restored 15 lost 6' "$("$bin/reason_file" table asked map 11)"
refuses "refused 14: the place is not below the table's number of places" reason_file table asked map 64
cmp asked as_it_came
cmp map map_as_it_came
echo 'asked: packet 29 restored by seven checks; packets 10 to 30 lost, 11 stays lost with five others'

# Two receivers on one ship: the first lost packets 10 to 29, the second 22 to 41, and each is stalled alone. Merged, 32 agree, 24 were heard by one, and
# the eight that none heard are restored. Whatever BLOCK and MAP held is gone.
cp block.aa one
lose one 10 20
cp map one_map
cp block.aa two
lose two 22 20
cp map two_map
for alone in one two; do
    cp $alone block
    cp ${alone}_map map
    said "repair_file, $alone" 'restored * lost 1* additions *' "$("$bin/repair_file" table block map)"
done
head -c 64 /dev/zero | tr '\000' '\377' >map
said 'merge_file' 'agreed 32 single 24 silent 8 clash 0
restored 8 lost 0 additions 47' "$("$bin/merge_file" table one one_map two two_map block map)"
cmp block block.aa
echo 'two receivers, packets 10 to 29 and 22 to 41 lost: stalled alone; merged, 32 agreed, 24 single, 8 silent and restored'

# A wrong byte in packet 5 at one of them is a clash: neither is believed, and the packet is restored.
spoil two 5 37
said 'merge_file, clash' 'agreed 31 single 24 silent 8 clash 1
restored 9 lost 0 additions *' "$("$bin/merge_file" table two two_map one one_map block map)"
cmp block block.aa
echo 'a wrong byte at one of them, in packet 5: a clash, and restored'

# The same byte wrong at both: packets contradict. Block and map are as merged. Files of other lengths, and a map with a 2, are refused, and nothing is written.
spoil one 5 37
said 'merge_file, contradiction' '' "$("$bin/merge_file" table one one_map two two_map block map 2>errors)"
said 'merge_file, contradiction' 'refused 8: check * fails at byte 37' "$(cat errors)"
awk 'BEGIN { for (p = 0; p < 64; p++) print (p >= 22 && p < 30) }' | bytes | cmp - map
said 'lost packets of the merged block' 512 "$(dd if=block bs=$size skip=22 count=8 2>/dev/null | tr -d '\001-\377' | wc -c)"
refuses "refused 5: a block or map that doesn't have the table's places and packet size" merge_file table one one_map sent two_map none none_map
refuses "refused 7: a receiver's map has a byte over 1" merge_file table one one_map two full_map none none_map
refuses 'refused 2: the first number *' merge_file one one one_map two two_map none none_map
[ ! -e none_map ] || { echo 'merge_file: wrote a map'; exit 1; }
echo "the same wrong byte at both: refused 8, block and map as merged"

# A wrong byte, 37 of the last packet, which lies in the last check alone, and nothing lost. Verification tells check and byte; full repair, which
# blames nobody, refuses; repair blames the place and restores its packet. The map with its 3 isn't taken again.
cp block.aa damaged
spoil damaged 63 37
cp damaged as_it_came
head -c 64 /dev/zero >map
said 'verify_file, damaged' 'check 23 fails at byte 37' "$("$bin/verify_file" table damaged)"
refuses 'refused 8: no codeword agrees with the received packets' full_repair_file table damaged map
cmp damaged as_it_came
blames 63 'restored 1 lost 0 additions 6' damaged
refuses 'refused 7' repair_file table damaged map
echo 'damaged: check 23 fails at byte 37; place 63 blamed and restored'

# Ten packets lost and one wrong: eleven come back. The map has 3 at the one and 2 at the ten.
cp block.aa damaged
lose damaged 17 10
spoil damaged 0 5
blames 0 'restored 11 lost 0 additions 65' damaged
awk 'BEGIN { for (p = 0; p < 64; p++) print (p == 0 ? 3 : p >= 17 && p < 27 ? 2 : 0) }' | bytes | cmp - map
echo 'damaged: packets 17 to 26 lost and a wrong byte in packet 0; place 0 blamed, all restored'

# Two wrong packets: 8 stays, with the lowest check that fails. No place is marked lost, so that the block keeps what it holds.
cp block.aa damaged
spoil damaged 63 37
spoil damaged 0 5
cp damaged as_it_came
head -c 64 /dev/zero >map
refuses 'refused 8: check 0 fails at byte 5' repair_file table damaged map
cmp damaged as_it_came
head -c 64 /dev/zero | cmp - map
echo "two wrong packets: $(cat errors)"

echo "received: the same $(wc -c <received) bytes"
