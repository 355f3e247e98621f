# What is printed of a file, and what is said of it: a listing and nothing, or a refusal and its meaning.

for file in examples/*.fdo; do
    name=$(basename "$file" .fdo)
    text=$(cat "tests/dump/expected/$name.txt")
    status=0
    words=
    case $name in
    byte-left) words=$(refused 16 "the first byte left over is $(in_data 5 18)") ;;
    byte-missing) words=$(refused 13 "the item that starts at $(in_data 4 18)") ;;
    odd-indicator) words=$(refused 24 "the item that starts at $(in_data 34 54)") ;;
    refers-forward) words=$(refused 8 "the triplet that starts at $(in_descriptor 0)") ;;
    wrong-size) words=$(refused 19 'its two sizes ask for 18 bytes of descriptor and 5 of data, 31 bytes with the sizes, and it has only 30') ;;
    esac
    [ -z "$words" ] || status=1
    expect "$name" "$status" "$text" "$words" ./dump "$file"
    expect "$name on standard input" "$status" "$text" "$words" sh -c "./dump <$file"
done

shown=$(./dump examples/byte-missing.fdo 2>&1 | sed 's/^/    /')
expect 'the refusal that README shows' 0 "$shown" '' sh -c 'grep -A 2 -xF "    $ ./dump examples/byte-missing.fdo" README.md | tail -n 2'

# file NAME HEX STATUS TEXT WORDS: the file of these bytes gives this
file() {
    bytes "$2" >"$work/block"
    expect "$1" "$3" "$4" "$5" ./dump "$work/block"
}
sizes='its two sizes ask for'
over() { refused 1 "$sizes $1 bytes of descriptor (4096 at most) and $2 of data (32768 at most)"; }
file 'empty file' '' 1 'refused 19 0' "$(refused 19 'it has 0 bytes, and its two sizes alone take 8')"
file 'seven bytes' 00000000000000 1 'refused 19 0' "$(refused 19 'it has 7 bytes, and its two sizes alone take 8')"
file 'descriptor over its limit' 0000100100000000 1 'refused 1 0' "$(over 4097 0)"
file 'data over their limit' 0000000000008001 1 'refused 1 0' "$(over 0 32769)"
file 'sizes of 32 bits' FFFFFFFFFEFDFCFB 1 'refused 1 0' "$(over 4294967295 4278058235)"
{ cat examples/paper.fdo; head -c 1000000 /dev/zero; } >"$work/long"
longer="$sizes 18 bytes of descriptor and 5 of data, 31 bytes with the sizes, and it goes on after them"
expect 'a file longer than any block' 1 'refused 19 0' "$(refused 19 "$longer")" ./dump "$work/long"
endless="$sizes 0 bytes of descriptor and 0 of data, 8 bytes with the sizes, and it goes on after them"
expect 'a file without an end' 1 'refused 19 0' "$(refused 19 "$endless")" timeout 60 ./dump /dev/zero

# refuses NUMBER PLACE WHERE DESCRIPTOR DATA: a block of these, in hexadecimal, is refused so
refuses() {
    block "$work/block" "$4" "$5"
    expect "number $1 at $2" 1 "refused $1 $2" "$(refused "$1" "$3")" ./dump "$work/block"
}
# triplet NUMBER PLACE DESCRIPTOR: the same, of a triplet
triplet() { refuses "$1" "$2" "the triplet that starts at $(in_descriptor "$2")" "$3" 61; }
# item NUMBER PLACE DESCRIPTOR DATA: the same, of an item
item() { refuses "$1" "$2" "the item that starts at $(in_data "$2" $((${#3} / 2)))" "$3" "$4"; }

S=0C70B1810000000000000003
twice=0671A1B10002
triplet 2 12 "${S}0171"
triplet 3 12 "${S}0272"
triplet 4 12 "${S}067F00B10001"
triplet 5 18 "$S${twice}0571A2B100"
triplet 6 12 "${S}0C7000810000000000000003"
triplet 6 0 0C70B1480000000000000010
triplet 7 12 "$S$S"
triplet 8 12 "${S}0671A1B20001"
triplet 9 12 "${S}0671A1B100000671A2B10001"
triplet 9 18 "${S}0675D1B100020671A1D10101"
triplet 10 18 "${S}0671A1B100400671A2A10041"
triplet 10 18 "${S}0671A1B100400671A2A100410671A3A20000"
triplet 21 12 "${S}0675D1B18000"
triplet 21 18 "${S}0675D1B10002067F00B18000"
triplet 22 12 0C70B10100000000000000000671A1B10000
triplet 22 18 0C70B10100000000000000000671A1B10002067F00B10000
nothing='no field and no row before its end,'
refuses 11 0 "$nothing $(in_descriptor 0)" '' ''
refuses 11 5 "$nothing $(in_descriptor 5)" 057E000000 61
item 13 4 "$S$twice" 00616263
item 13 8 "0C70B1400000000000000000$twice" 416800000000000041680000000000
item 13 4 "${S}0975D1B10000B10001" 0061626300
item 14 3 "0C70B1020000000000010004$twice" 0001610005
item 15 2 "0C70B1030000000000010002$twice" 6100616263
item 24 0 "$S$twice" 01
item 24 4 "$S$twice" 006162637F616263
item 24 3 "0C70B1A30000000000000002$twice" 0000074000
refuses 16 5 "the first byte left over is $(in_data 5 18)" "$S$twice" 006162638000
many=$(for id in {1..30}; do printf '0C70%02X010000000000000003' "$id"; done)
item 13 0 "$many" 6162

# a row of table 5-29 of DRDA Volume 1, its group without a null indicator and its text a string of bytes
columns=0C7005A400000000000000020C700BC700000000000000080C7033820000000000017FFF0C75D00500020B0008330014
block "$work/block" "$columns" FF000AD7A3703DE26540000004C6D9C5C4
expect 'a row of columns' 0 $'items 3 bytes 17\n0 0 164 null\n1 1 199 8\n2 10 130 4' '' ./dump "$work/block"

# rows to the end: none, three, one that is cut, and one item too many, of rows alone and behind 4,096 items of no bytes
rows=${S}0671A1B10000
block "$work/block" "$rows" ''
expect 'no row' 0 'items 0 bytes 0' '' ./dump "$work/block"
block "$work/block" "$rows" 006162638000414243
expect 'three rows' 0 $'items 3 bytes 9\n0 0 129 3\n1 4 129 null\n2 5 129 3' '' ./dump "$work/block"
item 13 5 "$rows" 00616263800041
item 24 5 "$rows" 00616263800141
too_many='the first one too many starts at'
refuses 10 4096 "$too_many $(in_data 4096 18)" "$rows" "$(printf '80%.0s' {1..4097})"
refuses 10 0 "$too_many $(in_data 0 45)" 0C70B10100000000000000000671A1B100400671A2A10040"${S/B1/B2}"0971A3A20001B20000 80

{ bytes 0000000E000080000E70B10100000000000000081000; head -c 32768 /dev/zero; } >"$work/full"
expect 'the largest block' 0 'items 4096 bytes 32768' '' sh -c "./dump $work/full >$work/listing && head -n 1 $work/listing"
expect 'the last item of the largest block' 0 '4095 32760 1 8' '' tail -n 1 "$work/listing"
