#!/bin/sh
# assemble.sh PROGRAM: what the program that puts an image together from records writes, to the byte: pieces in any order and twice, records that
# are refused, records that are longer than any, input that is cut, and images that are too long for its buffer.
. tests/expect.sh

# number VALUE: 8 bytes, little-endian
number() {
    left=$1
    for place in 1 2 3 4 5 6 7 8; do
        printf "\\$(printf %03o $((left % 256)))"
        left=$((left / 256))
    done
}

# head_of LENGTH KIND: the head of a record, of a kind below 8
head_of() {
    number "$1"
    printf "\\00$2\\0"
}

open_record() {
    head_of 8 1
    number "$1"
}

close_record() {
    head_of 0 3
}

# piece FILE PLACE: the record of a file's piece
piece() {
    dd if="$1" of="$folder/data" bs=4096 skip="$2" count=1 status=none
    head_of $((8 + $(wc -c <"$folder/data"))) 2
    number $((4096 * $2))
    cat "$folder/data"
}

# image: 10,000 bytes, its kernel of zeros. Its checksum is zlib's.
image=$folder/image
truncate -s 10000 "$image"
put_two_sections "$image"
put_in "$image" 298 '\044\324'
put_in "$image" 544 '\127\241\372\157'
put_in "$image" 570 '\044\324'

rows='eif 2 2\n0 2 548 0\n1 1 560 9428\n'
refused() {
    printf 'refused %s at 0 byte 0\\n' "$@"
}

{ open_record 586; piece samples/worked.eif 0; close_record; } | expect 'the worked example' "$worked"
{ open_record 10000; piece "$image" 0; piece "$image" 1; piece "$image" 2; close_record; } | expect 'three pieces' "$rows"
{ open_record 10000; piece "$image" 2; piece "$image" 0; piece "$image" 2; piece "$image" 1; piece "$image" 0; close_record; } |
    expect 'in another order, some of them twice' "$rows"
{ open_record 10000; piece "$image" 2; close_record; piece "$image" 0; close_record; piece "$image" 1; close_record; } |
    expect 'closed too early, twice' "$(refused 26 26)$rows"
{ open_record 10000; piece "$image" 1; piece "$image" 0; head_of 4104 2; number 4096; head -c 4096 /dev/urandom; piece "$image" 2; close_record; } |
    expect 'a piece with other bytes' "$(refused 25)$rows"
{ piece "$image" 0; close_record; open_record 10000; open_record 10000; } | expect 'out of turn, and not closed' "$(refused 23 23 23)transfer not closed\\n"
{ open_record 586; piece samples/worked.eif 0; close_record; open_record 10000; piece "$image" 1; piece "$image" 0; piece "$image" 2; close_record; } |
    expect 'one transfer after the other' "$worked$rows"
{ open_record 586; head_of 594 2; number 0; head -c 586 /dev/zero; close_record; } | expect 'an image that is refused' "$(refused 3)"
{ open_record 0; close_record; } | expect 'an image of no bytes' "$(refused 2)"
{ open_record 65537; close_record; } | expect 'an image longer than the buffer' "$(refused 24 23)"
{ open_record 1073741825; } | expect 'an image longer than any' "$(refused 1)"
{ open_record 65536; i=0; while [ $i -lt 16 ]; do piece /dev/zero $i; i=$((i + 1)); done; close_record; } |
    expect 'as many pieces as there is room for' "$(refused 3)"
{ open_record 586; head_of 5000 2; head -c 5000 /dev/zero; head_of 100000 7; head -c 100000 /dev/zero; piece samples/worked.eif 0; close_record; } |
    expect 'records longer than any' "$(refused 22 22)$worked"
{ head_of 5000 2; head -c 5000 /dev/zero; open_record 586; piece samples/worked.eif 0; close_record; } |
    expect 'a piece longer than any, with nothing open' "$(refused 23)$worked"
{ open_record 586; printf '\377\377\377\377\377\377\377\377\002\0'; head -c 9000 /dev/zero; } |
    expect 'a length of all ones' "$(refused 22)transfer not closed\\n"
{ open_record 586; piece samples/worked.eif 0 | head -c 300; } | expect 'cut inside a piece' "$(refused 22)transfer not closed\\n"
{ open_record 586; piece samples/worked.eif 0; printf '\0\0\0'; } | expect 'cut inside a head' "$(refused 22)transfer not closed\\n"
: | expect 'no input' ''
