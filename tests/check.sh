#!/bin/sh
# check.sh PROGRAM: what the program for input of any size writes, to the byte: rows, refusal lines, a pipe that brings a byte at a time,
# the longest image, and files past 32 bits, of which the program reads as far as the first piece past the limit. The large files are sparse and
# take no room.
. tests/expect.sh

# zeros LENGTH: an input of zeros
zeros() {
    rm -f "$folder/input"
    truncate -s "$1" "$folder/input"
}

# byte_by_byte FILE: the file, each byte by a process of its own
byte_by_byte() {
    length=$(wc -c <"$1")
    i=0
    while [ "$i" -lt "$length" ]; do
        dd if="$1" bs=1 skip="$i" count=1 status=none
        i=$((i + 1))
    done
}

# longest LENGTH: the longest image in a file of that length, its kernel of zeros. Its checksum is zlib's.
longest() {
    zeros "$1"
    put_two_sections "$folder/input"
    put_in "$folder/input" 296 '\077\377\375\304'
    put_in "$folder/input" 544 '\321\247\272\373'
    put_in "$folder/input" 568 '\077\377\375\304'
}

expect_worked
python3 -c '
from zlib import crc32
image = open("samples/worked.eif", "rb").read()
assert crc32(image[:544] + image[548:]) == int.from_bytes(image[544:548], "big") == 0x86c22731
'
echo "$script: the checksum of the worked example is zlib's: ok"
byte_by_byte samples/worked.eif | expect 'a byte at a time, by a pipe' "$worked"
{ head -c 300 samples/worked.eif; sleep 0.1; tail -c +301 samples/worked.eif; } | expect 'in two parts, by a pipe' "$worked"
head -c 547 samples/worked.eif | expect '547 bytes, by a pipe' 'refused 2 at 0 byte 0\n'
for length in 32767 32768 32769 65536 65537 1000000; do
    zeros "$length"
    expect_of_input "$length bytes" 'refused 3 at 0 byte 0\n'
done
most=$(sed -n 's/^#define EIF_MAX_IMAGE_LENGTH //p' include/eif.h)
longest "$most"
expect_of_input 'the longest image' "eif 2 2\\n0 2 548 0\\n1 1 560 $((most - 572))\\n"
longest $((most + 1))
expect_of_input 'a byte more than the longest' 'refused 1 at 0 byte 0\n'
for length in 3G 5G; do
    zeros "$length"
    expect_of_input "a file of $length" 'refused 1 at 0 byte 0\n'
done
