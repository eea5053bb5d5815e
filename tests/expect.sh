# Read by the scripts that run the small programs, with the program as $1: a folder for files, and what a program writes held to the byte.
set -eu
program=$1
script=$(basename "$0" .sh)
folder=$(mktemp -d)
trap 'rm -rf "$folder"' EXIT

# expect WHAT LINES: of what is piped in
expect() {
    "$program" >"$folder/output"
    printf "$2" >"$folder/expected"
    cmp -s "$folder/output" "$folder/expected" || { echo "$script: $1: wrong output:"; cat "$folder/output"; exit 1; }
    echo "$script: $1: ok"
}

# expect_of_input WHAT LINES: of the file `input`
expect_of_input() {
    expect "$@" <"$folder/input"
}

# put_in FILE POSITION OCTAL: these bytes at a position of the file
put_in() {
    printf "$3" | dd of="$1" bs=1 seek="$2" conv=notrunc status=none
}

# put_two_sections FILE: header and section headers of an image, in a file of zeros: an empty command line at 548 and a kernel at 560. Its
# size and its checksum are left to be put.
put_two_sections() {
    put_in "$1" 0 '.eif\0\002'
    put_in "$1" 27 '\002'
    put_in "$1" 34 '\002\044'
    put_in "$1" 42 '\002\060'
    put_in "$1" 549 '\002'
    put_in "$1" 561 '\001'
}

worked='eif 2 3\n0 1 548 1\n1 2 561 1\n2 3 574 0\n'

# The worked example, and what is near it.
expect_worked() {
    cat samples/worked.eif >"$folder/input"
    expect_of_input 'the worked example' "$worked"
    : >"$folder/input"
    expect_of_input 'no input' 'refused 2 at 0 byte 0\n'
    { head -c 560 samples/worked.eif; printf x; tail -c +562 samples/worked.eif; } >"$folder/input"
    expect_of_input 'a byte of the kernel changed' 'refused 13 at 0 byte 544\n'
    { cat samples/worked.eif; printf x; } >"$folder/input"
    expect_of_input 'a byte more, checksum not mended' 'refused 20 at 0 byte 586\n'
    head -c 585 samples/worked.eif >"$folder/input"
    expect_of_input 'a byte less' 'refused 7 at 2 byte 44\n'
}
