#!/bin/sh
# registers.sh IMAGE: the registers of an accepted image as `eif registers` prints them, by coreutils alone. Nothing is judged here.
set -eu
image=$1

# number POSITION BYTES: the big-endian number that stands there
number() {
    value=0
    for byte in $(od -An -v -tu1 -j"$1" -N"$2" "$image"); do
        value=$((value * 256 + byte))
    done
    echo "$value"
}

# sections: type, offset and size of each section, in file order
sections() {
    count=$(number 26 2)
    i=0
    while [ "$i" -lt "$count" ]; do
        offset=$(number $((28 + 8 * i)) 8)
        echo "$(number "$offset" 2) $offset $(number $((284 + 8 * i)) 8)"
        i=$((i + 1))
    done
}

# stream NAME: those of one stream, in file order
stream() {
    ramdisks=0
    echo "$all" | while read -r type offset size; do
        [ "$type" -ne 3 ] || ramdisks=$((ramdisks + 1))
        case "$1 $type" in
        'whole 1' | 'whole 2' | 'whole 3' | 'boot 1' | 'boot 2') keep=1 ;;
        'boot 3') keep=$((ramdisks == 1)) ;;
        'app 3') keep=$((ramdisks > 1)) ;;
        *) keep=0 ;;
        esac
        [ "$keep" -eq 0 ] || echo "$type $offset $size"
    done
}

# data: the data of the sections that come in
data() {
    while read -r type offset size; do
        tail -c +$((offset + 13)) "$image" | head -c "$size"
    done
}

# bytes HEX: these bytes
bytes() {
    rest=$1 numbers=
    while [ -n "$rest" ]; do
        others=${rest#??}
        numbers="$numbers 0x${rest%"$others"}"
        rest=$others
    done
    printf "$(printf '\\%03o' $numbers)"
}

# register NAME: the register of the stream that comes in
register() {
    digest=$(sha384sum)
    value=$({ head -c 48 /dev/zero; bytes "${digest%% *}"; } | sha384sum)
    echo "$1 ${value%% *}"
}

all=$(sections)
stream whole | data | register PCR0
stream boot | data | register PCR1
stream app | data | register PCR2
