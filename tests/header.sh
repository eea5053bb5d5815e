#!/bin/sh
# header.sh CC: what eif.h makes a compiler refuse.
set -eu
refused() {
    what=$1
    text=$2
    shift 2
    if printf '#include "eif.h"\n%s\n' "$text" | "$@" -std=c99 -Werror -S -o - -Iinclude -x c - >/dev/null 2>&1; then
        echo "header: $what: compiles"
        exit 1
    fi
    echo "header: $what: refused"
}
printf '#include "eif.h"\n' | "$1" -std=c99 -Wall -Werror -fsyntax-only -Iinclude -x c -
refused 'an answer that is not looked at' 'void f(void) { eif_read(0, 0); }' "$1"
refused 'a file position for a stream position' \
    'uint8_t f(eif_file_position p) { return eif_copy_whole(0, 0, p, 0, 0).number; }' "$1"
refused 'another processor' '' "$1" -U__x86_64__
