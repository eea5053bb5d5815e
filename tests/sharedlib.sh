#!/bin/sh
# sharedlib.sh LIBRARY HEADER: the shared library exports exactly the functions that the header declares, its soname has the header's version, it
# needs the C library alone, of it memcpy and memset, and its stack is not executable.
set -eu
fail() { echo "sharedlib: $1"; exit 1; }

version=$(sed -n 's/^#define EIF_VERSION "\(.*\)"/\1/p' "$2")
soname=$(readelf --dynamic "$1" | sed -n 's/.*(SONAME).*\[\(.*\)\]/\1/p')
[ "$soname" = "libeif.so.${version%.*}" ] || fail "its soname is $soname"

declared=$(grep -o '^EIF_MUST_USE eif_[a-z0-9_]* eif_[a-z0-9_]*' "$2" | awk '{ print $3 }' | sort)
exported=$(nm --dynamic --defined-only --without-symbol-versions "$1" | awk '$2 == "T" { print $3 }' | sort)
[ "$exported" = "$declared" ] || fail "exports $exported, the header declares $declared"
others=$(nm --dynamic --defined-only "$1" | awk '$2 != "T" && $2 != "A" { print $3 }')
[ -z "$others" ] || fail "also exports $others"

needed=$(readelf --dynamic "$1" | sed -n 's/.*(NEEDED).*\[\(.*\)\]/\1/p')
[ "$needed" = libc.so.6 ] || fail "needs $needed"
used=$(nm --dynamic --undefined-only --without-symbol-versions "$1" | awk '$1 == "U" { print $2 }' | sort | tr '\n' ' ')
[ "$used" = 'memcpy memset ' ] || fail "uses $used"
readelf --program-headers --wide "$1" | grep -q 'GNU_STACK.* RW ' || fail 'its stack is executable'
echo 'sharedlib: exports what the header declares, needs memcpy and memset'
