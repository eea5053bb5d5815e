#!/bin/sh
# archive.sh ARCHIVE HEADER: the archive needs memcpy and memset alone, and has exactly the functions that the header declares.
set -eu
fail() { echo "archive: $1"; exit 1; }

needed=$(nm --undefined-only "$1" | awk '$1 == "U" { print $2 }' | sort -u | tr '\n' ' ')
[ "$needed" = 'memcpy memset ' ] || fail "needs $needed"

defined=$(nm --defined-only --extern-only "$1" | awk '$2 == "T" { print $3 }' | sort)
declared=$(grep -o '^EIF_MUST_USE eif_[a-z0-9_]* eif_[a-z0-9_]*' "$2" | awk '{ print $3 }' | sort)
[ "$defined" = "$declared" ] || fail "has $defined, the header $declared"
echo 'archive: needs memcpy and memset, has what the header declares'
