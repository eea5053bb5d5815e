#!/bin/sh
# cbor2.sh: prints the command of a Python that has cbor2, an encoder of CBOR that shares nothing with the library.
# Where there is none, Debian's package is installed; where that fails, a line says so, and tests/sign1.py has an
# encoder of its own.
set -eu
if python3 -c 'import cbor2' 2>/dev/null; then
    echo python3
elif timeout 120 "$(dirname "$0")/need.sh" python3-cbor2 /usr/bin/python3 -c 'import cbor2'; then
    echo /usr/bin/python3
else
    echo 'no Python here has cbor2: tests/sign1.py encodes by itself' >&2
    echo python3
fi
