#!/bin/sh
# again.sh MAKE: a second `make staticlib` does not prove and compile the library again.
set -eu
before=$(stat -c %y target/staticlib/libeif_c.a)
"$1" --no-print-directory staticlib >/dev/null
[ "$(stat -c %y target/staticlib/libeif_c.a)" = "$before" ] || { echo 'again: make staticlib proves again what has not changed'; exit 1; }
echo 'again: what has not changed is not proved again'
