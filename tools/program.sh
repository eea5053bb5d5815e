#!/bin/sh
# program.sh RT NAME FOLDER: proves and builds a program, and puts it into FOLDER. What `rt ci` or an earlier call has built is taken where no
# source is newer.
set -eu
home=$PWD
mkdir -p "$3"
built=crates/$2/out/$2
is_fresh() {
    [ -x "$built" ] && [ -z "$(find crates.txt crates/*/src crates/*/specs crates/*/proofs -newer "$built" | head -n 1)" ]
}
if ! is_fresh; then
    echo "proving and building $2 first: some minutes" >&2
    rm -f "$built"
    # The program runs too, on no input, and may end with any status: it was built where its file is there.
    (cd "crates/$2" && "$1" run </dev/null >"$home/$3/$2.log" 2>&1) || [ -x "$built" ] || { cat "$3/$2.log"; exit 1; }
fi
install -m 755 "$built" "$3/$2"
