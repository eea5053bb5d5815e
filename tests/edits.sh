#!/bin/sh
# edits.sh LOG: of the proofs, whose log this is: no must-fail edit was refused only because it names what is not there, which would show nothing.
set -eu
if grep -E '^rt: must-fail .*(BAD EDIT|is not in scope|can be named from here|only because a proof file names)' "$1"; then
    echo 'edits: such an edit names what is not there'
    exit 1
fi
