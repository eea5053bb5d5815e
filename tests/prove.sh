#!/bin/sh
# prove.sh RT FOLDER: proves everything with the kit's command, as `rt ci`. What it says is kept as FOLDER/ci.log, and its last line, the verdict,
# as FOLDER/verdict. The status is that of the command; a must-fail edit that cannot be tried fails too.
set -u
mkdir -p "$2" || exit 1
{ "$1" ci; echo $? >"$2/status"; } | tee "$2/ci.log"
tail -n 1 "$2/ci.log" >"$2/verdict"
case $(cat "$2/verdict") in
*" passed, 0 failed") ;;
*) exit 1 ;;
esac
if grep '^rt: ok.*, [0-9]* bad' "$2/ci.log" >/dev/null; then
    echo 'prove: a must-fail edit is bad' >&2
    exit 1
fi
exit "$(cat "$2/status")"
