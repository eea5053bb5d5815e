#!/bin/sh
# show.sh PROGRAM: what the small program writes, to the byte: rows, refusal lines, and input that is too long.
. tests/expect.sh

expect_worked
head -c 65536 /dev/zero >"$folder/input"
expect_of_input '65,536 bytes' 'refused 3 at 0 byte 0\n'
head -c 65537 /dev/zero >"$folder/input"
expect_of_input '65,537 bytes' 'input over 65536\n'
