#!/bin/sh
# staticlib.sh RT FOLDER: proves the calls for C and Rust, and all that they stand on, and puts the archive libeif_c.a into FOLDER. It is compiled
# for every x86-64 processor.
set -eu
home=$PWD
mkdir -p "$2"
(cd crates/eif_c && "$1" lib --cpu x86-64 >"$home/$2/log" 2>&1) || { cat "$2/log"; exit 1; }
install -m 644 crates/eif_c/out/libeif_c.a "$2/libeif_c.a"
