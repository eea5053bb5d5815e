#!/bin/sh
# sharedlib.sh CC ARCHIVE FOLDER: links the archive to FOLDER/libeif.so.VERSION, which exports the functions that include/eif.h declares and no other
# name. Its soname has the first two numbers of the version: before version 1.0, the second changes where a struct or a call does.
set -eu
header=$(dirname "$0")/../include/eif.h
version=$(sed -n 's/^#define EIF_VERSION "\(.*\)"/\1/p' "$header")
abi=${version%.*}
mkdir -p "$3"
{
    echo "EIF_$abi {"
    echo '    global:'
    sed -n 's/^EIF_MUST_USE [a-z0-9_]* \([a-z0-9_]*\)(.*/        \1;/p' "$header"
    echo '    local:'
    echo '        *;'
    echo '};'
} >"$3/libeif.map"
"$1" -shared -o "$3/libeif.so.$version" -Wl,-soname,"libeif.so.$abi" -Wl,--version-script,"$3/libeif.map" -Wl,-z,defs -Wl,-z,relro -Wl,-z,now \
    -Wl,--whole-archive "$2" -Wl,--no-whole-archive
ln -sf "libeif.so.$version" "$3/libeif.so.$abi"
ln -sf "libeif.so.$abi" "$3/libeif.so"
