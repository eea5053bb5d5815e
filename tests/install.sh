#!/bin/sh
# install.sh FOLDER CC: what `make install PREFIX=FOLDER` has put there is complete and works: the command, the archive and the shared library with
# what pkg-config says, and both targets of the CMake package.
set -eu
folder=$1
here=$(dirname "$0")
fail() { echo "install: $1"; exit 1; }

version=$(sed -n 's/^#define EIF_VERSION "\(.*\)"/\1/p' include/eif.h)
for file in bin/eif include/eif.h lib/libeif_c.a lib/libeif.a lib/libeif.so "lib/libeif.so.$version" lib/pkgconfig/eif.pc \
    lib/cmake/eif/eif-config.cmake lib/cmake/eif/eif-config-version.cmake share/man/man1/eif.1 share/doc/eif/FORMAT.md share/doc/eif/MANUAL.md; do
    [ -s "$folder/$file" ] || fail "no $file"
done
if grep -q '@[A-Z]*@' "$folder/lib/pkgconfig/eif.pc" "$folder/lib/cmake/eif/"*; then fail 'a name between two @ is left'; fi
[ "$("$folder/bin/eif" --version)" = "eif $version" ] || fail 'the command has another version'
"$folder/bin/eif" check samples/worked.eif >/dev/null

# The documents that the installed header names are installed.
for document in $(grep -o '[A-Za-z/_]*\.md' "$folder/include/eif.h" | sort -u); do
    [ -s "$folder/share/doc/eif/$document" ] || fail "eif.h names $document, which is not installed"
done
"$here/sharedlib.sh" "$folder/lib/libeif.so" "$folder/include/eif.h"

# By pkg-config: with the shared library, and with the archive under its other name.
"$here/need.sh" pkg-config pkg-config --version
PKG_CONFIG_PATH=$folder/lib/pkgconfig
export PKG_CONFIG_PATH
[ "$(pkg-config --modversion eif)" = "$version" ] || fail 'eif.pc has another version'
flags=$(pkg-config --cflags --libs eif)
# shellcheck disable=SC2086
"$2" -std=c99 tests/c/worked.c $flags -o "$folder/worked"
readelf --dynamic "$folder/worked" | grep -q "(NEEDED).*\[libeif.so.${version%.*}\]" || fail 'worked does not need the shared library'
LD_LIBRARY_PATH=$folder/lib "$folder/worked" >/dev/null
# shellcheck disable=SC2086
"$2" -std=c99 -static tests/c/worked.c $flags -o "$folder/worked-static"
"$folder/worked-static" >/dev/null

# By CMake, which finds the package by its prefix.
"$here/need.sh" cmake cmake --version
mkdir -p "$folder/project"
cp tests/c/worked.c tests/c/check.h "$folder/project"
cat >"$folder/project/CMakeLists.txt" <<END
cmake_minimum_required(VERSION 3.13)
project(worked C)
find_package(eif ${version%.*} REQUIRED)
add_executable(shared worked.c)
target_link_libraries(shared eif::eif)
add_executable(static worked.c)
target_link_libraries(static eif::eif_static)
END
cmake -S "$folder/project" -B "$folder/project/build" -DCMAKE_PREFIX_PATH="$folder" -DCMAKE_C_COMPILER="$2" >"$folder/project/log" 2>&1 &&
    cmake --build "$folder/project/build" >>"$folder/project/log" 2>&1 || { cat "$folder/project/log"; fail 'the CMake project'; }
"$folder/project/build/shared" >/dev/null
"$folder/project/build/static" >/dev/null
echo 'install: complete'
