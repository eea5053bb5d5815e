#!/bin/sh
# cargo.sh CARGO: says nothing where the Rust code can be built. Where cargo is missing or too old, Debian's newest is installed: cargo-web, with
# rustc-web, which Debian 12 has beside an older cargo; or else cargo. Where that does not help, it says which cargo is needed.
# cargo.sh --found CARGO: whether the cargo here is new enough.
set -eu
here=$(dirname "$0")
wanted=$(sed -n 's/^rust-version = "\(.*\)"/\1/p' "$here/../rust/Cargo.toml")

version() { "$1" --version 2>/dev/null | awk '{ print $2 }'; }

if [ "$1" = --found ]; then
    found=$(version "$2")
    [ -n "$found" ] && [ "$(printf '%s\n%s\n' "$wanted" "$found" | sort -V | head -n 1)" = "$wanted" ]
    exit
fi
"$here/need.sh" cargo-web "$0" --found "$1" && exit 0
# Where there is a package cargo-web, cargo would take its place and be older.
apt-cache show cargo-web >/dev/null 2>&1 || ! "$here/need.sh" cargo "$0" --found "$1" || exit 0
found=$(version "$1")
echo "the Rust code was not built or tested: it needs cargo $wanted or newer, here is ${found:-none} (https://rustup.rs has it, and Debian 13)"
exit 1
