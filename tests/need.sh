#!/bin/sh
# need.sh PACKAGE TEST..: sees that a test, a command, ends well, and installs the Debian package that it needs where it does not.
set -u
package=$1
shift
"$@" >/dev/null 2>&1 && exit 0
echo "$* fails: installing the package $package" >&2
DEBIAN_FRONTEND=noninteractive
export DEBIAN_FRONTEND
{ apt-get update -qq && apt-get install -y -qq "$package"; } >/dev/null
"$@" >/dev/null || { echo "$* still fails" >&2; exit 1; }
