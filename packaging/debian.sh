#!/bin/sh
# SPDX-License-Identifier: MIT
#
# Builds Debian packages from a release: unpacks it, adds packaging/debian as debian/, and runs dpkg-buildpackage, which
# writes the binary packages and the source package into DIRECTORY. DEBFULLNAME and DEBEMAIL name you as the maintainer.
#
#     DEBFULLNAME=NAME DEBEMAIL=ADDRESS packaging/debian.sh minisign-in-rattle-VERSION.tar.gz DIRECTORY
#
# On Debian, `apt install build-essential debhelper libsodium-dev pkg-config` installs everything that the script needs. The
# packages are not signed, and nothing is uploaded.
set -eu
if [ $# != 2 ] || [ -z "${DEBFULLNAME-}" ] || [ -z "${DEBEMAIL-}" ]; then
    sed -n 's/^#     //p' "$0" >&2
    exit 2
fi
archive=$1
mkdir -p "$2"
directory=$(cd "$2" && pwd)
top=$(tar -tzf "$archive" | sed -n '1s,/.*,,p')
version=${top##*-}
cp "$archive" "$directory/minisign-in-rattle_$version.orig.tar.gz"
tar -xzf "$archive" -C "$directory"
cd "$directory/$top"
cp -R packaging/debian debian

# Debian requires that the name of the shared library's package contains the version in its soname.
abi=$(make -s --no-print-directory -C c soname | sed 's/^libminisign\.so\.//')
# The files of a release have its date.
date=$(date -u -R -r CHANGELOG.md)
maintainer=$(printf '%s <%s>' "$DEBFULLNAME" "$DEBEMAIL" | sed 's/[\\&|]/\\&/g')
sed -i "s|@VERSION@|$version|g; s|@ABI@|$abi|g; s|@DATE@|$date|g; s|@MAINTAINER@|$maintainer|g" debian/control debian/changelog
mv debian/libminisign.install "debian/libminisign$abi.install"
dpkg-buildpackage -us -uc
