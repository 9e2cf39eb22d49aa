#!/bin/sh
# SPDX-License-Identifier: MIT
#
# Builds a static libsodium for Windows from Debian's source package, with mingw-w64. `make -C c CC=..-mingw32-gcc` calls
# this script.
#
#     tools/windows_libsodium.sh TARGET DIRECTORY
#
# TARGET is the compiler's target, such as x86_64-w64-mingw32. The headers, the library and its licence are installed into
# DIRECTORY.
# The sources are downloaded once, into a directory beside it. The script has a list of source packages (deb-src) of its
# own, and changes no list of the system. apt-get verifies Debian's signature.
#
# Needs a Debian system and its packages dpkg-dev, autoconf, automake, libtool and gcc-mingw-w64-x86-64.
set -eu
# make exports its variables. autoconf reads WARNINGS, and the others are not for libsodium.
unset WARNINGS MAKEFLAGS MFLAGS MAKEOVERRIDES CC CFLAGS CPPFLAGS LDFLAGS
target=$1
mkdir -p "$2"
prefix=$(cd "$2" && pwd)
sources=$(dirname "$prefix")/libsodium-sources

for program in apt-get dpkg-source autoreconf libtoolize automake flock "$target-gcc"; do
    command -v "$program" >/dev/null || {
        echo "windows_libsodium.sh: $program is missing: install dpkg-dev, autoconf, automake, libtool and" >&2
        echo "gcc-mingw-w64-x86-64, or name another build of libsodium by SODIUM_PREFIX=" >&2
        exit 1
    }
done

# Only one process downloads and builds.
exec 9>"$prefix.lock"
flock 9
test ! -e "$prefix/lib/libsodium.a" || exit 0

# Downloads the source package of libsodium for this release of Debian, from the mirror that apt uses.
download() {
    . /etc/os-release
    mirror=$(apt-get indextargets --format '$(SITE)' | grep -m1 -E '/debian/?$') || mirror=http://deb.debian.org/debian
    mkdir -p "$sources/parts" "$sources/lists/partial" "$sources/cache/archives/partial" || return 1
    cat >"$sources/parts/debian.sources" <<EOF
Types: deb-src
URIs: $mirror
Suites: $VERSION_CODENAME
Components: main
Signed-By: /usr/share/keyrings/debian-archive-keyring.gpg
EOF
    set -- -q -y -o Dir::Etc::sourcelist=/dev/null -o "Dir::Etc::sourceparts=$sources/parts" \
        -o "Dir::State::lists=$sources/lists" -o "Dir::Cache=$sources/cache" -o "APT::Sandbox::User=$(id -un)"
    apt-get "$@" update && cd "$sources" && apt-get "$@" source --download-only libsodium
}

build() {
    # apt-get has verified the sums of the files.
    rm -rf "$sources/$target" && dpkg-source --no-check -x "$sources"/libsodium_*.dsc "$sources/$target" &&
        cd "$sources/$target" && autoreconf -i &&
        ./configure --host="$target" --prefix="$prefix" --disable-shared --enable-static --disable-dependency-tracking &&
        make -j4 -C src && cp LICENSE "$prefix" && make -C src install
}

log=$prefix.log
ls "$sources"/libsodium_*.dsc >/dev/null 2>&1 || (download) >"$log" 2>&1 || { cat "$log" >&2; exit 1; }
(build) >"$log" 2>&1 || { tail -n 40 "$log" >&2; exit 1; }
test -e "$prefix/lib/libsodium.a"
