#!/bin/sh
# SPDX-License-Identifier: MIT
#
# Writes the archive of the programs for Windows: a zip file with the programs, the library, its headers, the page and the
# licences. The same commit and compiler give the same bytes, because each file gets the date of the commit, and the files are
# sorted. `make -C c windows-archive` calls this script.
#
#     packaging/windows.sh NAME INSTALLED SODIUM_PREFIX COMPILER FILE
#
# NAME is the name of the directory in the archive. INSTALLED is the directory into which `make install PREFIX=` has installed
# the programs. SODIUM_PREFIX is the directory of libsodium, with its LICENSE. COMPILER is the name of the mingw-w64 compiler.
# FILE is the absolute path of the archive, which must not exist.
set -eu
name=$1 installed=$2 sodium=$3 compiler=$4 file=$5
cd "$(dirname "$0")/.."

# The programs contain code of libsodium and of mingw-w64, so the archive needs their licences.
compiler_licence=/usr/share/doc/mingw-w64-${compiler%%-*}-dev/copyright
compiler_licence=$(echo "$compiler_licence" | tr _ -)
for licence in LICENSE "$sodium/LICENSE" "$compiler_licence"; do
    test -f "$licence" || { echo "packaging/windows.sh: the licence $licence is missing" >&2; exit 1; }
done

directory=$(mktemp -d)
trap 'rm -rf "$directory"' EXIT
trap 'exit 1' HUP INT TERM
top=$directory/$name
mkdir -p "$top/include" "$top/lib" "$top/licences"
cp "$installed"/bin/* "$top"
cp "$installed"/include/* "$top/include"
cp "$installed/lib/libminisign.dll.a" "$top/lib"
cp dist/minisign.html "$top"
cp LICENSE "$top/licences/minisign-in-rattle.txt"
cp "$sodium/LICENSE" "$top/licences/libsodium.txt"
cp "$compiler_licence" "$top/licences/mingw-w64.txt"

time=$(sh packaging/time.sh)
find "$top" -type f -exec chmod 644 {} +
find "$top" -type f -exec touch -d "@$time" {} +
cd "$directory"
# TZ=UTC, because a zip file contains local times. -X leaves out owners and the other times, and -D leaves out directories.
find "$name" -type f | LC_ALL=C sort | TZ=UTC zip -9 -X -D -q "$file" -@
