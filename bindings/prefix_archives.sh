#!/bin/sh
# SPDX-License-Identifier: MIT
#
# Adds prefixes to the symbols in the archives of the proved functions (dist/calls-*.a), as in v3_minisign_update, so
# that building the Rust crate needs no objcopy.
#
#     prefix_archives.sh LIBRARY
#
# LIBRARY is the directory with the files of the C library, as `carry` in Makefile copies them. The hashes of the changed
# archives are written to dist/SHA256SUMS in this directory. The variable OBJCOPY names objcopy. An archive that objcopy cannot
# change, because it is for another processor, is left unchanged; then the build script of the crate adds the prefixes.
# llvm-objcopy can change all archives.
set -eu
LC_ALL=C
export LC_ALL
tools=$(cd "$(dirname "$0")/../tools" && pwd)
cd "$1"

for archive in dist/calls-*.a; do
    prefix=${archive##*-}
    prefix=${prefix%.a}
    {
        sed "/^#/d; s/.*/& ${prefix}_&/" c/library/names
        # All archives call the allocator of the C library, so its functions get no prefix.
        for name in alloc realloc dealloc; do
            echo "rattle_$name minisign_$name"
        done
    } > names
    # For an archive for another processor, objcopy may fail or copy it unchanged.
    if "${OBJCOPY:-objcopy}" --redefine-syms=names "$archive" changed.a 2>/dev/null &&
        grep -q "${prefix}_minisign_update" changed.a; then
        mv changed.a "$archive"
        sum=$(sh "$tools/sha256.sh" "$archive")
        sed "s/^.*  ${archive#dist/}\$/${sum%% *}  ${archive#dist/}/" dist/SHA256SUMS > sums
        mv sums dist/SHA256SUMS
    fi
    rm -f changed.a names
done
