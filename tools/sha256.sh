#!/bin/sh
# SPDX-License-Identifier: MIT
#
# Prints the SHA-256 sum of each FILE, or of standard input, in the format of sha256sum: 64 hex digits, two spaces, the name.
#
#     tools/sha256.sh [FILE ..]
#
# It runs the first of sha256sum (coreutils, busybox), shasum (Perl, macOS) and sha256 (BSD) that computes the published sum of
# "abc". If there is none, it prints no sum, names the three programs and exits with status 1.
set -eu
LC_ALL=C
export LC_ALL

abc=ba7816bf8f01cfea414140de5dae2223b00361a396177a9cb410ff61f20015ad

by_sha256sum() { sha256sum "$@"; }

by_shasum() { shasum -a 256 "$@"; }

# (-r prints the sum first, but with one space; -q prints only the sum)
by_sha256() {
    if test $# = 0; then
        sums="$(sha256 -q) -"
    else
        sums=$(sha256 -r "$@")
    fi
    printf '%s\n' "$sums" | sed 's/ /  /'
}

for tool in sha256sum shasum sha256; do
    sum=$(printf abc | "by_$tool" 2>/dev/null) || continue
    if test "${sum%% *}" = "$abc"; then
        "by_$tool" "$@"
        exit
    fi
done
echo 'tools/sha256.sh: no SHA-256 program works here: install sha256sum, shasum or sha256' >&2
exit 1
