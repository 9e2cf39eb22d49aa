#!/bin/sh
# Prints one SHA-256 sum over the sources that a part of dist/ is proved and built from: all files of the crates' src, specs and
# proofs, with their names, the lines of crates.txt for these crates, and for the page also what page/build.py reads.
#
#     tools/sources.sh calls
#     tools/sources.sh page
#
# c/Makefile compares the sum with dist/PROVED, so this needs only sh, find, sort, grep, xargs and a program for SHA-256
# (tools/sha256.sh). If a step fails, no sum is printed, and the exit status is not 0. tools/dist.py checks that the list of crates
# is complete.
set -eu
LC_ALL=C
export LC_ALL
cd "$(dirname "$0")/.."

below='minisign_hash minisign_kdf minisign_base minisign minisign_external minisign_sha2 minisign_lists'
case ${1-} in
calls) crates="$below minisign_install minisign_c" directories= ;;
page) crates="$below minisign_page" directories="page LICENSE crates.txt include/minisign.h
    bindings/javascript/calls.js bindings/javascript/ed25519.js bindings/javascript/verification.js" ;;
*) echo 'usage: tools/sources.sh calls|page' >&2; exit 2 ;;
esac

# Prints the line of each crate in crates.txt.
list_crates() {
    for crate in $crates; do
        grep "^$crate[ :]" crates.txt || { echo "tools/sources.sh: crates.txt has no line for $crate" >&2; exit 1; }
    done
}

# Prints the paths of all files that the sum covers.
list_files() {
    for crate in $crates; do
        directories="$directories crates/$crate/src crates/$crate/specs crates/$crate/proofs"
    done
    for directory in $directories; do
        test ! -e "$directory" ||
            find "$directory" -type f -name '[!.]*[!~]' ! -name minisign.html ! -name '*.pyc' ! -name '*.md' -print
    done
}

# Each step has a command substitution of its own: in a pipeline only the exit status of the last command counts.
lines=$(list_crates)
files=$(list_files)
files=$(printf '%s\n' "$files" | sort)
sums=$(printf '%s\n' "$files" | xargs sh tools/sha256.sh)
sum=$(printf '%s\n%s\n' "$lines" "$sums" | sh tools/sha256.sh)
echo "${sum%% *}"
