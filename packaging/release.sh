#!/bin/sh
# SPDX-License-Identifier: MIT
#
# Writes the archive of a release to standard output. The same commit gives the same bytes, because each file gets the date of
# the commit. `make -C c release` calls this script after it has checked that dist/ was built from the sources.
#
#     packaging/release.sh NAME > FILE
#
# NAME is the name of the directory in the archive. In a git repository, the archive contains the tracked files as they are in
# the working tree. Elsewhere, for example in an unpacked release, it contains all files except those that were built.
set -eu
name=$1
cd "$(dirname "$0")/.."

# The contents of a release: everything that is needed to build it and to rebuild dist/, and the documents. Of the tests, only
# the corpus and the modules that tools/ uses are included.
parts='CHANGELOG.md CONTRIBUTING.md HANDLES LICENSE SECURITY.md bench/README.md bindings c compare/README.md
    compare/oracle/README.md crates crates.txt dist docs examples include packaging page tools tests/corpus tests/shared'

# Prints the paths of the files, one on each line. Tracked files that were deleted are left out.
list_files() {
    # shellcheck disable=SC2086
    if test -e .git; then
        git ls-files -- $parts
    else
        find $parts -type d \( -name out -o -name target -o -name __pycache__ \) -prune \
            -o -type f ! -name '*.pyc' ! -path 'bindings/go/*.[ach]' -print
    fi | grep -vx 'c/release.md' | while read -r path; do
        test ! -e "$path" || printf '%s\n' "$path"
    done | LC_ALL=C sort
}

directory=$(mktemp -d)
trap 'rm -rf "$directory"' EXIT
trap 'exit 1' HUP INT TERM
mkdir "$directory/$name"
list_files >"$directory/files"
test -s "$directory/files" || { echo 'packaging/release.sh: no file of the repository is found' >&2; exit 1; }
tar -cf "$directory/archive" -T "$directory/files"
tar -xf "$directory/archive" -C "$directory/$name"
# c/release.md becomes the README of the release. It is also included as c/release.md, so that a release can be made from an
# unpacked release.
cp c/release.md "$directory/$name/README.md"
cp c/release.md "$directory/$name/c/release.md"
time=$(sh packaging/time.sh)
tar -C "$directory" --sort=name --mtime="@$time" --owner=0 --group=0 --numeric-owner --mode=u=rwX,go=rX --format=ustar \
    -cf "$directory/archive" "$name"
gzip -9nc "$directory/archive"
