#!/bin/sh
# SPDX-License-Identifier: MIT
#
# Prints the time for the files of a release, in seconds since 1970: SOURCE_DATE_EPOCH if it is set; in a git repository, the
# time of the commit; in an unpacked release, the time of its files. Call it in the top directory.
set -eu
if test -n "${SOURCE_DATE_EPOCH-}"; then
    echo "$SOURCE_DATE_EPOCH"
elif test -e .git; then
    git log -1 --format=%ct
else
    date -r CHANGELOG.md +%s
fi
