#!/bin/sh
# SPDX-License-Identifier: MIT
#
# Copies the files of dist/, c/library and include/ that the Go module needs into bindings/go, because a Go module consists
# of the files in its own directory, and has no build step before `go build`. git ignores the copies, but the commit of a
# release contains them (packaging/tag.sh).
#
#     bindings/go_copies.sh         `make -C bindings go` calls this
#
# Needs only a shell and the standard tools. A file that is up to date is not written, so several runs at once are safe.
set -eu
cd "$(dirname "$0")/.."
to=bindings/go

# Build constraints for C files: Linux with 64-bit pointers; and systems without an archive of proved calls, or builds with
# the tag `portable`.
linux_64='linux && (amd64 || arm64 || loong64 || mips64 || mips64le || ppc64 || ppc64le || riscv64 || s390x)'
as_c='portable || !linux || (!amd64 && !arm64)'

temporary=$to/.part-$$
trap 'rm -f "$temporary"' EXIT
trap 'exit 1' HUP INT TERM

# put NAME: moves the temporary file to NAME, unless NAME has the same content. `names` has all files that were put.
names=' '
put() {
    names="$names$1 "
    cmp -s "$temporary" "$to/$1" 2>/dev/null || mv "$temporary" "$to/$1"
}

# copy FILE [NAME [CONSTRAINT [INCLUDE]]]: copies FILE to NAME. With CONSTRAINT, the copy of a C file begins with this build
# constraint, and with INCLUDE, it includes this header first.
copy() {
    {
        if test -n "${3-}"; then
            printf '//go:build %s\n\n// A copy of %s, made by bindings/go_copies.sh: do not edit it here.\n\n' "$3" "$1"
            test -z "${4-}" || printf '#include "%s"\n\n' "$4"
        fi
        cat "$1"
    } >"$temporary"
    put "${2-${1##*/}}"
}

for file in dist/calls-*.a include/minisign.h include/minisign_install.h include/minisign_list.h c/library/clearing.h \
    c/library/allocation.h c/library/portable/machine.h; do
    copy "$file"
done
copy c/library/allocation.c allocation.c "$linux_64"
copy c/library/boundary.c boundary.c cgo archive.h
copy c/library/clearing.c clearing.c cgo
copy dist/calls.c calls.c "$as_c"
copy c/library/portable/pointers.c pointers.c "$as_c"
copy c/library/portable/allocation.c memory.c "$as_c"

{
    cat <<'END'
/* SPDX-License-Identifier: MIT */
/*
 * Renames functions. boundary.c defines each function of the headers, such as minisign_ask, which calls the proved function
 * portable_minisign_ask. But in the archives, the proved function has the name minisign_ask. So the linker gets the name
 * minisign_ask for the function that is called, and bounded_minisign_ask for the function that boundary.c defines. Made from
 * c/library/names by bindings/go_copies.sh.
 */
#ifndef MINISIGN_PORTABLE
#define MINISIGN_PORTABLE

END
    sed -n 's/^minisign_.*/#pragma redefine_extname portable_& &/p' c/library/names
    echo
    sed -n 's/^minisign_.*/#define & bounded_&/p' c/library/names
    printf '\n#endif\n'
} >"$temporary"
put archive.h

# Remove files that only an older version of this script has copied.
for file in "$to"/*.[ach]; do
    case $names in *" ${file##*/} "*) ;; *) rm -f "$file" ;; esac
done
