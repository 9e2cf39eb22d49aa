#!/bin/sh
# SPDX-License-Identifier: MIT
#
# Checks that a program accepts and rejects the same signatures as Minisign's own program. The cases, and the exit statuses
# of Minisign's own program, are in tests/corpus. Cases in which the programs differ on purpose (docs/DIFFERENCES.md) are
# left out.
#
#     check.sh PROGRAM
#
# PROGRAM is a build of c/minisign. If the variable RUN is set, it is the command that runs PROGRAM, such as wine64. The
# last line of the output is `N passed, M failed`.
set -u
program=$(cd "$(dirname "$1")" && pwd)/$(basename "$1") || exit 2
cd "$(dirname "$0")/../tests/corpus" || exit 2
passed=0 failed=0
left_out=' space-behind.minisig no-utf8.minisig space-added.minisig spaces-around-base64.minisig longer-record.minisig '

# sed prints the key, data, signature and status of each case on four lines. cases.json has them in this order, each on its
# own line.
sed -n 's/^ *"\(key\|data\|signature\|status\)": "\{0,1\}\([^",]*\)"\{0,1\},*$/\2/p' cases.json | {
    while read -r key && read -r data && read -r signature && read -r status; do
        case $left_out in *" $signature "*) continue ;; esac
        test "$key" = other-algorithm.pub && continue
        ${RUN-} "$program" -Vm "$data" -p "$key" -x "$signature" >/dev/null 2>&1 </dev/null
        actual=$?
        if [ "$actual" = "$status" ]; then
            passed=$((passed + 1))
        else
            failed=$((failed + 1))
            echo "FAILED: $signature of $data with $key: status $actual, expected $status"
        fi
    done
    echo "$passed passed, $failed failed"
    [ "$failed" = 0 ] && [ "$passed" != 0 ]
}
