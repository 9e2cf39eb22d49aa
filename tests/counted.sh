#!/usr/bin/env bash
# Runs a test script and stores the number of its passed and failed checks. tests/Makefile calls this script.
#
#     tests/counted.sh FILE COMMAND ..     runs the command, and writes its last line, `N passed, M failed`, to FILE.count
#     tests/counted.sh --total DIRECTORY   prints the sums of the numbers in all files *.count of the directory
#
# If the command crashes, or its last line has another form, FILE.count has at least one failure. The output and the times of
# the command are written to FILE.log and FILE.times.
set -u
# The test scripts run make as a user does, so they must not inherit the flags of the make that runs this script.
unset MAKEFLAGS MAKEOVERRIDES MAKELEVEL MFLAGS
export PYTHONUNBUFFERED=1
if [[ $1 == --total ]]; then
    cat "$2"/*.count | awk '{ passed += $1; failed += $3 }
        END { print passed + 0 " passed, " failed + 0 " failed"; exit failed > 0 || passed == 0 }'
    exit
fi
file=$1
shift
echo "== $*"
SECONDS=0
"$@" </dev/null | tee "$file.log"
status=${PIPESTATUS[0]}
last=$(tail -n 1 "$file.log")
passed=0 failed=0
if [[ $last =~ ^([0-9]+)\ passed,\ ([0-9]+)\ failed$ ]]; then
    passed=${BASH_REMATCH[1]} failed=${BASH_REMATCH[2]}
fi
if [[ $last != "$passed passed, $failed failed" ]] || (( (status == 0) != (failed == 0) )); then
    echo "FAILED: $*: exit status $status, last line '$last'"
    failed=$((failed > 0 ? failed : 1))
fi
echo "$passed passed, $failed failed" >"$file.count"
times >"$file.times"
awk -v clock="$SECONDS" -v name="$*" '{ split($1, user, /[ms]/); split($2, system_, /[ms]/) }
    END {
        processor = 60 * (user[1] + system_[1]) + user[2] + system_[2]
        printf "== %s: %d s, %d of the processor\n", name, clock, processor
    }' "$file.times"
((failed == 0))
