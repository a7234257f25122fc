#!/bin/sh
# Whether a program answers the scripts of this folder as is stored.
# usage: tests/comparison/run.sh [PROGRAM]
#
# PROGRAM is crates/scmgc/out/scmgc, which `make run` builds, where none is named. Each script
# scripts/NAME.script is played, and its answers are compared with scripts/NAME.out. The last line is
# 'N passed, M failed'; the status is 0 only if M is 0, and 2 where the program cannot be run.
set -eu
here=$(dirname "$0")
program=${1:-$here/../../crates/scmgc/out/scmgc}
answers=$(mktemp)
trap 'rm -f "$answers"' EXIT
passed=0
failed=0

if ! command -v "$program" > /dev/null; then
    echo "run.sh: $program cannot be run: 'make run' builds it" >&2
    exit 2
fi
for script in "$here"/scripts/*.script; do
    if "$program" run < "$script" > "$answers" && diff "${script%.script}.out" "$answers"; then
        passed=$((passed + 1))
    else
        echo "run.sh: $script has other answers"
        failed=$((failed + 1))
    fi
done
echo "$passed passed, $failed failed"
test "$failed" = 0
