#!/bin/sh
# Lists every NAME.routine here with the built program and compares with NAME.listing. One line a file; fails on a difference.
# Usage: examples/compare.sh [PROGRAM], after `rt ci`, or `rt run` in crates/list.
cd "$(dirname "$0")" || exit 1
program=${1:-../crates/list/out/list}
passed=0
failed=0
for routine in *.routine; do
    name=${routine%.routine}
    if "$program" <"$routine" | cmp -s - "$name.listing"; then
        echo "ok      $name"
        passed=$((passed + 1))
    else
        echo "DIFFERS $name"
        failed=$((failed + 1))
    fi
done
echo "examples: $passed as expected, $failed not"
test "$failed" = 0 && test "$passed" -gt 0
