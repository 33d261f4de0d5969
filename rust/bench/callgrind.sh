#!/bin/sh
# Instructions for one call of each case, by callgrind, as a Markdown table.
#
# A case is run with FEW and with MANY calls; the difference, divided by the
# calls between, leaves out what it takes to start and to make the input.
# Needs valgrind, and libabi.a where rust/quadrilhel/build.rs looks for it.
set -eu
cd "$(dirname "$0")/.."

FEW=1
MANY=6

cargo build --quiet --release -p bench
bench=${CARGO_TARGET_DIR:-target}/release/bench
[ -x "$bench" ] || { echo "callgrind.sh: no $bench" >&2; exit 1; }
command -v valgrind > /dev/null || { echo "callgrind.sh: valgrind is not there" >&2; exit 1; }

# instructions NAME SIDE COUNT: what callgrind collected for so many calls
instructions() {
    valgrind --tool=callgrind --callgrind-out-file=/dev/null \
        "$bench" one "$1" "$2" "$3" 2>&1 |
        sed -n 's/.*Collected *: *\([0-9]*\).*/\1/p'
}

# each NAME SIDE: instructions for one call
each() {
    few=$(instructions "$1" "$2" "$FEW")
    many=$(instructions "$1" "$2" "$MANY")
    echo $(((many - few) / (MANY - FEW)))
}

echo "| Case | Proved, instructions | Ordinary, instructions | Proved / ordinary |"
echo "|---|---:|---:|---:|"
for name in $("$bench" names); do
    proved=$(each "$name" proved)
    ordinary=$(each "$name" ordinary)
    ratio=$(awk "BEGIN { printf \"%.2f\", $proved / $ordinary }")
    echo "| $name | $proved | $ordinary | $ratio |"
done
