#!/bin/sh
# Gives the built program what is no routine. Each time it must end by itself and print one line, or a listing as long as it says.
# Where the input cannot be read, or the output not written, it must print nothing and say so in one line on standard error.
# One line a try; fails where one is wrong. Usage: examples/bad_input.sh [PROGRAM], after `rt ci`, or `rt run` in crates/list.
cd "$(dirname "$0")" || exit 1
program=${1:-../crates/list/out/list}

# try NAME [FIRST]: what the program prints on this standard input; its first line is FIRST, where that is given.
try() {
    printed=$("$program") || printed="status $?"
    first=$(echo "$printed" | head -n 1)
    case $first in
        "refused "*) lines=1 ;;
        "length "*) lines=$((${first##* } + 1)) ;;
        *) lines=none ;;
    esac
    if test "$(echo "$printed" | wc -l)" = "$lines" && test "$first" = "${2:-$first}"; then
        echo "ok      $1: $first"
    else
        echo "WRONG   $1: $first"
    fi
}

# says NAME LINE: what came on standard output and standard error together is this line alone.
says() {
    said=$(cat)
    if test "$said" = "$2"; then
        echo "ok      $1: $said"
    else
        echo "WRONG   $1: $said"
    fi
}

zeros() { head -c "$1" /dev/zero; }

# A record of this kind with x = 1.
kind() { printf "\\$(printf %03o "$1")\\000\\001\\000\\000\\000\\000\\000"; }

tries() {
    zeros 0 | try "nothing at all" "length 0 0"
    zeros 1 | try "1 byte" "refused 1 0"
    zeros 4095 | try "4,095 bytes" "refused 1 0"
    zeros 4096 | try "4,096 bytes" "refused 3 1"
    zeros 4097 | try "4,097 bytes" "refused 1 0"
    zeros 4104 | try "4,104 bytes" "refused 2 0"
    zeros 1000000 | try "a million bytes" "refused 2 0"
    zeros 1000001 | try "a million and one" "refused 1 0"
    zeros 64 | try "a file of zeros" "refused 3 1"
    (kind 1 | head -c 3; sleep 1; kind 1 | tail -c 5) | try "a record in two parts" "length 1 1"
    for size in 7 8 80 4096 4104 100000; do
        head -c "$size" /dev/urandom | try "$size random bytes"
    done
    for number in 0 1 2 3 4 5 6 7 8 9 10 11 12 13 14 15 16 17 18 19 255; do
        kind "$number" | try "kind $number alone"
    done
    kind 6 | try "a goto without its label" "refused 14 1"
    (kind 6; kind 5) | try "a goto with its label" "length 2 2"
    "$program" <. 2>&1 | says "a directory" "list: standard input cannot be read"
    "$program" 2>&1 <&- | says "a closed input" "list: standard input cannot be read"
    "$program" <empty.routine 2>&1 >/dev/full | says "a full output" "list: standard output cannot be written"
    "$program" <refused_kind.routine 2>&1 >/dev/full | says "a refusal to a full output" "list: standard output cannot be written"
    "$program" <there_and_back.routine 2>&1 >&- | says "a closed output" "list: standard output cannot be written"
}

results=$(tries)
echo "$results"
echo "bad input: $(echo "$results" | grep -c "^ok") answered, $(echo "$results" | grep -c "^WRONG") wrong"
! echo "$results" | grep -q "^WRONG"
