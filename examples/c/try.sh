#!/bin/sh
# Builds the C examples against the static library, which `rt lib` in crates/abi makes, and compares what each prints with its .expected
# file, and the texts with their routines.
set -eu
cd "$(dirname "$0")/../.."
made=$(mktemp -d)
trap 'rm -rf "$made"' EXIT

# build NAME: the program of examples/c/NAME.c.
build() {
    cc -std=c99 -Wall -Wextra -Werror -Iinclude "examples/c/$1.c" -Lcrates/abi/out -labi -o "$made/$1"
}

for name in lower incident; do
    build "$name"
    "$made/$name" > "$made/printed"
    diff "examples/c/$name.expected" "$made/printed"
    echo "examples/c/$name: as expected"
done
build typed
sh examples/c/texts.sh "$made/typed"
