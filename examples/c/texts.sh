#!/bin/sh
# Reads every examples/NAME.text with examples/names.list and compares with NAME.routine; writes it back, reads that again and compares
# once more. Then some texts and routines that are refused. One line a file; fails on a difference.
# Usage: examples/c/texts.sh PROGRAM, with the whole path of the built examples/c/typed.c.
cd "$(dirname "$0")/.." || exit 1
program=$1
made=$(mktemp -d)
trap 'rm -rf "$made"' EXIT

# there_and_back NAME: whether the text is read as the routine, and what is written of it too.
there_and_back() {
    "$program" read names.list <"$1.text" >"$made/routine" &&
        cmp -s "$made/routine" "$1.routine" &&
        "$program" write names.list <"$made/routine" >"$made/text" &&
        "$program" read names.list <"$made/text" | cmp -s - "$made/routine"
}

# says WORDS read|write: whether the program refuses its standard input with these words and prints nothing else.
says() {
    test -z "$("$program" "$2" names.list 2>"$made/said")" && grep -q "^$1:" "$made/said"
}

judge() {
    for text in *.text; do
        name=${text%.text}
        if there_and_back "$name"; then echo "ok      $name"; else echo "DIFFERS $name"; fi
    done
    # The misspelt name, the arm left open, and an action that the list has no name for.
    printf '+three{;\n  agre;\n}' | says "refused 13 at 12 (line 2, column 3)" read || echo "DIFFERS a misspelt name"
    printf '+three{;\n  agree;\n' | says "refused 12 at 19 (line 3, column 1)" read || echo "DIFFERS a text that stops short"
    says "refused 13 at 4" write <tests.routine || echo "DIFFERS an action without a name"
}

results=$(judge)
echo "$results"
echo "texts: $(echo "$results" | grep -c "^ok") there and back, $(echo "$results" | grep -c "^DIFFERS") not"
echo "$results" | grep -q "^ok" && ! echo "$results" | grep -q "^DIFFERS"
