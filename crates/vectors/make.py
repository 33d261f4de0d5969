#!/usr/bin/env python3
"""Writes stdin, the input of the program, from cases.txt: for each case two records that say what to do, then its own."""
import sys
from pathlib import Path

HERE = Path(__file__).resolve().parent
sys.dont_write_bytecode = True
sys.path.insert(0, str(HERE.parents[1] / "examples"))
from make import record, routine  # the paper's notation as bytes

RELATIVE = {"forward": 17, "backward": 18, "stop": 19}
CALLS = ["check", "convert", "list", "relative", "absolute", "run", "base", "loop_end", "loop_header", "end", "arm", "target"]


def instructions(text):
    """One record an instruction, with its times in bytes 6 and 7: `3 x a1` is one with 3 there."""
    for part in filter(None, map(str.strip, text.split(";"))):
        times, _, once = part.rpartition(" x ")
        word, *numbers = once.split()
        if word in RELATIVE:
            file = record(RELATIVE[word], *map(int, numbers))
        else:
            file = routine(once)
        yield file[:6] + int(times or 0).to_bytes(2, "little")


def case(line):
    head, text = line.split(":", 1)
    name, *numbers = head.split()
    numbers = [int(n) for n in numbers]
    records = b"".join(instructions(text))
    count = len(records) // 8
    if name in ("run", "base"):
        return record(CALLS.index(name), count, len(numbers)) + bytes(numbers).ljust(8, b"\0") + records
    what = CALLS.index(name) + (name == "target" and len(numbers) == 2)
    return record(what, count) + record(0, *numbers) + records


lines = (HERE / "cases.txt").read_text().splitlines()
(HERE / "stdin").write_bytes(b"".join(case(line) for line in lines if line and not line.startswith("#")))
