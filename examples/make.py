#!/usr/bin/env python3
"""Writes NAME.routine, as bytes, for each line of routines.txt; a line that names a base is written as it is named.

Writes names.list, sixteen bytes a name, for the lines of names.txt."""
import re
from pathlib import Path

HERE = Path(__file__).resolve().parent

# The paper's column "Written", with the kind and the fields of each form.
FORMS = [
    (r"a(\d+)", 1),
    (r"\+a(\d+)", 2),
    (r"-a(\d+)", 3),
    (r"##(\d+)", 4),
    (r"\[(\d+)\]", 5),
    (r"##\[(\d+)\]", 6),
    (r"##\[(\d+)\]\[(\d+)\]", 7),
    (r"\+a(\d+)\{", 8),
    (r"-a(\d+)\{", 9),
    (r"\}\{", 10),
    (r"\}", 11),
    (r"\+a(\d+)\{\*", 12),
    (r"-a(\d+)\{\*", 13),
    (r"\*\}", 14),
    (r"R##(\d+)", 15),
    (r"##R", 16),
]


def record(kind, x=0, y=0):
    """Eight bytes: the kind, x and y low byte first, and zeros."""
    return bytes([kind, 0, x % 256, x // 256, y % 256, y // 256, 0, 0])


def instruction(text):
    raw = re.fullmatch(r"(\d+):(\d+):(\d+)", text)
    if raw:
        return record(*map(int, raw.groups()))
    for form, kind in FORMS:
        match = re.fullmatch(form, text)
        if match:
            return record(kind, *map(int, match.groups()))
    raise SystemExit(f"no instruction: {text}")


def routine(text):
    file = b""
    for part in filter(None, map(str.strip, text.split(";"))):
        cut = re.fullmatch(r"cut (\d+)", part)
        times = re.fullmatch(r"(\d+) x (.+)", part)
        if cut:
            file = file[: -int(cut.group(1))]
        elif times:
            file += int(times.group(1)) * instruction(times.group(2))
        else:
            file += instruction(part)
    return file


if __name__ == "__main__":
    for line in (HERE / "routines.txt").read_text().splitlines():
        if line and not line.startswith("#"):
            name, text = line.split(":", 1)
            (HERE / (name if name.endswith(".base") else f"{name}.routine")).write_bytes(routine(text))
    names = (HERE / "names.txt").read_text().split()
    (HERE / "names.list").write_bytes(b"".join(name.encode("ascii").ljust(16, b"\0") for name in names))
