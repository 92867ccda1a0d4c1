"""Rows that proofs computed are rows that run. The lists moved_rows_*.txt say of each where it is now: `OLD -> FILE: NAME`, or `OLD -> WHY` if it
is nowhere. Each place that they name is there."""

import re
from pathlib import Path

from source import ROOT

PLACE = re.compile(r"(\S+/\S+\.(?:rt|txt|py))(?: \[\w+\])?(?::| \|)? (.+)")


def rows(text):
    """The names of the rows of a table, each with its line: it has what stands for `{}` in the name."""
    return [(line.split(" |")[0], line) for line in text.splitlines() if " |" in line]


def stands(name, text, path):
    """Whether a row or a test of this name is in a file."""
    if path.suffix == ".py":
        return bool((test := re.match(r"`?(\w+)", name)) and f"def {test[1]}(" in text)
    if path.suffix == ".rt":
        return name in text
    for row, line in rows(text):
        front, _, back = row.partition("{}")
        if row == name or (row != front and name.startswith(front) and name.endswith(back) and name[len(front) : len(name) - len(back)] in line):
            return True
    return False


def check(write):
    for file in sorted(Path(__file__).parent.glob("moved_rows_*.txt")):
        for number, line in enumerate(file.read_text().splitlines(), 1):
            if place := PLACE.fullmatch(line.partition(" -> ")[2]):
                path, name = ROOT / place[1], place[2]
                text = path.read_text() if path.is_file() else ""
                if not (stands(name, text, path) or all(stands(part, text, path) for part in name.split("; "))):
                    yield f"{file.name}:{number}: it is gone: {place[0]}"
