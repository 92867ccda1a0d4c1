"""Each call in the table of promises of README.md stands in docs/contracts of its crate."""

import re

from source import ROOT


def check(write):
    table = (ROOT / "README.md").read_text().partition("## What is proved\n")[2].partition("\n## ")[0]
    rows = re.findall(r"^\| (?:`(\w+)`)? ?\|.*\| ([^|]*) \|$", table, re.MULTILINE)
    if not rows:
        yield "README.md has no table of promises"
    crate = ""
    for name, calls in rows:
        crate = name or crate
        path = ROOT / "docs" / "contracts" / f"{crate}.txt"
        known = path.read_text() if path.exists() else ""
        for call in re.findall(r"`([\w:]+)`", calls):
            # A type stands for its methods, and a trait for its implementations.
            if not re.search(rf"^(?:\w+: )?{call}(?::| of |$)", known, re.MULTILINE):
                yield f"README.md: docs/contracts has no {call} of {crate or 'no crate'}"
