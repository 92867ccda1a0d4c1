"""A clause fits in 100 columns; what recurs in one gets a name in `specs/`. Those that are wider are counted by crate, and their number
only falls. The lines of tests, pages and comments of code have at most 120 columns, those of other scripts 140, and those of man pages 80;
tables, headings and what is shown word for word may be wider."""

import re

from source import CRATES, ROOT

CLAUSE = 100
# How many lines of clauses in src/ are wider, by crate. If there are fewer, make the number here smaller.
WIDER = {
    "isa65": 2,
    "text65": 1,
    "stmt65": 8,
    "info65": 18,
    "map65": 3,
    "usage65": 1,
    "da65": 12,
    "files65": 2,
    "da65_cli": 2,
    "as65": 7,
}
PAGE = 120
WIDEST = {
    120: ("tests/*.py", "tests/stand_ins/*", "tests/run65.*", "*.md", "docs/*.md", "crates/*/src/**/*.rt", "crates/*/specs/**/*.antt"),
    140: ("Makefile", ".ci/run", "release/*", "tests/proof_cost", "tests/wrong_bodies", "tests/corpus/*", "tests/shim.c"),
    80: ("docs/*.[15]",),
}
# What is no comment of code; what is shown word for word, in a page and in a man page; tables and headings of a page.
CODE = r"(?m)^(?!\s*(//|--)).*$"
FREE = {".rt": CODE, ".antt": CODE, ".md": r"(?ms)^```.*?^```$|^[|#].*?$", ".1": r"(?ms)^\.nf$.*?^\.fi$",
        ".5": r"(?ms)^\.nf$.*?^\.fi$"}


def wide_clauses(crate):
    """The lines of clauses that are wider: from `requires`, `ensures` or `decreases` on, up to the braces that close it."""
    for path in sorted((ROOT / "crates" / crate / "src").rglob("*.rt")):
        depth = 0
        for number, line in enumerate(path.read_text().splitlines(), 1):
            if depth or re.match(r"\s*(requires|ensures|decreases)\b", line):
                depth += line.count("{") - line.count("}")
                if len(line) > CLAUSE:
                    yield f"{path.relative_to(ROOT)}:{number}: {len(line)} columns"


def check(write):
    for crate in CRATES:
        found, known = list(wide_clauses(crate)), WIDER.get(crate, 0)
        if len(found) != known:
            yield f"{crate}: {len(found)} lines of clauses are wider than {CLAUSE} columns; columns.py lists {known}: {', '.join(found)}"
    for most, patterns in WIDEST.items():
        for path in sorted(path for pattern in patterns for path in ROOT.glob(pattern)):
            text = path.read_text()
            if path.suffix in FREE:
                text = re.sub(FREE[path.suffix], lambda shown: "\n" * shown[0].count("\n"), text)
            for number, line in enumerate(text.splitlines(), 1):
                if len(line) > most:
                    yield f"{path.relative_to(ROOT)}:{number}: {len(line)} columns, and not at most {most}"
