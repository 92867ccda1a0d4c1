"""The worked rows that crates/conformance runs are those of worked_rows.txt, which names them by the file of their table: none is lost, and
none is there that nobody listed. Under `[tests]` stand tests of what no row of a table can show, as FILE TEST."""

import re
from pathlib import Path

from source import ROOT, Refused

LIST = Path(__file__).with_name("worked_rows.txt")
TESTS = ROOT / "crates/conformance/src/tests"


def listed():
    """The names of the list by the head above them."""
    heads, names = {}, None
    for number, line in enumerate(LIST.read_text().splitlines(), 1):
        if line.startswith("["):
            names = heads.setdefault(line.strip("[]"), [])
        elif line and names is None:
            raise Refused(f"{LIST.name}:{number}: no head above it")
        elif line in (names or ()):
            raise Refused(f"{LIST.name}:{number}: listed twice: {line}")
        elif line:
            names.append(line)
    return heads


def rows(text):
    """The names of the rows of a file: each begins with `= `, also in a text that is put together, or is a line of a table of calls."""
    found = re.findall(r'(?:^|\\n|")= ([\w ,]+):', text, re.MULTILINE)
    for table in [] if found else re.findall(r'r#"\n(.*?)"#', text, re.DOTALL):
        found += [line.split(": ")[0] for line in table.splitlines()]
    return found


def check(write):
    heads = listed()
    for line in heads.pop("tests", []):
        file, test = line.split()
        if f"#[test]\nfn {test}(" not in (TESTS / f"{file}.rt").read_text():
            yield f"no test {test} in {file}.rt"
    for file, names in heads.items():
        found = set(rows((TESTS / f"{file}.rt").read_text()))
        yield from (f"{file}.rt: no row {name}" for name in names if name not in found)
        yield from (f"{file}.rt: a row that {LIST.name} does not have: {name}" for name in sorted(found.difference(names)))
