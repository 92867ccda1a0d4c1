"""Each table of tests/rows that is named like a test has this test in the file of its name. Otherwise its rows would run nowhere."""

import re

from source import ROOT


def check(write):
    for file in sorted((ROOT / "tests/rows").glob("*.txt")):
        for name in re.findall(r"^\[(test_\w+)\]", file.read_text(), re.MULTILINE):
            tests = (ROOT / "tests" / f"test_{file.stem}.py").read_text()
            if not re.search(rf'\bdef {name}\(|"{name}":', tests):
                yield f"tests/rows/{file.name}: no {name} in tests/test_{file.stem}.py"
