"""Each wrong body of tests/wrong was refused on these very sources: tests/wrong/stamps.txt has a stamp for it. `make wrong` tries those
whose stamp is old, and writes the stamps of those that the prover refuses. A stamp is a checksum of the edit, of the files of its crate but
for lines of comment, and of the contracts of the crates below."""

import hashlib
import re
from functools import cache

from edits import BY_HAND
from source import ROOT

STAMPS = ROOT / "tests/wrong/stamps.txt"
BELOW = {name: below.split() for name, below in re.findall(r"(?m)^(\w+):(.*)", (ROOT / "crates.txt").read_text())}
COMMENT = {".rt": "//", ".antt": "--"}
BODIES = [f"{crate}/{name}" for crate, names in BY_HAND.items() for name in names.split()]


def all_below(crate):
    """The crates here that a crate stands on."""
    own = {name for name in BELOW[crate] if name in BELOW}
    return own.union(*map(all_below, own))


@cache
def ground(crate):
    """What a refusal in a crate rests on but the edit, as a checksum."""
    found = hashlib.sha256()
    for part in "src", "specs", "proofs":
        for path in sorted((ROOT / "crates" / crate / part).rglob("*.*")):
            lines = path.read_text().splitlines() if path.suffix in COMMENT else ()
            lines = [line for line in lines if not line.lstrip().startswith(COMMENT[path.suffix])]
            found.update(repr((str(path.relative_to(ROOT)), lines)).encode())
    for name in sorted(all_below(crate)):
        contracts = ROOT / f"docs/contracts/{name}.txt"
        found.update(contracts.read_bytes() if contracts.exists() else b"")
    return found.digest()


def stamp(body):
    edit = (ROOT / f"tests/wrong/{body}.edit").read_bytes()
    return hashlib.sha256(ground(body.partition("/")[0]) + edit).hexdigest()[:16]


def kept():
    """The stamps by their bodies."""
    return dict(line.split() for line in STAMPS.read_text().splitlines()) if STAMPS.exists() else {}


def write_stamps(stamps):
    STAMPS.write_text("".join(f"{body} {stamps[body]}\n" for body in sorted(stamps)))


def old():
    """The bodies that were not refused on these sources."""
    stamps = kept()
    return [body for body in BODIES if stamps.get(body) != stamp(body)]


def check(write):
    yield from (f"{body}: was not refused on these sources: run `make wrong`, which tries it" for body in old())
    yield from (f"{body}: a stamp without its edit" for body in sorted(kept().keys() - set(BODIES)))
