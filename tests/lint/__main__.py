"""Checks what can be seen of the tree without the prover, in a few seconds. CHECKS lists what has to hold.

Usage: python3 tests/lint [CHECK..]          fails if one of these does not hold, and says what: those that are named, or all but BY_NAME
       python3 tests/lint --write contracts  writes docs/contracts anew, `manual` the man page, `page` docs/DEFINITIONS.md,
                                             and `proofs` the tables of docs/PROOFS.md
"""

import sys

sys.dont_write_bytecode = True

import columns, contracts, edits, imports, manual, memory, moved_rows, page, pages, promises, proofs, readings, rows, scripts  # noqa: E401
import stamps, words, worked_rows  # noqa: E401
from source import LeftOut, Refused

CHECKS = {
    contracts: "the public contracts are those of docs/contracts",
    edits: "each edit that must fail can be applied, and each wrong body has its edit or its test",
    stamps: "each wrong body of tests/wrong was refused on these sources",
    memory: "every answer out of memory is made in a listed place",
    imports: "definitions are imported from the Words of their crate, and its types from Types",
    readings: "a listing and the meaning of a text share no definition but those listed",
    words: "an information file has the words of docs/INFORMATION_FILE.md and no others",
    manual: "docs/da65.info.5 is made from docs/INFORMATION_FILE.md",
    page: "docs/DEFINITIONS.md is made from the comments of the definitions",
    proofs: "docs/PROOFS.md is made from the comments of the clauses",
    promises: "each call in the table of promises of README.md has its contract",
    pages: "each link of a page leads somewhere, and each name of a page about the code stands in the tree",
    columns: "no more clauses than listed are wider than 100 columns; no test or page is wider than 120, no script than 140, no man page than 80",
    rows: "each table of tests/rows has its test",
    worked_rows: "the worked rows that run are those of tests/lint/worked_rows.txt",
    moved_rows: "each row of the lists moved_rows_*.txt is where they say",
    scripts: "shellcheck finds nothing in the scripts",
}
# Trying all wrong bodies takes an hour.
BY_NAME = {stamps}
WRITTEN = {module.__name__: module for module in (contracts, manual, page, proofs)}


def faults(check, write=False):
    """What a check says of the tree, a line each; what it does not understand is a fault too."""
    try:
        return list(check.check(write))
    except Refused as cause:
        return [str(cause)]


def main(args):
    if args[:1] == ["--write"] and args[1:] and set(args[1:]) <= WRITTEN.keys():
        for name in args[1:]:
            print(*faults(WRITTEN[name], write=True), sep="\n")
        return 0
    if not set(args) <= {check.__name__ for check in CHECKS}:
        return __doc__
    failed = False
    for check, holds in CHECKS.items():
        if check.__name__ not in args if args else check in BY_NAME:
            continue
        try:
            found = faults(check)
        except LeftOut as reason:
            print(f"{check.__name__}: left out: {reason}")
            continue
        failed = failed or bool(found)
        print(*(f"{check.__name__}: {line}" for line in found or [holds]), sep="\n")
    return int(failed)


sys.exit(main(sys.argv[1:]))
