"""The tables of docs/PROOFS.md are made from the doc comments in contracts. Such a comment says in plain words what the clauses below it
promise, up to the next comment or an empty line; each paragraph of it is a row. `As in` and the name of another call of the crate stands for
the rows of that call that have these clauses. A row stands where the page has its call, new ones at the end. The text between the tables is
written by hand."""

import re
from functools import cache

from source import CRATES, ROOT, Refused, differs

PAGE = ROOT / "docs" / "PROOFS.md"
HEAD = "| in plain words | clause | call |\n|---|---|---|\n"
OWNER = re.compile(r"pub trait (\w+)|(?:unsafe )?impl(?:<(?:[^<>]|<[^<>]*>)*>)? (?:(.*) for )?(\w+)|}$")
CALL = re.compile(r" *(?:pub(?:\(\w+\))? )?(?:const )?(?:unsafe )?fn (\w+)")
CLAUSE = re.compile(r" +(requires|ensures|ghost)\b(?: (\w+))?")
SAME = re.compile(r"As in `([\w:]+)`\.")


def comments(path):
    """The comments of clauses in a file: each with its call, as docs/contracts names it, and the names of its clauses."""
    owner, trait, call, said, clauses = "", "", "", [], None
    for line in path.read_text().splitlines():
        if comment := re.match(r" +///(?: (.*))?$", line):
            said, clauses = [*said, comment[1] or "\n\n"], None
            continue
        if clause := CLAUSE.match(line):
            place = owner + trait if clause[1] == "ghost" else call
            if said and place:
                clauses = []
                yield " ".join(said), place, clauses
            if clauses is not None and clause[2]:
                clauses.append(clause[2])
        elif head := OWNER.match(line):
            owner, trait = head[1] or head[3] or "", f": {head[2]}" if head[2] else ""
        elif head := CALL.match(line):
            call = f"{owner}::{head[1]}" if owner else head[1]
        elif not line.startswith("        "):
            clauses = None
        said = []


@cache
def rows(crate):
    """What is promised of a crate: in words, with its clauses and the calls that have them."""
    said = [found for path in sorted((ROOT / "crates" / crate / "src").rglob("*.rt")) for found in comments(path)]
    made = [(part.strip(), clauses, [call]) for text, call, clauses in said if not SAME.match(text) for part in text.split("\n\n")]
    for text, call, clauses in said:
        if other := SAME.match(text):
            same = [row for row in made if row[2][0] == other[1] and set() < set(row[1]) <= set(clauses)]
            if not clauses or set(clauses) > {clause for row in same for clause in row[1]}:
                raise Refused(f"{crate}: {call} has other clauses than those that {other[1]} has sentences for")
            for row in same:
                row[2].append(call)
    return made


def quoted(words):
    return ", ".join(f"`{word}`" for word in words)


def check(write):
    """What differs from the page that is there, a line each; with `write` its tables are written anew."""
    head, *parts = re.split(r"(?m)^### `(\w+)`\n", PAGE.read_text())
    for crate, text in zip(parts[::2], parts[1::2]):
        calls = re.findall(r"(?m)\| `([^`]*)`[^|]*\|$", text)
        in_order = sorted(rows(crate), key=lambda row: calls.index(row[2][0]) if row[2][0] in calls else len(calls))
        table = HEAD + "".join(f"| {said} | {quoted(clauses) or 'the one clause'} | {quoted(names)} |\n" for said, clauses, names in in_order)
        head += f"### `{crate}`\n" + re.sub(r"(?m)(^\|.*\n)+", lambda _: table, text, count=1)
    yield from differs(PAGE, head, write, "the contracts")
    yield from (f"PROOFS.md has no part for {crate}" for crate in CRATES if rows(crate) and crate not in parts[::2])
