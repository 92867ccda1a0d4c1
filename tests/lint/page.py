"""docs/DEFINITIONS.md is made from the comments at the head of the files of definitions that the main promises need: SHOWN lists them, crate by
crate, in the order in which one builds on another."""

import re
import textwrap

from columns import PAGE
from source import ROOT, Refused, differs

TARGET = ROOT / "docs" / "DEFINITIONS.md"
HEAD = """# Definitions

What the headline and the other main promises mean, in plain words. For the headline read these: `map65` Image to Names,
`stmt65` Columns to Meaning, and `da65` Groups to RunLaw. Each part is the comment at the head of a file in `specs/` of
its crate, from which `make definitions` writes this page. The file has the rules themselves, each with a line in words.
The other files, which `specs/Lib.antt` of a crate lists, begin with such a comment too. [PROOFS.md](PROOFS.md) says
what is proved of the definitions, and [ARCHITECTURE.md](ARCHITECTURE.md) explains the words that all crates use.
"""
SHOWN = {
    "isa65": "Opcodes Mode",
    "text65": "Names",
    "info65": "Layouts Names Segments Includes Reader",
    "map65": "Image Roles Pieces Items Targets Names",
    "stmt65": "Columns Line Statements Operands ReadingLaws Spelling Reading Symbols Coding Meaning Layout",
    "da65": "Groups Statements Listing Outcome RunLaw",
    "reach65": "Inlines Flow Reached Taken",
    "name65": "Marks Compared Reordered",
    "html65": "Pieces PageText",
}


def head_of(path):
    """The comment at the head of a file, as paragraphs."""
    if not path.exists():
        raise Refused(f"{path.relative_to(ROOT)} is no file of definitions")
    lines = re.match(r"(?:--[^\n]*\n)*", path.read_text())[0].splitlines()
    return "\n".join(line[2:].removeprefix(" ") for line in lines).split("\n\n")


def filled(paragraph):
    """A paragraph in lines of the width of a page. Each item of a list begins a line; what follows the list is a paragraph of its own."""
    parts = []
    for line in paragraph.splitlines():
        mark, words = re.match(r"( *(?:(?:[*]|\d+[.]) )?)(.*)", line).groups()
        if mark.strip() or not parts or (parts[-1][0] and not mark):
            parts.append((mark, [words]))
        else:
            parts[-1][1].append(words)
    text = ""
    for mark, lines in parts:
        text += "\n" * (bool(text) + bool(text and not mark))
        text += textwrap.fill(" ".join(lines), PAGE, initial_indent=mark, subsequent_indent=" " * len(mark), break_on_hyphens=False)
    return text


def part(crate, names):
    """The part of a crate: for each file its name, and what its comment says. What sums it up begins its first paragraph."""
    text = f"\n## {crate}\n"
    for name in names.split():
        paragraphs = head_of(ROOT / "crates" / crate / "specs" / f"{name}.antt")
        said = ["\n".join([f"**{name}.** {paragraphs[0]}", *paragraphs[1:2]]), *paragraphs[2:]]
        text += "\n" + "\n\n".join(map(filled, said)) + "\n"
    return text


def check(write):
    yield from differs(TARGET, HEAD + "".join(part(*shown) for shown in SHOWN.items()), write, "specs")
