"""The man page of information files, docs/da65.info.5, is made from docs/INFORMATION_FILE.md. What stands between `<!-- page -->` and
`<!-- /page -->` there is left out: it refers to files that are not installed."""

import re
import textwrap

from source import ROOT, differs

DOCS = ROOT / "docs"
SOURCE, TARGET = DOCS / "INFORMATION_FILE.md", DOCS / "da65.info.5"
HEAD = """.\\" Made from docs/INFORMATION_FILE.md. Rendered by: man -l docs/da65.info.5
.TH DA65.INFO 5 "2026-11-27" "da65 profile 1" "File Formats"
.SH NAME
da65.info \\- information file of da65
.SH DESCRIPTION
"""
FOOT = """.SH SEE ALSO
.BR da65 (1)
"""
# Columns whose cells are no sentences by themselves.
NAMED_COLUMNS = ("Default", "Needed")


def escaped(text):
    """Text as roff has it."""
    for letter, code in (("\\", "\\e"), ("-", "\\-"), ("'", "\\(aq"), ("`", "\\(ga"), ("^", "\\(ha"), ("~", "\\(ti")):
        text = text.replace(letter, code)
    return text


def inline(text):
    """A text with `code` and **words** in bold; the title alone is left of a link."""
    text = re.sub(r"\[([^\]]*)\]\([^)]*\)", r"\1", text)
    parts = re.split(r"(`[^`]+`|\*\*.+?\*\*)", text)
    return "".join(f"\\fB{escaped(part.strip('`*'))}\\fR" if k % 2 else escaped(part) for k, part in enumerate(parts))


def filled(text):
    """Lines of less than 80 bytes, of which none is a request."""
    lines = textwrap.wrap(inline(text), 78, break_long_words=False, break_on_hyphens=False)
    return "".join(("\\&" if line[0] in ".'" else "") + line + "\n" for line in lines)


def sentence(text):
    text = text if text[-1] in ".:" else text + "."
    return text[0].upper() + text[1:]


def table(rows):
    """Each row as a term, with its other cells as sentences."""
    head, _, *rows = [[cell.strip() for cell in re.split(r"(?<!\\)\|", row.strip("|\n "))] for row in rows]
    text = ""
    for term, *cells in rows:
        said = [sentence(f"{name}: {cell}" if name in NAMED_COLUMNS else cell) for name, cell in zip(head[1:], cells) if cell]
        text += ".TP\n" + filled(term) + filled(" ".join(said))
    return text + ".PP\n"


def section(block):
    """A paragraph, a heading, a table or an example."""
    if block.startswith("```"):
        return ".RS\n.nf\n" + "".join(escaped(line) + "\n" for line in block.splitlines()[1:-1]) + ".fi\n.RE\n.PP\n"
    if block.startswith("|"):
        return table(block.splitlines())
    if block.startswith("## "):
        return f".SH {escaped(block[3:]).upper()}\n"
    return filled(block) + ".PP\n"


def manual():
    text = re.sub(r"<!-- page -->.*?<!-- /page -->\n?", "", SOURCE.read_text(), flags=re.DOTALL)
    blocks = re.findall(r"```.*?```|(?:(?!```)[^\n]+\n?)+", text, re.DOTALL)
    body = "".join(section(block.strip("\n")) for block in blocks if not block.startswith("# "))
    # No space before a heading or a list, or at the end.
    return HEAD + re.sub(r"\.PP\n(?=\.SH|\.TP|$)", "", body) + FOOT


def check(write):
    yield from differs(TARGET, manual(), write, SOURCE.name)
