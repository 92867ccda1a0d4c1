"""The words that an information file may have are those of docs/INFORMATION_FILE.md: each table of words in the definitions has exactly the
words of its table on the page. Rows of tests/rows check that a word means what the page says."""

import re

from source import ROOT

SPECS = ROOT / "crates" / "info65" / "specs"
TAG = ROOT / "crates" / "info65" / "src" / "tags" / "tag.rt"


def defined(module, name):
    """The words of a definition that goes by a word, for each kind of group, or for an empty text; each with what it stands for."""
    body = re.search(rf"^unfoldable pub {name} : .*\n((?:.+\n)+)", (SPECS / f"{module}.antt").read_text(), re.MULTILINE)[1]
    clauses = re.findall(rf"^{name}(?: (\S+))? text =((?:.*\n(?!{name}))*.*)", body, re.MULTILINE)
    return {kind: dict(re.findall(r'\(codes "(\w+)"\) then Some (\S+)', rows)) for kind, rows in clauses}


def grouped(module, groups, attributes):
    """The words of the attributes of each group, by its word."""
    found = defined(module, attributes)
    return {word: set(found[kind]) for word, kind in defined(module, groups)[""].items()}


def tagged():
    """The same of the groups in comments, which are plain code."""
    code = TAG.read_text()
    rows = re.findall(r"(?m)^        (TagKind::[\w:| ]+) => tag_word!\(text;\n((?:            .*\n)+)", code)
    words = {kind: set(re.findall(r'b"(\w+)"', text)) for kinds, text in rows for kind in re.findall(r"TagKind::(\w+)", kinds)}
    return {word: words[kind] for word, kind in re.findall(r'b"(\w+)" => TagKind::(\w+)', code)}


def paged(page, head):
    """The words of each first cell in the page's tables that begin with this cell, by the heading above."""
    tables = re.findall(rf"^## ([^\n]*)\n(?:(?!## )[^\n]*\n)*?\| {head} \|[^\n]*\n\|[-|]+\n((?:\|[^\n]*\n)+)", page, re.MULTILINE)
    return {heading: [re.findall(r"`(\w+)`", cell) for cell in re.findall(r"^\| (.*?) \| ", rows, re.MULTILINE)] for heading, rows in tables}


def check(write):
    page = (ROOT / "docs" / "INFORMATION_FILE.md").read_text()
    tags = re.findall(r"^\| `(\w+)` \| (.*?) \|", re.search(r"^\| group \|(.*\n)+?\n", page, re.MULTILINE)[0], re.MULTILINE)
    yes, no = re.search(r"A boolean is one of the words ([^.]*?) and ([^.]*?), in any case", " ".join(page.split())).groups()
    meant = {value: {word.upper() for word in re.findall(r"`(\w+)`", text)} for text, value in ((yes, "true"), (no, "false"))}
    booleans = defined("Attributes", "boolean_named")[""]
    for kind, here, there in (
        ("groups", grouped("Attributes", "group_named", "attribute_named"),
         {heading: {words[0] for words in rows} for heading, rows in paged(page, "Attribute").items()}),
        ("groups in comments", tagged(),
         {name: set(re.findall(r"`(\w+)`", cell)) for name, cell in tags}),
        ("type words", set(defined("Attributes", "type_named")[""]), {words[0] for rows in paged(page, "Type word").values() for words in rows}),
        ("booleans", {value: {word for word in booleans if booleans[word] == value} for value in booleans.values()}, meant),
    ):
        if here != there:
            yield f"the {kind} of the definitions are {here}, those of the page {there}"
