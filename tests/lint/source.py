"""The files of Rattle code: their items, with clauses and bodies, and what their imports name. What the script does not understand is
refused, with the file and the line."""

import difflib
import re
from functools import cache
from pathlib import Path
from typing import NamedTuple

ROOT = Path(__file__).resolve().parent.parent.parent
# Tests, and a caller of run65: no crate uses them.
LEFT_OUT = ("conformance", "step65")
ALL_CRATES = re.findall(r"^(\w+):", (ROOT / "crates.txt").read_text(), re.MULTILINE)
CRATES = [name for name in ALL_CRATES if name not in LEFT_OUT]

TOKENS = re.compile(
    r"""(?:\s|//[^\n]*)+
    |(?P<token>b?"(?:\\.|[^"\\])*"|b?'(?:\\u\{\w+\}|\\x\w\w|\\.|[^\\'\n])'|'?\w+(?:-\w+)*'*|::|->|=>|[^\w\s])""",
    re.VERBOSE | re.DOTALL,
)
ATTRIBUTE = re.compile(r'#\[(?:"(?:\\.|[^"\\])*"|[^"\]])*\] ?')
IMPL = r"(?:unsafe )?impl(?:<(?:[^<>]|<[^<>]*>)*>)?"
NAME = re.compile(rf"(?:trait|{IMPL}) (?:.* for )?(\w+)")
TYPES = ("struct", "enum", "type", "trait")
CLAUSES = ("requires", "ensures", "decreases")
# What the head of an item ends with.
ENDS = {"fn": (*CLAUSES, "{", ";"), "struct": ("{", "(", ";"), "enum": "{", "impl": "{", "trait": "{", "macro_rules": "{"}
OPENERS, CLOSERS = "([{", ")]}"


class Refused(Exception):
    """What the script does not understand."""


class LeftOut(Exception):
    """Why a check is left out."""


class Item(NamedTuple):
    """An item of a source file. `text` is without body and clauses. The fields of a struct or an enum are its clause, and those of an
    `impl` or a trait are the imports that stand in it."""

    kind: str
    name: str
    is_public: bool
    attributes: list
    text: str
    clauses: list = ()
    members: list = ()
    body: tuple = ()


class Source:
    """A source file: its items, and the names that its `use` lines bring in."""

    def __init__(self, crate, path):
        self.crate, self.path, self.code = crate, path, path.read_text()
        self.ghosts, self.uses, self.modules = [], {}, set()
        self.tokens = [found for found in TOKENS.finditer(self.code) if found["token"]]
        self.words = [found["token"] for found in self.tokens]
        # Behind which token a bracket closes.
        self.behind, opened = {}, []
        for at, word in enumerate(self.words):
            if word in ("(", "[", "{"):
                opened.append(at)
            elif word in (")", "]", "}"):
                self.behind[opened.pop()] = at + 1
        self.at = 0
        self.items = self.items_up_to(len(self.tokens))

    def refuse(self, cause):
        at = self.tokens[min(self.at, len(self.tokens) - 1)].start() if self.tokens else 0
        raise Refused(f"{self.path.relative_to(ROOT)}:{self.code[:at].count(chr(10)) + 1}: {cause}")

    def peek(self, ahead=0):
        return self.words[self.at + ahead] if self.at + ahead < len(self.words) else ""

    def step(self):
        """Passes over a token, or a pair of brackets with what is in it."""
        self.at = self.behind.get(self.at, self.at + 1)

    def text(self, begin):
        """The text from a token up to here, without comments, on one line."""
        text = self.words[begin] if begin < self.at else ""
        for before, token in zip(self.tokens[begin : self.at], self.tokens[begin + 1 : self.at]):
            text += " " * (before.end() < token.start()) + token["token"]
        return text

    def up_to(self, ends, begin=None):
        """The text up to one of these words that is in no brackets."""
        begin = self.at if begin is None else begin
        while self.peek() not in ends:
            if not self.peek():
                self.refuse(f"no {' or '.join(ends)}")
            self.step()
        return self.text(begin)

    def group(self):
        begin = self.at
        self.step()
        return self.text(begin)

    def items_up_to(self, end):
        items = []
        while self.at < end:
            items.append(self.item())
        return [item for item in items if item]

    def item(self):
        """The next item, or nothing for an import or a module."""
        attributes = []
        while self.peek() == "#":
            self.at += 1 + (self.peek(1) == "!")
            attributes.append("#" + self.group())
        attributes = [text for text in attributes if not re.match(r"#\[(tactic|inline|cycle)\b", text)]
        is_public = self.peek() == "pub" and self.peek(1) != "("
        if self.peek() == "pub":
            self.at += 1
            if self.peek() == "(":
                self.step()
        begin = self.at
        while self.peek() in ("unsafe", "const", "ghost") and self.peek(1) in ("fn", "impl", "use"):
            self.at += 1
        kind, name = self.peek(), self.peek(1)
        self.at += 1
        text = self.up_to(ENDS.get(kind, ";"), begin)
        if kind == "fn":
            return self.function(name, is_public, text)
        if kind in ("impl", "trait"):
            return self.block(kind, is_public, attributes, plain(text))
        if kind == "macro_rules":
            name = self.peek(-1)
            self.step()
            return Item("macro", name, bool(attributes), attributes, self.text(begin))
        fields = self.group() if kind in ("struct", "enum") and self.peek() != ";" else ""
        if kind != "enum" and self.peek() == ";":
            self.at += 1
        if kind in ("struct", "enum"):
            return Item(kind, name, is_public, attributes, plain(text), [plain(fields)])
        if kind in ("const", "type", "static", "ghost"):
            return Item(kind, name, is_public or kind == "ghost", attributes, text)
        if kind == "mod":
            return self.modules.add(name)
        if kind != "use":
            self.refuse(f"an item that begins with {kind}")
        if text.startswith("ghost"):
            self.ghosts += imports(text.removeprefix("ghost use "))
            return None
        return self.use(text.removeprefix("use "), is_public)

    def function(self, name, is_public, text):
        clauses = []
        while self.peek() in CLAUSES:
            begin = self.at
            self.up_to("{")
            self.step()
            clauses.append(self.text(begin))
        begin = self.at
        self.step()
        return Item("fn", name, is_public, [], re.sub(r"\bmut (?=\w+: )", "", plain(text)), clauses, [], tuple(self.words[begin : self.at]))

    def block(self, kind, is_public, attributes, text):
        end = self.behind[self.at] - 1
        self.at += 1
        outer, self.ghosts = self.ghosts, []
        members = self.items_up_to(end)
        inner, self.ghosts = self.ghosts, outer
        self.at += 1
        return Item(kind, NAME.match(text)[1], is_public, attributes, text, inner, members)

    def use(self, text, is_public, before=()):
        """A tree of imports, as the names that it brings in with their paths."""
        for part in split_list(text):
            head, brace, rest = part.partition("::{")
            if brace:
                self.use(rest[:-1], is_public, (*before, *head.split("::")))
                continue
            path, _, other = part.partition(" as ")
            steps = (*before, *path.split("::"))
            steps = steps[:-1] if steps[-1] == "self" else steps
            if steps[-1] == "*":
                self.refuse("an import of all names")
            self.uses[other or steps[-1]] = (steps, is_public)


def plain(text):
    """A signature or a declaration without what `rt fmt` adds where it breaks a line."""
    parts = re.split(r'("(?:\\.|[^"\\])*")', text)
    parts[::2] = [re.sub(r"([(\[]) ", r"\1", re.sub(r",? ?([)\]])", r"\1", re.sub(r",? }", " }", part))) for part in parts[::2]]
    return "".join(parts)


def split_list(text):
    """The parts of a list between commas that are in no brackets."""
    parts, depth, part = [], 0, ""
    for letter in text:
        depth += letter in OPENERS or letter == "<"
        depth -= letter in CLOSERS or (letter == ">" and part[-1:] not in ("-", "="))
        if letter == "," and depth == 0:
            parts.append(part.strip())
            part = ""
        else:
            part += letter
    return [part for part in parts + [part.strip()] if part]


def imports(text):
    """The names that `use PATH.{NAME, NAME as OTHER}` or `use PATH as OTHER` brings in, each with its path."""
    if listed := re.fullmatch(r"([\w.]+)\.\{(.*)\}", text):
        pairs = [name.strip().partition(" as ") for name in listed[2].split(",") if name.strip()]
        return [(other or name, f"{listed[1]}.{name}") for name, _, other in pairs]
    path, renamed, other = text.partition(" as ")
    if not renamed:
        raise Refused(f"an import of another form: {text}")
    return [(other, path)]


def differs(page, made, write, origin):
    """What differs from a page that is made from others, a line each; with `write` it is written anew."""
    if write:
        page.write_text(made)
    kept = page.read_text() if page.exists() else ""
    return difflib.unified_diff(kept.splitlines(), made.splitlines(), str(page.relative_to(ROOT)), origin, lineterm="")


@cache
def source(crate, path):
    return Source(crate, path)


@cache
def sources(crate):
    return [source(crate, path) for path in sorted((ROOT / "crates" / crate / "src").rglob("*.rt"))]


def module_file(crate, steps):
    """The file of a module, or None."""
    folder = ROOT / "crates" / crate / "src"
    paths = [folder.joinpath(*steps).with_suffix(".rt")] if steps else [folder / "lib.rt", folder / "main.rt"]
    return next((path for path in paths if path.exists()), None)


def place_of(crate, steps):
    """Where the item of a Rust path stands: its source and the item; None outside the tree or for a module."""
    *modules, name = steps
    path = module_file(crate, modules)
    if not path:
        return None
    here = source(crate, path)
    found = [item for item in here.items if item.kind not in ("impl", "ghost") and item.name == name]
    return (here, found[0]) if found else through(here, name)


def through(here, name):
    """The item that an import of a source has under this name."""
    if name not in here.uses:
        return None
    first, *rest = here.uses[name][0]
    own = own_steps(here)
    modules = {"crate": [], "self": own, "super": own[:-1]} | {module: [*own, module] for module in here.modules}
    if first in ALL_CRATES:
        return place_of(first, rest)
    return place_of(here.crate, [*modules[first], *rest]) if first in modules else None


def own_steps(here):
    """The path of the module that a source is, without the crate."""
    steps = list(here.path.relative_to(ROOT / "crates" / here.crate / "src").with_suffix("").parts)
    return [] if steps in (["lib"], ["main"]) else steps
