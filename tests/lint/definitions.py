"""The definitions that contracts cite: the files of `specs/`, what each definition cites in turn, and a checksum over all of that."""

import hashlib
import re
from functools import cache
from typing import NamedTuple

from source import ALL_CRATES, ATTRIBUTE, ROOT, TYPES, Refused, imports, module_file, own_steps, source, through

TOKEN = re.compile(r'"(?:\\.|[^"\\])*"|\w[\w\'-]*|[^\w\s"(){}.,]+|\S')
# What a block of definitions begins with. Its equations, and whatever is indented, belong to it.
HEAD = re.compile(r"(?:(?:pub|abbrev|unfoldable|record|data) )+(?:data |record )?([^\s:]+)|([^\s:]+) :|module _ |infix[lr]? \d+ (\S+)")
# What a name of a contract can stand for in the code.
NAMED = (*TYPES, "const")


class Definition(NamedTuple):
    """A definition or a type that contracts cite: its name, its own text, and what it cites."""

    name: str
    text: str
    cited: set


class Definitions:
    """A file of definitions: its blocks, each with the names that it defines, and the names of other files that it hands on."""

    def __init__(self, path):
        self.names, self.blocks, self.imports, self.handed_on = {}, {}, [], {}
        name = None
        for number, line in enumerate(path.read_text().splitlines(), 1):
            bare = re.sub(r'^((?:[^"]|"(?:\\.|[^"\\])*")*?)\s*--(?: .*|$)', r"\1", line).rstrip()
            if not bare or bare.startswith("pub mod "):
                continue
            if brought := re.match(r"((?:unfoldable )?pub )?use (.*)", bare):
                found = imports(brought[2])
                self.handed_on.update(found) if brought[1] else self.imports.extend(found)
                continue
            if "Rattle." in bare:
                raise Refused(f"{path.relative_to(ROOT)}:{number}: names of other files outside `use` lines")
            if head := HEAD.match(bare):
                name = head[1] or head[2] or head[3] or f"module {number}"
                self.names[name] = name
                has_members = bare.startswith(("module _ ", "pub data", "data"))
            self.blocks.setdefault(name, []).append(bare)
            inner = re.match(r"  (?:pub )?([^:=()]+) : ", bare)
            for word in inner[1].split() if inner and has_members else ():
                self.names.setdefault(word, name)


def specs_file(crate, steps):
    return (ROOT / "crates" / crate / "specs").joinpath(*steps).with_suffix(".antt")


@cache
def definitions(path):
    return Definitions(path)


@cache
def resolved(path):
    """What a path of an import names: ("definition", file, name), ("type", crate, file, name), ("module", file), or the path as the
    snapshot shows it if it is outside the tree or a proof."""
    crate, kind, *steps = path.removeprefix("Rattle.").split(".")
    if not path.startswith("Rattle.") or crate not in ALL_CRATES or kind == "proofs":
        return path.replace("Rattle.", "").replace(".specs.", ".")
    if steps[0] in ("declared", "contracts"):
        for count in reversed(range(1, len(steps))):
            if file := module_file(crate, steps[1:count]):
                return ("type", crate, file, steps[count + (steps[count] == "TheConstants")])
    if specs_file(crate, steps).exists():
        return ("module", specs_file(crate, steps))
    *steps, name = steps
    file = specs_file(crate, steps)
    here = definitions(file) if file.exists() else None
    if here and name in here.names:
        return ("definition", file, here.names[name])
    if here and name in here.handed_on:
        return resolved(here.handed_on[name])
    raise Refused(f"nothing in the tree is {path}")


def cited_in(text, named):
    """What a text cites, by the names that can be used in it: tokens of it, or, of a name with holes, the words between these."""
    words, cited = TOKEN.findall(text), set()
    for name, target in named.items():
        if not set(name.split("◌")) - {""} <= set(words):
            continue
        if target[0] != "module":
            cited.add(target)
            continue
        inside = definitions(target[1]).names
        for word, dot, member in zip(words, words[1:], words[2:]):
            if (word, dot) == (name, "."):
                if member not in inside:
                    raise Refused(f"{target[1].relative_to(ROOT)}:1: nothing is named {member} here, but something cites it")
                cited.add(("definition", target[1], inside[member]))
    return cited


@cache
def names_in(path):
    """What the names in a file of definitions stand for."""
    here = definitions(path)
    named = {name: ("definition", path, block) for name, block in here.names.items()}
    return named | {name: resolved(target) for name, target in here.imports}


@cache
def types_in(here):
    """The types and constants of the tree that a source can name."""
    own = {item.name: (here, item) for item in here.items if item.kind in NAMED}
    found = own | {name: place for name in here.uses if (place := through(here, name)) and place[1].kind in NAMED}
    return {name: ("type", place.crate, place.path, item.name) for name, (place, item) in found.items()}


@cache
def definition(entity):
    """The definition or the type itself."""
    if entity[0] == "definition":
        _, path, name = entity
        text = "\n".join(definitions(path).blocks[name])
        crate, _, *steps = path.with_suffix("").relative_to(ROOT / "crates").parts
        return Definition(".".join([crate, *steps, name]), text, cited_in(text, names_in(path)) - {entity})
    _, crate, path, name = entity
    here = source(crate, path)
    found = [item for item in here.items if item.kind not in ("impl", "fn") and item.name == name]
    if not found:
        raise Refused(f"{path.relative_to(ROOT)}:1: no type {name}")
    text = ATTRIBUTE.sub("", f"{found[0].text} {' '.join(found[0].clauses) if found[0].kind != 'trait' else ''}")
    return Definition("::".join([crate, *own_steps(here), name]), text, cited_in(text, types_in(here)) - {entity})


@cache
def checksum(entity):
    """Covers the text of a definition, and of each that it cites, and so on, and what their names stand for."""
    reached, left = set(), [entity]
    while left:
        one = left.pop()
        if one in reached or isinstance(one, str):
            continue
        reached.add(one)
        left += definition(one).cited
    lines = []
    for one in reached:
        found = definition(one)
        outside = sorted(other if isinstance(other, str) else definition(other).name for other in found.cited)
        lines.append("\n".join([found.name, found.text, *outside]))
    return hashlib.sha256("\n\n".join(sorted(lines)).encode()).hexdigest()[:12]

