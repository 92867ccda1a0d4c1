"""A snapshot of the public contracts: docs/contracts/CRATE.txt has every public item of a crate that has clauses, these word for word, and at its
end a checksum of each definition that they cite. Public is what the root of a library exports, and whatever a row of docs/PROOFS.md names; in a program,
every `pub` item."""

import re

from definitions import checksum, cited_in, definition, resolved, types_in
from proofs import rows
from source import ATTRIBUTE, CRATES, IMPL, ROOT, TYPES, differs, module_file, source, sources, split_list, through

SNAPSHOT = ROOT / "docs" / "contracts"
PRELUDE = "std.Prelude"
CLAUSE = re.compile("requires|ensures|decreases|ghost")
CITES = "cites "


def entry(here, head, lines, ghosts=()):
    """An item of the snapshot: its name, its lines, and what these cite."""
    named = types_in(here) | {name: resolved(target) for name, target in [*here.ghosts, *ghosts]}
    clauses = list(filter(CLAUSE.match, lines))
    if any(re.search(r"\bRattle\b|\bcrate\b", line) for line in clauses):
        here.refuse(f"{head} names other files outside `ghost use`")
    cited = set().union(*(cited_in(line, named) for line in clauses))
    outside = {one for one in cited if isinstance(one, str)}
    sums = sorted(f"{CITES}{definition(one).name} {checksum(one)}" for one in cited - outside)
    return head, [*lines, *sums, *sorted(CITES + one for one in outside if not one.startswith(PRELUDE))]


def visible(text):
    """The fields of a struct that are public, and `..` if there are others."""
    if not text:
        return ""
    fields = split_list(ATTRIBUTE.sub("", text[1:-1]))
    shown = [field for field in fields if field.startswith("pub ")]
    return text[0] + " " + ", ".join(shown + [".."] * (len(shown) < len(fields))) + " " + text[-1]


def block_entries(here, item, is_public_type):
    """The entries of a trait, of an `impl` of a trait, or of the methods of a type; none for a trait that is not public."""
    of_trait, laws = re.match(rf"{IMPL} (.*) for ", item.text), set()
    if of_trait:
        found = types_in(here).get(re.match(r"\w+", of_trait[1])[0])
        if found:
            declared = next(one for one in source(*found[1:3]).items if one.name == found[3] and one.kind == "trait")
            if not is_public_type(here, declared.name):
                return
            laws = {one.name for one in declared.members if re.match(r"ghost \w+: \{ \(", one.text)}
    ghosts = [one.text for one in item.members if one.kind == "ghost" and one.name not in laws]
    if item.kind == "trait" or of_trait:
        # A member of a trait that binds names is a law. An `impl` has its proof, which is no promise.
        types = [one.text + ";" for one in item.members if one.kind in ("type", "const")]
        head = item.name if item.kind == "trait" else f"{item.name}: {of_trait[1]}"
        yield entry(here, head, [item.text, *types, *ghosts], item.clauses)
    for one in item.members:
        if one.kind == "fn" and (one.is_public or item.kind == "trait" or (of_trait and one.clauses)):
            head = f"{item.name}::{one.name}"
            yield entry(here, head, [*([item.text] if item.kind == "impl" else []), one.text, *one.clauses], item.clauses)
        elif one.kind in ("const", "type") and one.is_public and not of_trait:
            yield entry(here, f"{item.name}::{one.name}", [item.text, one.text + ";"], item.clauses)


def given_out(crate):
    """What the root of a library gives out: the file of each item by its name, and the items of other crates."""
    root = source(crate, module_file(crate, []))
    found = {steps: through(root, name) for name, (steps, is_public) in root.uses.items() if is_public}
    for steps in (steps for steps, place in found.items() if not place):
        root.refuse(f"nothing in the tree is {'::'.join(steps)}")
    own = {item.name: here.path for here, item in found.values() if here.crate == crate}
    for here, item in found.values():
        if item.kind == "type" and (target := types_in(here).get(re.match(r"type \w+(?:<[^>]*>)? = (\w+)", item.text)[1])):
            own[target[3]] = target[2]
    return own, ["::".join(steps) for steps, (here, _) in found.items() if here.crate != crate]


def entries(crate):
    """The public items of a crate."""
    root = source(crate, module_file(crate, []))
    promised = {name.partition(": ")[0] for _, _, calls in rows(crate) for name in calls}
    own, others = given_out(crate)

    def is_public(here, item):
        if item.name in promised:
            return True
        if root.path.name == "main.rt" or item.kind == "macro" or here is root:
            return item.is_public
        return own.get(item.name) == here.path

    def is_public_type(here, name):
        found = types_in(here).get(name)
        if not found or found[1] != crate:
            return True
        there = source(crate, found[2])
        return any(is_public(there, one) for one in there.items if one.kind in TYPES and one.name == found[3])

    for other in others:
        yield f"use {other}", []
    for here in sources(crate):
        for item in here.items:
            if item.kind == "impl":
                if is_public_type(here, item.name) or any(f"{item.name}::{one.name}" in promised for one in item.members):
                    yield from block_entries(here, item, is_public_type)
            elif is_public(here, item):
                yield from block_entries(here, item, is_public_type) if item.kind == "trait" else [plain_entry(here, item)]


def plain_entry(here, item):
    """The entry of a function, a type or a constant."""
    if item.kind == "fn":
        return entry(here, item.name, [item.text, *item.clauses])
    if item.kind in ("struct", "enum"):
        fields = visible(item.clauses[0]) if item.kind == "struct" else item.clauses[0]
        return entry(here, item.name, [*item.attributes, f"{item.text} {fields}".strip()])
    return entry(here, item.name, [item.text + ";"])


def snapshot(crate):
    """The entries that have a clause, each with its `impl` in its first line, and then each definition that one of them cites, once."""
    listed, cited = [], set()
    for head, lines in sorted(one for one in entries(crate) if any(map(CLAUSE.match, one[1]))):
        cited.update(line.removeprefix(CITES) for line in lines if line.startswith(CITES))
        lines = [line for line in lines if not line.startswith(CITES)]
        listed.append((f"{head} of {lines[0]}", lines[1:]) if lines[0].startswith("impl") else (head, lines))
    if cited:
        listed.append(("definitions", sorted(cited)))
    return "".join(head + "\n" + "".join(f"    {line}\n" for line in lines) + "\n" for head, lines in listed)


def check(write):
    """What differs from the snapshot, a line each; with `write` it is written anew."""
    found = {f"{crate}.txt": snapshot(crate) for crate in CRATES}
    for name in sorted(found.keys() | {path.name for path in SNAPSHOT.glob("*")}):
        yield from differs(SNAPSHOT / name, found.get(name, ""), write and name in found, "the tree")
