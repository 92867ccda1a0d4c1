"""Clauses, proofs and the crates above import the definitions of a crate from its `specs/Words`, and the files of its `specs/` import its
types from `specs/Types`, if the crate has these files. Somebody imports each name that they hand on. A `ghost use` within a block of code may
name the module itself: that of a view must, since `Words` stands above the types of the code. A type of another crate is imported from where
it is declared."""

import re

from definitions import definitions, specs_file
from source import ALL_CRATES, ROOT, imports

USE = re.compile(r"( *)(?:ghost |(?:unfoldable )?pub )?use (Rattle\.(\w+)\.specs\.[^;]+);?")


def handed_on(crate, name):
    """What a file of a crate hands on: the path of each name."""
    path = specs_file(crate, [name])
    return definitions(path).handed_on if path.exists() else {}


def files():
    for crate in ALL_CRATES:
        for kind in ("src", "specs", "proofs"):
            folder = ROOT / "crates" / crate / kind
            yield from ((crate, kind, path) for path in sorted(folder.rglob("*")) if path.suffix in (".rt", ".antt"))


def check(write):
    used = set()
    for crate, kind, path in files():
        for number, line in enumerate(path.read_text().splitlines(), 1):
            found = USE.fullmatch(line)
            own_specs = found and found[3] == crate and kind == "specs"
            if not found or own_specs and path.stem in ("Words", "Types"):
                continue
            for _, target in imports(found[2]):
                module, name = target.rsplit(".", 1)
                place = module.rpartition(".specs.")[2]
                if place in ("Words", "Types"):
                    used.add((found[3], place, name))
                elif not (found[1] and path.suffix == ".rt") and (found[3] == crate or not place.startswith("declared.")):
                    wanted = "Types" if own_specs else "Words"
                    if handed_on(found[3], wanted).get(name) == target:
                        yield f"{path.relative_to(ROOT)}:{number}: {name} is to be imported from {wanted}"
    for crate in ALL_CRATES:
        for place in ("Words", "Types"):
            for name, target in handed_on(crate, place).items():
                passed_on = place == "Types" and handed_on(crate, "Words").get(name) == f"Rattle.{crate}.specs.Types.{name}"
                if (crate, place, name) not in used and not passed_on:
                    yield f"crates/{crate}/specs/{place}.antt: nobody imports {name}"
