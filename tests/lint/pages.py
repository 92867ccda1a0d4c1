"""Each link of a page leads to a file, or to a heading of it. Each name that a page about the code has in back quotes stands in the tree: it
is a file, a folder, or a word of the code, of a definition, of a proof or of a script. The README has at most 160 lines."""

import re

from source import ROOT

README_LINES = 160
ABOUT_CODE = ("ARCHITECTURE", "CONTRIBUTING", "DECISIONS", "GATE", "LIBRARY", "PROOFS")
# Names of std, of the prover's files and of an instruction.
OUTSIDE = {"BufWriter", "HashMap", "Lts", "bbr", "bbs"}
CODE = ("crates/*/src/**/*.rt", "crates/*/specs/**/*.antt", "crates/*/proofs/**/*.antt", "crates/*/must-fail/*", "tests/*.py",
        "tests/lint/*.py", "tests/stand_ins/*", "release/*", ".ci/run")
NAMED = ("*", "crates/*", "docs/*", "names/*", "tests/*", "examples/*")


def shown(path):
    """The text of a page without its blocks of code."""
    return re.sub(r"^```.*?^```", "", path.read_text(), flags=re.MULTILINE | re.DOTALL)


def anchors(path):
    """What links to the headings of a page end with."""
    heads = re.findall(r"^#+ (.*)", shown(path), re.MULTILINE)
    return {re.sub(r"[^\w -]", "", head.lower()).replace(" ", "-") for head in heads}


def lost_links(path):
    for target in re.findall(r"\]\(([^)\s]+)\)", shown(path)):
        name, _, heading = target.partition("#")
        file = path.parent / name if name else path
        if "://" not in target and not (file.exists() and (not heading or heading in anchors(file))):
            yield f"{path.name}: no {target}"


def names_of_tree():
    files = [file for pattern in CODE for file in ROOT.glob(pattern)]
    names = {word for file in files for word in re.findall(r"[\w'-]+", file.read_text())}
    names |= {word for words in list(names) for word in words.split("-")}
    for file in [*files, *(file for pattern in NAMED for file in ROOT.glob(pattern))]:
        names |= {file.stem, *file.relative_to(ROOT).parts}
    return names


def lost_names(path, known):
    for name in re.findall(r"`([A-Za-z_][\w:/.-]*\w)`", shown(path)):
        lost = [part for part in re.split(r"::|[/.]", name) if part not in known]
        if lost:
            yield f"{path.name}: no {name} in the tree"


def check(write):
    known = names_of_tree() | OUTSIDE
    for path in sorted([*ROOT.glob("*.md"), *(ROOT / "docs").glob("*.md")]):
        yield from lost_links(path)
        if path.stem in ABOUT_CODE:
            yield from lost_names(path, known)
    lines = len((ROOT / "README.md").read_text().splitlines())
    if lines > README_LINES:
        yield f"README.md: {lines} lines, and not at most {README_LINES}"
