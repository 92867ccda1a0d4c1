"""No contract can tell a made-up "out of memory" from a real one. So the functions that return one are listed here, each with how often:
if one is added or removed, check it, and then change the list. An import that gives such a variant another name, or imports it by itself, is
refused, since its uses could not be found."""

import collections
import re

from source import ALL_CRATES, sources

TESTS = ("conformance",)
ANSWERS = ("AllocError", "AllocFailed", "OutOfMemory", "out_of_memory")
# Those that stand after `::` alone.
VARIANTS = ("Memory", "MEMORY")
ALLOWED = {
    "as65": "Scene::meaning 2, failure_of 2",
    "da65": "all_names 2, image_message 1, list_input 2, needs_read 2, refuse_image 2, run_read 2, stop_of 2",
    "files65": "Failure::from 3, FileFault::from 1, FileFault::of_error 2, FileFault::of_opening 1, address_in 2, contents 2, failure_of 4, name_in 2, read_from 2, say 1",
    "info65": "InfoFault::MEMORY 1, InfoFault::from 2, InfoFaultKind::text 1, narrow 1",
    "map65": "ImageFault::from 2, TakeFault::from 1",
    "move65": "failure_for 2, has_found 1, refused 2",
    "name65": "Failure::from 2, Refusal::from 1, with_labels_first 2",
    "step65": "program 2",
    "open65": "Text::whole 1, information 2, is_read_back 1, run 1, unnamed 1",
    "stmt65": "AsmFault::from 1, Symbols::define 1",
    "trace65": "failure_of 2",
    "usage65": "RequestFault::from 3, UsageFault::from 2, UsageFault::of_words 2, accepted 2",
}


def named(words):
    """How often words name such an answer."""
    return sum(word in ANSWERS or (word in VARIANTS and before == "::") for before, word in zip(("", *words), words))


def functions(items, owner=""):
    """The words of the functions and constants of some items, each with the type that it belongs to."""
    for item in items:
        if item.kind == "fn":
            yield owner + item.name, item.body
        elif item.kind == "const":
            yield owner + item.name, re.findall(r"\w+|::", item.text)
        elif item.kind in ("impl", "trait"):
            yield from functions(item.members, f"{item.name}::")


def found():
    """The functions of all crates but the tests that name such an answer, and the imports that hide one, each with how often."""
    counts = collections.Counter()
    for crate in ALL_CRATES:
        for here in sources(crate) if crate not in TESTS else ():
            for name, (steps, _) in here.uses.items():
                if steps[-1] in (*ANSWERS, *VARIANTS) and (name != steps[-1] or steps[-1] in (*VARIANTS, "OutOfMemory")):
                    counts[f"{crate} imports {'::'.join(steps)} in {here.path.name}"] += 1
            for name, body in functions(here.items):
                counts[f"{crate} {name}"] += named(body)
    return counts


def check(write):
    listed = {f"{crate} {name}": int(count) for crate, names in ALLOWED.items() for name, count in re.findall(r"(\S+) (\d+)", names)}
    here = found()
    for place in sorted(listed.keys() | here.keys()):
        if listed.get(place, 0) != here[place]:
            yield f"{place}: {here[place]} answers out of memory, and {listed.get(place, 0)} are listed in tests/lint/memory.py"
