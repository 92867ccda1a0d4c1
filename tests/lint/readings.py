"""A listing and the meaning of a text are defined separately, so that the law of reassembly compares two definitions. What both use is
listed here: each module of `specs/` that the imports of both lead to, and the names that either group takes from it. If a module or a name
is added or removed, check it, and then change the list."""

from functools import cache

from definitions import definitions, resolved, specs_file
from source import ROOT

# The modules with which the definition of a listing begins, and those of the meaning of a text. The types of the code (`declared`) and
# what is said of a constant (`contracts`) are not definitions.
LISTING = "da65.Listing stmt65.Line stmt65.Printable stmt65.Code.StatementViews"
TEXT = "stmt65.Meaning stmt65.LineAddresses stmt65.Spelling stmt65.Spacing stmt65.Code.MeaningViews"
SHARED = """
isa65.Cmos65Sc02
isa65.Cpu cpu_named cpu_text table_of
isa65.Mnemonic mnemonic_named text_of
isa65.Mode expression len_of pattern_text row_of row_text size_of zero_page_of
isa65.Mos6502
isa65.Opcodes Table decoded encoded sibling_in
isa65.Rockwell65C02
stmt65.Directives directive_named directive_text
stmt65.Names is_name same
stmt65.SourceLine * Accumulator Assignment Code Data Datum DifferenceValue Empty Form HalfDatum Instr LessValue NameValue Nothing NumberDatum NumberValue One Operation PlaceAssignment Reserve Segment SetCpu SourceLine Statement StringDatum Two Value ValueDatum Values is_absolute
text65.Names has_name_form is_blank is_reserved_word is_word_byte
"""


@cache
def taken(module):
    """The definitions that a module imports, each as the module where it stands and its name, or `*` for a whole module."""
    crate, *steps = module.split(".")
    found = {(path.rpartition(".")[2], resolved(path)) for _, path in definitions(specs_file(crate, steps)).imports}
    crates = ROOT / "crates"
    return {
        (".".join(target[1].relative_to(crates).with_suffix("").parts).replace(".specs.", "."), "*" if target[0] == "module" else name)
        for name, target in found
        if target[0] in ("module", "definition")
    }


def reached(modules):
    """The modules that the imports of these lead to."""
    found, left = set(), modules.split()
    while left:
        module = left.pop()
        if module not in found:
            found.add(module)
            left += [other for other, _ in taken(module)]
    return found


def shared():
    """The modules that both groups lead to, each with the names that a module of one group alone takes from it."""
    listing, text = reached(LISTING), reached(TEXT)
    names = {use for module in listing ^ text for use in taken(module)}
    return {" ".join([module, *sorted(name for other, name in names if other == module)]) for module in listing & text}


def check(write):
    found, listed = shared(), set(SHARED.strip().split("\n"))
    for line in sorted(found - listed):
        yield f"both share {line}, which tests/lint/readings.py does not list"
    for line in sorted(listed - found):
        yield f"they do not share {line}, which tests/lint/readings.py lists"
