"""da65 on real files: what it writes, where, and with which status. Most rows are in tests/rows/da65.txt."""
import re, string
import pytest
from conftest import ROOT, in_pieces, same, tables, write

TEXTS, _ = tables(__name__)
HEADER = TEXTS["HEADER"]


def test_lists(da65, words, body, warning, cpu):
    da65(words, 0, HEADER.replace("6502", cpu or "6502") + body, warning)


def test_runs(da65, given, words, status, out, err, after, stdin):
    da65.does(given, words, status, out, err, after, stdin)


NAMES = sorted(str(path.relative_to(ROOT / "names"))[:-4] for path in (ROOT / "names").rglob("*.inc"))


def test_machines_and_chips_that_have_names():
    assert len([name for name in NAMES if "/" not in name]) == 21
    assert len([name for name in NAMES if name.startswith("chips/")]) == 6
    assert {path.stem for path in (ROOT / "names").glob("*.info")} < set(NAMES)


@pytest.mark.parametrize("name", NAMES)
def test_the_names_of(da65, trace65, name):
    """The lines of an include file, each with a comment, are in the order of their addresses: a listing that has none
    of these defines them all. What has several bytes, by the information file beside it, ends before the next name."""
    names = {int(value, 16): word for word, value in re.findall(
        r"^(\w+) += \$([0-9A-F]{4})  ; \S", (ROOT / f"names/{name}.inc").read_text(), re.M)}
    beside = ROOT / f"names/{name}.info"
    groups = beside.read_text() if beside.exists() else ""
    write("machine.info", f'GLOBAL {{ STARTADDR $3000; }};\n{groups}ASMINC {{ FILE "names/{name}.inc"; }};')
    constants = "".join(f"{word:15} := ${at:04X}\n" for at, word in names.items())
    da65("-i machine.info three.bin", 0, f"{HEADER}{constants}\n{TEXTS['THREE']}")
    trace65("-i machine.info three.bin", 0, None)
    for at, size in re.findall(r"^LABEL .* ADDR \$(\w+);.* SIZE (\d+);", groups, re.M):
        assert not names.keys() & set(range(int(at, 16) + 1, int(at, 16) + int(size))), f"{size} bytes at ${at}"


@pytest.mark.parametrize("size", (1, 4095, 4096, 4097, 4999, 5000, 5001, 8191, 8192, 8193),
                         ids=lambda size: f"{size} bytes")
def test_sizes(da65, size):
    """Around those of the reads and the writes: of an input, and of a pipe in two pieces."""
    image, listing = size * b"\xea", HEADER + size * "        nop\n"
    da65(write("sized.bin", image), 0, listing)
    da65("/dev/stdin", 0, listing, stdin=in_pieces(image[:1], image[1:], 0.02))


def test_reads_info(da65, info, message, words):
    """The fault of an information file. One that is accepted names no input."""
    write("a.info", info)
    da65.refuses(f"-i a.info {words}", message)


PRINTED = bytes(range(0x20, 0x7F)).decode()
EXPECTED = "info:1: something else expected"
OPEN = "info:1: string not closed"
# What a byte is alone, in a string and in a character constant. Each other byte is a bad one.
CLASSES = {
    "alone": ("", {"\t\n\r #": "no input file", string.digits + ";{}": EXPECTED, "$": "info:1: bad number", '"': OPEN,
                   string.ascii_letters + "_": "info:1: unknown group"}),
    "in a string": ('"', {"\n\r": OPEN, "\t" + PRINTED + "".join(map(chr, range(0x80, 0x100))): EXPECTED}),
    "in a character constant": ("'", {PRINTED: EXPECTED}),
}


@pytest.mark.parametrize("kind", CLASSES)
def test_each_byte(da65, kind):
    quote, messages = CLASSES[kind]
    for byte in map(chr, range(256)):
        write("a.info", quote + byte + quote)
        da65.refuses("-i a.info", next((text for some, text in messages.items() if byte in some), "info:1: bad byte"))


def test_bytes(da65, image, body, info, words, warning):
    """The lines after the header, of an image at $1000 if nothing else is said."""
    cpu = (re.search(r"--cpu (\S+)", words) or ["", "6502"])[1]
    write("a.info", info)
    words = f"{words or '-S 0x1000'} -i a.info {write('a.bin', bytes.fromhex(image))}"
    da65(words, 0, HEADER.replace("6502", cpu) + body, warning)


def test_whole(da65, image, listing, info, words):
    write("a.info", info)
    da65(f"{words} -i a.info {write('a.bin', bytes.fromhex(image))}", 0, listing)


def test_includes(da65, text, names, group):
    """The names of an include file, with a label at 3, by their addresses; or its fault."""
    write("k.inc", text)
    write("a.info", f'LABEL {{ ADDR 3; NAME "go"; }};\nASMINC {{ FILE "k.inc"; {group} }};')
    if names.startswith("include"):
        da65.refuses("-i a.info three.bin", names)
    else:
        constants = "".join("{:15} := ${}\n".format(*name.split()) for name in names.split(","))
        da65("-S 0x2000 -i a.info three.bin", 0, f"{HEADER}{constants}\n{TEXTS['THREE']}")


def test_the_largest_offset(da65):
    write("a.info", "GLOBAL { INPUTOFFS 16777216; INPUTSIZE $10000; PAGELENGTH 0; STARTADDR 0; }")
    image = 16777216 * b"\0" + 65536 * b"\xea" + b"\0"
    da65(f"-i a.info {write('large.bin', image)}", 0, HEADER + 65536 * "        nop\n")


def test_nothing_is_read_after(da65, words, text, message):
    """Nothing is read after the bytes that show that a file is too large."""
    pipe = in_pieces(1048577 * text + "rest")
    da65.refuses(words, message, stdin=pipe)
    same("rest", pipe.read(), "what is left in the pipe")
