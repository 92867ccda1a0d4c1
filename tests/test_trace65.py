"""trace65 on real files: its messages, and what it proposes; how good that is, is for test_moves.py. da65 lists each
image with the proposals, and it comes back from that, by names too. Most rows are in tests/rows/trace65.txt."""
import random, re
import pytest
from conftest import CPUS, command, raw, read, same, tables, write


def words_for(data, words, info):
    """The words for an image, by default from $1000 on, and for an information file. `--` is no word. The image is one
    of examples/, or has these bytes, which are a text or hexadecimal."""
    given = f"-i {write('a.info', info)}" if info else ""
    if data and not data.startswith("examples/"):
        is_hexadecimal = re.fullmatch("([0-9A-F]{2} )*[0-9A-F]{2}", data)
        data = write("image.bin", bytes.fromhex(data) if is_hexadecimal else data)
    return f"{'' if words == '--' else words or '-S 0x1000'} {given} {data}"


def test_runs(trace65, given, words, status, out, err, after, stdin):
    trace65.does(given, words, status, out, err, after, stdin)


def test_refuses(trace65, words, message, info):
    write("a.info", info)
    trace65.refuses(words, message)


# For each test of the rows of a kind of line how such a line is written, and how the rows write it.
FORMS = {
    "test_ranges": (r"RANGE \{ START \$(....); END \$(....); TYPE (.*); \}; # .*", r"\1-\2 \3"),
    "test_halves": (r"#: HALVES \{ LOW \$(....); HIGH \$(....); \}; # \$(.*)", r"\1,\2: \3"),  # address and name
    # and what lies after the image
    "test_labels": (r'(?:LABEL|#: AFTER) \{ (?:ADDR|START) \$(....); (?:NAME "|END \$)(.*?)"?; \};', r"\1 \2"),
    "test_skips": (r"RANGE \{ START \$(....); SIZE 1; TYPE ByteTable; \}; # skips \$(....)", r"\1 \2"),
    "test_shown": (r"RANGE .*; \}; # (.*)", r"\1"),  # what stands after each proposed range
    "test_misplaced": (r"# ((entry|range|the vectors|the halves) .*)", r"\1"),  # what lies at the wrong place
    "test_likely": (r"# ((the word|what follows|the operands) .*)", r"\1"),
    "test_unshown": (r"# no item of its own: (.*)", r"\1"),  # reached instructions that the listing does not show
}


def says(trace65, form, words, wanted):
    """trace65 writes exactly these lines of a form."""
    line, short = FORMS[form]
    run = trace65.run(words).gives(0, None)
    found = [re.sub(line, short, text) for text in run.out.decode("latin-1").splitlines() if re.fullmatch(line, text)]
    same(wanted, "".join(text + ("|" if form == "test_shown" else ";") for text in found), run.line)


def of(form):
    def test(trace65, data, words, wanted, info):
        says(trace65, form, words_for(data, words, info), wanted)
    test.__name__ = form
    return test


globals().update({form: of(form) for form in FORMS})


def test_helps(trace65, data, line, count, info):
    """So many lines begin so."""
    assert ("\n" + trace65(words_for(data, "", info), 0, None).out.decode()).count("\n" + line) == count


def test_text(trace65, data, words, wanted, info):
    trace65(words_for(data, words, info), 0, tables(__name__)[0]["LEGEND"] + wanted)


def test_whole(trace65, data, words, info):
    """With --whole the information file stands before what is written without."""
    words = words_for(data, words, info)
    text = trace65(words, 0, None).out
    trace65("--whole " + words, 0, raw(info) + text)
    if info:
        trace65.refuses(f"--whole {words} -o a.info", "a.info exists")
        trace65(f"--whole {words} -o second.info")
        for form in "test_ranges", "test_halves":
            says(trace65, form, "-S 0x1000 -i second.info image.bin", "")


@pytest.fixture
def listed(trace65, da65, as65):
    """da65 accepts what is proposed on the words, and the image comes back from its listing, listed.s."""
    def comes_back(words):
        *most, data = words.split()
        trace65(f"{words} -o proposed.info")
        write("listed.info", (read(most[most.index("-i") + 1]) if "-i" in most else b"") + read("proposed.info"))
        da65(f"-S {most[1]} -i listed.info -o listed.s {data}", err=None)
        as65(f"-S {most[1]} --compare {data} listed.s")
    return comes_back


@pytest.fixture(params=["as65", pytest.param("ca65", marks=pytest.mark.ca65)])
def named(request, listed, name65, as65):
    """And so it does from the listing by names, by as65, and by ca65 and ld65."""
    def comes_back(words):
        listed(words)
        _, start, *_, data = words.split()
        name65(f"-S {start} -i listed.info -o named.s listed.s")
        if request.param == "as65":
            return as65(f"-S {start} --compare {data} named.s")
        command("ca65 --relax-checks -o named.o named.s")
        command(f"ld65 -t none -S {start} -D __STACKSTART__=0x10800 -o named.bin named.o")
        same(read(data), read("named.bin"), "other bytes by names")
    return comes_back


def test_comes_back(named, start, data, words, info):
    named(words_for(data, f"-S {start} {words}", info))


@pytest.mark.parametrize("cpu", CPUS)
@pytest.mark.parametrize("seed", range(1, 6), ids=lambda seed: f"random image {seed}")
def test_random_images_come_back(named, seed, cpu):
    draw = random.Random(f"{seed} {cpu}")
    named(f"-S 0x2000 --cpu {cpu} {write('random.bin', draw.randbytes(draw.randint(1, 3000)))}")


@pytest.mark.parametrize("byte", range(256), ids=lambda byte: f"64 KiB of the byte {byte}")
def test_64_kib_come_back(listed, byte):
    listed(f"-S 0 --cpu 65C02 {write('whole.bin', 65536 * bytes([byte]))}")


OPERATIONS = ("nop", "lda #$41", "sta $0200", "inx", "ldy $20", "jsr L1", "bne L1", "lda ($20),y", "jsr L2", "beq L2")


def program_text(seed):
    """The text of a random program, whose jumps pass over tables of bytes."""
    draw, lines = random.Random(seed), []
    count = draw.randint(2, 31)
    for block in range(1, count + 1):
        lines.append(f"L{block}:")
        lines += ["        " + draw.choice(OPERATIONS[:None if block < 3 else -4]) for _ in range(draw.randint(1, 9))]
        lines.append(f"        jmp L{block + 1 if block < count else 1}")
        lines += [f"        .byte ${draw.randrange(256):02x}" for _ in range(draw.randrange(12))]
    return "\n".join(lines) + "\n"


@pytest.mark.parametrize("words", ("", "--plain"), ids=("with sound beginnings", "plainly"))
@pytest.mark.parametrize("seed", range(1, 21), ids=lambda seed: f"random program {seed}")
def test_programs_come_back(named, as65, seed, words):
    write("code.s", program_text(seed))
    as65("-S 0x2000 -o code.bin code.s")
    named(f"-S 0x2000 {words} code.bin")
    mnemonics, given = (re.findall(rb"(?m)^(?:\w+:)?[ \t]+([a-z]{3})\b", read(name)) for name in ("listed.s", "code.s"))
    assert not words or mnemonics == given
