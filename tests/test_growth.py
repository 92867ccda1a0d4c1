"""What a run takes, and that it keeps working as its input grows, which no contract promises: large inputs, long names,
calls and memory; each allocation refused in turn. Most rows are in tests/rows/growth.txt."""
import pytest
from conftest import fails, holds, same, write

HEADER = '; da65 listing\n\n        .setcpu "6502"\n\n'
NOP, BYTE = "        nop\n", "        .byte   $EA\n"


def lists(da65, words, body, info=None):
    """The program writes this listing, and nothing else."""
    da65(f"-i {write('some.info', info)} {words}" if info is not None else words, 0, HEADER + body)


def image(count):
    return write("image.bin", count * b"\xea")


# Sizes that are 0 or 1 modulo 4,096, where a buffer is full.
@pytest.mark.parametrize("size", (1, *range(4096, 65537, 4096), *range(4097, 65536, 4096)),
                         ids=lambda size: f"{size} bytes")
def test_images(da65, size):
    lists(da65, f"-S 0 {image(size)}", size * NOP)


@pytest.mark.parametrize("length", (*range(3, 301), 4000), ids=lambda length: f"{length} bytes")
def test_lengths_of_file_names(da65, length):
    """A path with many slashes leads to the same file."""
    folder = "." + (length - 2) * "/"
    path = folder + "x"
    lists(da65, write(path, "\xea"), NOP)
    da65.refuses(path + "y", f"cannot read {path}y")
    write("x", "")
    da65.refuses("-i " + path, "no input file")
    da65(f"-o {path} {image(1)}")
    holds("x", HEADER + NOP)
    write("x", "")
    for info, words, most in ((f'ASMINC{{FILE "{path}";}}', "image.bin", 255),
                              (f'GLOBAL{{INPUTNAME "{folder}image.bin";}}', "", 247)):
        if length <= most:
            lists(da65, words, NOP, info)
        elif length > 255:
            da65.refuses(f"-i {write('some.info', info)} {words}", "info:1: bad name")


def test_include_files(da65):
    """0 to 16, and one more."""
    image(1)
    for count in range(18):
        write(f"{count}.inc", f"n{count} = {count}")
        info = "".join(f'ASMINC{{FILE "{k}.inc";}}' for k in range(count))
        body = "".join(f"{f'n{k}':16}:= ${k:04X}\n" for k in range(count)) + ("\n" if count else "")
        if count <= 16:
            lists(da65, "image.bin", body + NOP, info)
    da65.refuses(f"-i {write('some.info', info)} image.bin", "info:1: too large")


# Each step leads to all numbers below 20,000: ascending, descending and shuffled.
@pytest.mark.parametrize("step", (1, 19999, 7919), ids=lambda step: f"by steps of {step}")
def test_20_000(da65, step):
    places = [k * step % 20000 for k in range(1, 20001)]
    lists(da65, image(1), "".join(f"{f'm{a}':16}:= ${a:04X}\n" for a in range(20000)) + "\n" + NOP,
          "".join(f'LABEL{{ADDR {a};NAME "m{a}";}}\n' for a in places))
    lists(da65, f"-S 0 {image(20000)}", "".join(f'        .segment "s{a}"\n{NOP}' for a in range(20000)),
          "".join(f'SEGMENT{{START {a};END {a};NAME "s{a}";}}\n' for a in places))
    lists(da65, "-S 0 image.bin", 10000 * (BYTE + NOP),
          "".join(f"RANGE{{START {a};SIZE 1;TYPE {'CODE' if a % 2 else 'BYTETABLE'};}}\n" for a in places))


def test_100_000_lines_of_an_include_file(da65):
    """As many names as there are addresses, and then lines that give the first one again."""
    write("many.inc", "".join(f"m{a:04x}=${a:X}\n" for a in range(65536)) + 34464 * "m=0\n")
    body = "".join(f"{f'm{a:04x}':16}:= ${a:04X}\n" for a in range(65535))
    lists(da65, image(1), body + "\nmffff:  nop\n", 'ASMINC{FILE "many.inc";}')


@pytest.mark.parametrize("comments", (0, 3300), ids=lambda count: f"{count} with a comment")
def test_65_536_names_of_80_bytes(da65, comments):
    """The longest name for each address, and as many with the longest comment as an information file may have."""
    for k in range(6):
        write(f"{k}.inc", "".join(f"n{n:079}={n}\n" for n in range(k * 11000, min(65536, (k + 1) * 11000))))
    info = "".join(f'ASMINC{{FILE "{k}.inc";}}' for k in range(6))
    info += "".join(f'LABEL{{ADDR {n};NAME "n{n:079}";COMMENT "{n:0200}";}}' for n in range(comments))
    body = "".join((f"; {n:0200}\n" if n < comments else "") + f"n{n:079} := ${n:04X}\n" for n in range(65535))
    lists(da65, image(1), f"{body}\nn{65535:079}:\n{NOP}", info)


@pytest.fixture
def labels(folder):
    """20,000 labels, each with an address of another. Labels with an include file, whose names one index finds."""
    text = "".join(f"n{n}: .addr n{n * 7919 % 20000}\n" for n in range(20000))
    named = "".join(f'LABEL{{ADDR {n};NAME "l{n}";}}\n' for n in range(2000))
    for name, content in (("labels.s", text), ("undefined.s", text + " jmp nowhere\n"),
                          ("both.info", named + 'ASMINC{FILE "later.inc";}\n'),
                          ("later.inc", "".join(f"c{n} = {n}\n" for n in range(2000, 4000)))):
        write(name, content)


@pytest.mark.cc
def test_work(request, labels, tool, words, status, opens, reads, writes, most, asked, allocations, stdin):
    """At most that many bytes of memory at one time, and over the whole run."""
    given = {"stdin": open(stdin, "rb")} if stdin else {}
    counts = request.getfixturevalue(tool)(words, status, None, None, shim={}, **given).counts
    assert counts[:3] == (opens, reads, writes)
    assert counts.most <= (most or asked) and counts.asked <= asked, counts
    assert not allocations or counts.allocations <= allocations, counts


@pytest.mark.cc
def test_refused_in_turn(request, tool, words, least, status, trouble):
    """Of at least so many allocations each is refused in turn: that is said, and nothing is on standard output."""
    program = request.getfixturevalue(tool)
    whole = program(words, status, None, None, shim={})
    assert least <= whole.counts.allocations
    for at in range(1, whole.counts.allocations + 1):
        ran = program.run(words, shim={"REFUSE": at})
        if (ran.status, ran.err) == (status, whole.err):
            same(whole.out, ran.out, f"{ran.line}\nallocation {at}")
        elif ran.status != trouble or ran.err.splitlines()[-1:] != [f"{tool}: out of memory".encode()] or ran.out:
            fails(f"{ran.line}\nallocation {at}: status {ran.status}", f"{tool}: out of memory\n", ran.err + ran.out)
