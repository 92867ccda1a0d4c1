"""as65 on real files: what it writes, where, and with which status. Most rows are in tests/rows/as65.txt."""
import os
import re
import pytest
from conftest import command, in_pieces, holds, read, tables, write

TEXTS, _ = tables(__name__)


def test_gives(as65, text, wanted, words, info):
    """The text gives these bytes, and does not differ from them, unless the information file asks for more."""
    write("a.info", info or TEXTS["PLACES"])
    words = [*(words or "-S 0x1000").split(), write("text.s", text)]
    as65(words, 0, bytes.fromhex(wanted))
    if "INPUTSIZE" not in info:
        as65(["--compare", write("wanted.bin", bytes.fromhex(wanted)), *words])


def test_runs(as65, given, words, status, out, err, after, stdin):
    os.symlink("other.bin", "link.bin")
    as65.does(given, words, status, out, err, after, stdin)


def test_pipes(as65):
    """One in two pieces, and one of a listing a byte too large, which is read no further."""
    as65("-S 0x1000 -", 0, "\xa9\x01\x60", stdin=in_pieces(TEXTS["THREE"][:40], TEXTS["THREE"][40:]))
    pipe = in_pieces(bytes(67108864 + 8192))
    as65.refuses("-S 0", "input is too large", stdin=pipe)
    assert len(pipe.read()) == 8191


def refuses(as65, text, line, cause, words="-S 0x1000"):
    """The text is refused at this line, and the output stays as it was."""
    write("text.s", text)
    write("out.bin", "old\n")
    as65.refuses(f"{words} -o out.bin text.s", f"text.s:{line}: {cause}")
    holds("out.bin", "old\n")


def test_faults(as65, text, fault, words):
    """The text has this fault, whatever is said of it."""
    run = as65.run([*(words or "-S 0x1000").split(), write("text.s", text)])
    assert (run.status, run.out) == (1, b"")
    assert re.fullmatch(rf"as65: text\.s:{fault}(:.*)?\n", run.err.decode("latin-1")), run.err


def test_refuses(as65, text, line, cause):
    """The message ends with the line, which is no part of the cause."""
    refuses(as65, text, line, f"{cause}: {text.splitlines()[line - 1].strip()}")


def test_refuses_with_another_line(as65, text, line, cause):
    """The line is not shown as it is."""
    refuses(as65, text, line, cause)


def test_refuses_places(as65, text, line, cause):
    """The text is refused with the segments at their place, also beside an image."""
    write("a.info", TEXTS["PLACES"])
    refuses(as65, text, line, cause, "-i a.info --fill 0xff")
    as65.refuses("-i a.info --fill 0xff --compare three.bin text.s", f"text.s:{line}: {cause}", 2)


@pytest.mark.ca65
def test_the_names_of_ld65(as65):
    """Its own file has the same lines, but for the order, and names of its own."""
    write("named.s", '.setcpu "6502"\nptr := $12\nmain: lda ptr\nloop: jmp loop\nout := $FFD2\n')
    command("ca65 -g -o named.o named.s")
    command("ld65 -t none -S 0x1000 -D __STACKSTART__=0x10800 -Ln named.lbl -o named.out named.o")
    theirs = sorted(line for line in read("named.lbl").splitlines() if b".__" not in line)
    assert sorted(as65("-S 0x1000 --labels named.s", 0, None).out.splitlines()) == theirs


def test_compares(as65, words, image, text, out, begin):
    write("image.bin", bytes.fromhex(image))
    said = f"as65: image.bin is taken to begin at ${begin}\n" if begin else ""
    as65([*words.split(), "--compare", "image.bin", write("text.s", text)], 1 if out else 0, out, said)


def test_suggests_a_start(as65, text, labels, start):
    """The text is compared with three bytes that differ, without a start, and this is said of its labels."""
    said = f"as65: {labels} of the labels LXXXX would be at $XXXX with -S 0x{start}\n" if labels else ""
    as65(f"--compare other.bin {write('named.s', text)}", 1, None,
         "as65: other.bin is taken to begin at $FFFD\n" + said)


@pytest.mark.parametrize("is_all", (False, True))
def test_segments_of_a_board_begin_where_they_did(as65, da65, is_all):
    """A `nop` is put into the monitor, and one byte of what fills it is left out, or all that --fill puts there."""
    da65("-i examples/board/board.info -o a.s")
    text = read("a.s").decode().replace("        jsr     LFD0A", "        nop\n        jsr     LFD0A", 1)
    before, after = text.split("free:", 1)
    after = after[after.index("        .segment"):] if is_all else "free:" + after.replace("$FF,", "", 1)
    write("a.s", before + after)
    out = as65("-i examples/board/board.info --fill $FF --compare examples/board/monitor.bin a.s", 1, None).out.decode()
    moved, put_in, left_out = out.splitlines()
    assert moved == "line 58: LFC4A and what follows lie 1 byte later"
    assert put_in == "$FC35: -> EA, line 48: nop"
    assert left_out.startswith("$FFDE: FF ->, line ") and left_out.endswith(": jmp     tell")
