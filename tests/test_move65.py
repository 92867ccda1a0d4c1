"""move65 on real files: its messages, what it says, and that da65 and name65 accept what it says. Rows are in
tests/rows/move65.txt."""
import os, pty, random, re
import pytest
from conftest import holds, read, tables, write


def test_runs(move65, given, words, status, out, err, after, stdin):
    """If it fails, it writes no file."""
    move65.does(given, words, status, out, err, after or "out.info", stdin)


def test_says(move65, da65, as65, name65, groups, listing, said, status, ran):
    """Of the listing from $1000 on it says this. Behind the groups da65 and name65 accept it."""
    write("groups.info", groups)
    write("listing.s", listing)
    text = f"{said}# {ran} of {ran} instructions have run in both\n"
    move65("-S 0x1000 -i groups.info listing.s", status, text)
    as65("-S 0x1000 -o image.bin listing.s")
    write("with.info", groups + text)
    da65("-S 0x1000 -i with.info -o with.s image.bin", err=None)
    name65("-S 0x1000 -i with.info -o named.s with.s")
    as65("-S 0x1000 -o again.bin named.s")
    holds("again.bin", read("image.bin"))
    assert "NUMBER" not in said or b"#$08" in read("named.s"), "a byte that counts has got a name"


@pytest.mark.parametrize("seed", [None, *range(1, 11)], ids=lambda seed: f"random bytes {seed}" if seed
                         else "a table of words")
def test_rounds(move65, da65, as65, trace65, name65, seed):
    """trace65, da65, name65 and move65 on an image at $1000, until move65 has no group, in at most six rounds."""
    if seed:
        write("image.bin", random.Random(seed).randbytes(3000))
    else:
        as65(f"-S 0x1000 -o image.bin {write('words.s', tables(__name__)[0]['WORDS'])}")
    write("given.info", "")
    for turn in range(6):
        trace65(f"-S 0x1000 -i given.info --whole -o {turn}.info image.bin")
        da65(f"-S 0x1000 -i {turn}.info -o rounds.s image.bin", err=None)
        name65(f"-S 0x1000 -i {turn}.info -o moves{turn}.s rounds.s")
        said = move65.run(f"-S 0x1000 -i {turn}.info moves{turn}.s")
        # A branch to what is not in the image goes too far.
        if said.status == 2 and said.err.endswith(b"value out of range\n"):
            return
        groups = re.findall(rb"^(?:#:|LABEL).*\n", said.out, re.M)
        said.gives(1 if groups else said.status, None)
        if not groups:
            return
        write("given.info", read("given.info") + b"".join(groups))
    pytest.fail(f"it does not end: {said.out.decode()}")


def test_long_run(move65):
    """A run of more than a second says on a terminal where it is, and takes that away. Elsewhere it says nothing."""
    texts, loops = tables(__name__)[0], range(700)
    write("loops.s", f"{texts['READS']}.byte 1\n" + "".join(f"e{n}: inc $30\n jmp e{n}\n" for n in loops))
    entries = ",".join(str(at) for at in (0x1000, *(0x100E + 5 * n for n in loops)))
    words = ["-S", "0x1000", "--entry", entries, "loops.s"]
    said = f"{texts['L100D']}{texts['HALVES']} # $100A reads $100D\n# 1407 of 1407 instructions have run in both\n"
    ours, theirs = pty.openpty()
    move65(words, 1, said, stderr=theirs)
    os.close(theirs)
    move65(words, 1, said)
    assert re.fullmatch(rb"((\rmove65: at \$1... )+\r\x1b\[K)+", os.read(ours, 65536))
