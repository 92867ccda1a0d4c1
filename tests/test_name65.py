"""name65 on real files: its messages, and what it writes. That the listing by names gives the image back, whatever
trace65 proposes, is for test_trace65.py. Most rows are in tests/rows/name65.txt."""
import re
import pytest
from conftest import ROOT, command, holds, read, same, write


def test_runs(name65, given, words, status, out, err, after, stdin):
    name65.does(given, words, status, out, err, after, stdin)


def test_writes(name65, info, listing, words, out):
    write("a.info", info)
    write("a.s", listing)
    name65(f"{words} -i a.info a.s", 0, out)


def test_refuses(name65, da65, info, listing, words, message):
    write("a.info", info)
    write("a.s", listing)
    name65.refuses(f"{words} -i a.info -o named.s a.s", message)
    holds("named.s", None)
    # A fault of the groups of da65 is what da65 says.
    if "RANGE" in info:
        da65.refuses("-i a.info examples/three.bin", message)


def from_1000(groups, listing):
    """The words for a listing from $1000 on with these groups, each a line `#: ..`, and those LABEL without `#:`."""
    write("groups.info", re.sub("^(?!LABEL)", "#: ", groups, flags=re.M))
    return f" -S 0x1000 -i groups.info -o named.s {write('listing.s', listing)}"


def test_names(name65, as65, groups, listing, wanted, words):
    """By these groups the listing becomes this text, and both have the same bytes."""
    name65(words + from_1000(groups, listing))
    holds("named.s", wanted)
    as65("-S 0x1000 -o listing.bin listing.s")
    as65("-S 0x1000 --compare listing.bin named.s")


def test_refuses_groups(name65, groups, listing, message):
    """The listing is refused by these groups, and a file that is there stays as it was."""
    write("named.s", "kept\n")
    name65.refuses(from_1000(groups, listing), message)
    holds("named.s", "kept\n")


@pytest.mark.ca65
def test_the_monitor_moves(name65, da65, as65, trace65):
    """The guide's way: an instruction more, and filler less, gives what the source of the monitor gives with it."""
    def longer(text):
        return text.replace("\nreset:  cld", "\nreset:  cld\n        nop")
    da65("-i examples/board/board.info -o board.s", err=None)
    found = trace65("-i examples/board/board.info --entry 0xFFDF,0xFFE2,0xFFE5", out=None).out.decode()
    moves = [line for line in found.splitlines() if "HALVES" in line]
    write("board.moves", "\n".join([*moves, "#: HALVES { LOW $FEC2; HIGH $FEC5; SIZE 3; };", ""]))
    name65("-S 0xFC00 -i board.moves -o named.s board.s")
    named = re.sub(r"#\$16$", "#stopped-texts", read("named.s").decode(), flags=re.M)
    filler = re.search(r"^free:.*?\.segment", named, re.M | re.S)
    free = re.sub(r"^(free:)? *\.byte *\$FF(,\$FF)*\n", "", filler[0], flags=re.M)
    write("named.s", longer(named[:filler.start()] + free + named[filler.end():]))
    as65("-i examples/board/board.info --fill $FF -o moved.bin named.s".split())
    write("board.s", longer((ROOT / "examples/board/monitor.s").read_text()))
    command("ca65 -I examples/board -o board.o board.s")
    command("ld65 -C examples/board/monitor.cfg -o linked.bin board.o")
    same(read("linked.bin"), read("moved.bin"), "the monitor does not move")
