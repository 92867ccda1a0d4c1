"""share/repair.mk: what it makes of an image and of what has been edited; and that nothing is lost, whenever a person
saves a file or ends it. tests/kills.py does so at random moments."""
import os, re, shutil, time
import pytest
import kills
from conftest import MADE, ROOT, Program, holds, read, write

SUM = bytes.fromhex("A9 02 18 69 14 85 20 A9 20 69 00 85 21 A0 00 B1 20 8D 00 04 60 01 02 03")
GLOBAL = '# plain image\nGLOBAL { INPUTNAME "sum.bin"; INPUTOFFS 0; INPUTSIZE 24; STARTADDR $2000; };\n'
OPENED = "sum.bin: plain image, 1 part\nsum  24 bytes at $2000  sum.info\n"
GUESSED = "guessed: nothing says where it lies\n"
FOUND = 'LABEL { ADDR $2014; NAME "L2014"; };\n#: HALVES { LOW $2004; HIGH $2008; }; # $200F reads $2016\n'
TABLE = "RANGE { START $2015; END $2017; TYPE ByteTable; };\n"
FIRST = 'LABEL { ADDR $2000; NAME "first"; };\n'
SAYS = "sum.s is edited: it is the source, and is not written again\n"
PARTS = ("sum.info", "sum.traced.info", "sum.s", "sum.html", "sum.out")


@pytest.fixture
def repair(folder, request):
    """Runs share/repair.mk in a folder with sum.bin. Gives what it printed."""
    os.mkdir("programs")
    for name in MADE:
        os.symlink(request.getfixturevalue(name).path, "programs/" + name)
    write("sum.bin", SUM)

    def run(words="IMAGE=sum.bin START=0x2000", status=0, programs="programs", file=f"{ROOT}/share/repair.mk", **how):
        ran = Program("make").run(f"-f '{file}' 'PROGRAMS={programs}' {words}", **how)
        if status is not None:
            ran.gives(status, None, None)
        assert not [left for left in os.listdir() if left.startswith(".repair.")]
        return (ran.out + ran.err).decode()
    return run


def meanwhile(name, commands):
    """From now on these commands run when repair.mk calls this program. With `mv` that is at the last moment before a
    file is replaced."""
    path = f"programs/{name}"
    real = os.path.realpath(path) if os.path.exists(path) else shutil.which(name)
    if os.path.exists(path):
        os.remove(path)
    write(path, f'#!/bin/sh\n{commands}\nexec {real} "$@"\n')
    os.chmod(path, 0o755)
    return {"env": {"PATH": f"{os.getcwd()}/programs:{os.environ['PATH']}"}}


def edit(name, before, after):
    """Replaces a text, at a later time than that of what has been made."""
    text = read(name).decode()
    assert text.count(before) == 1, text
    time.sleep(0.02)
    write(name, text.replace(before, after))


def times():
    return {name: os.stat(name).st_mtime_ns for name in PARTS}


def test_the_first_time(repair):
    assert repair() == OPENED
    holds("sum.info", GLOBAL)
    holds("sum.out", SUM)
    assert b"adc     #$14" in read("sum.s") and b"adc     #$14" in read("sum.html")
    before = times()
    assert repair() == "" and times() == before, "something was made again"
    assert sorted(os.listdir()) == sorted([*PARTS, "sum.bin", "sum.made", "programs", "examples", "names"])


def test_an_image_that_ends_at_ffff(repair):
    """Nothing says so, and that is said."""
    assert repair("IMAGE=sum.bin") == OPENED.replace("2000", "FFE8") + GUESSED
    made = GLOBAL.replace("$2000", "$FFE8").replace("image\n", f"image\n# {GUESSED}")
    assert read("sum.info").decode().startswith(made)
    assert repair("IMAGE=sum.bin") == ""


def test_a_program_with_its_load_address(repair):
    """The first two bytes of a .prg are its address, and stand before its bytes in game.new. What its line of BASIC
    calls is code. The names of the machine that it uses are in the listing."""
    image = bytes.fromhex("0B 08 0A 00 9E 32 30 36 31 00 00 00 A9 41 20 D2 FF 60")
    write("game.prg", b"\x01\x08" + image)
    said = repair("IMAGE=game.prg")
    assert said.startswith("game.prg: Commodore program, 1 part\ngame  18 bytes at $0801  game.info\n")
    groups = 'INPUTNAME "game.prg"; INPUTOFFS 2; INPUTSIZE 18; STARTADDR $0801;'
    assert groups in read("game.info").decode() and b'/names/c64.inc"' in read("game.info")
    holds("game.out", image)
    holds("game.new", b"\x01\x08" + image)
    assert b"lda     #$41\n        jsr     CHROUT" in read("game.s") and read("game.s").count(b":=") == 1
    edit("game.s", "#$41", "#$42\n        nop")
    repair("IMAGE=game.prg")
    holds("game.new", b"\x01\x08" + image.replace(b"A\x20", b"B\xea\x20"))
    os.remove("game.info")
    repair("IMAGE=game.prg START=0x0901 game.info")
    assert groups.replace("0801", "0901") in read("game.info").decode()


BANKS = [bytes.fromhex(code).ljust(16384, b"\xff") for code in ("A9 01 60", "A9 02 60", "A9 03 60")]
FIXED = bytes.fromhex("78 D8 AD 00 80 8D 00 C0 4C 08 C0 40").ljust(16378, b"\xff") + bytes.fromhex("0B C0 00 C0 0B C0")
NES = b"NES\x1a\x04\x00\x20\x00" + bytes(8) + b"".join(BANKS) + FIXED
LIST = ["game.nes: NES, mapper 2, 4 parts"] + [
    f"bank{k}  16,384 bytes at ${at}  game_bank{k}.info" for k, at in enumerate(("8000", "8000", "8000", "C000"))]
BANK_SAYS = "game_bank1.s is edited: it is the source, and is not written again\n"


def with_bank_edited(repair):
    """The same game with another number in its second bank, after a run that made all, and the edit."""
    write("game.nes", NES)
    assert [line for line in repair("IMAGE=game.nes").splitlines() if "guessed" not in line] == LIST
    edit("game_bank1.s", "#$02", "#$05")
    return NES.replace(b"\xa9\x02", b"\xa9\x05")


def test_a_container_of_several_parts(repair):
    """Each has its files. The new container has the bytes of all."""
    edited = with_bank_edited(repair)
    holds("game.new", NES)
    for number, bank in enumerate([*BANKS, FIXED]):
        holds(f"game_bank{number}.out", bank)
        assert b"</html>" in read(f"game_bank{number}.html")
    assert b"jmp     LC008" in read("game_bank3.s") and b".segment \"VECTORS\"" in read("game_bank3.s")
    difference = "bank1: $8001: 02 -> 05, line 5: lda     #$05\n"
    assert re.sub("line .:", "line 5:", repair("IMAGE=game.nes")) == BANK_SAYS + difference
    holds("game.new", edited)
    holds("game_bank1.out", edited[16400:32784])


def test_one_part_of_a_container(repair):
    """Nothing is made of the others, whose bytes go into the new container as they were made last."""
    edited = with_bank_edited(repair)
    repair("IMAGE=game.nes")
    edit("game_bank0.s", "#$01", "#$06")
    edit("game_bank2.s", "#$03", "#$07")
    assert repair("IMAGE=game.nes PART=bank0").count("is edited") == 1
    holds("game.new", edited.replace(b"\xa9\x01", b"\xa9\x06"))
    repair("IMAGE=game.nes PART='game_bank2 bank0'")
    holds("game.new", edited.replace(b"\xa9\x01", b"\xa9\x06").replace(b"\xa9\x03", b"\xa9\x07"))
    said = repair("IMAGE=game.nes PART=bank4", 2)
    assert "there is no part bank4 in game.nes: it has bank0 bank1 bank2 bank3\n" in said


def test_only_one_part_at_first(repair):
    write("game.nes", NES)
    repair("IMAGE=game.nes PART=bank3 moves")
    holds("game.new", NES)
    assert not [name for name in os.listdir() if re.match(r"game_bank[012]", name)]


def test_a_part_that_has_no_room(repair):
    """A bank can't grow: the message says so, and the container that was put back stays."""
    edited = with_bank_edited(repair)
    repair("IMAGE=game.nes")
    edit("game_bank0.s", "        rts\n", "        rts\n        nop\n")
    assert "16385" in repair("IMAGE=game.nes", 2).replace(",", "")
    holds("game.new", edited)


@pytest.mark.parametrize("name", (*(f"game_bank1.{end}" for end in ("traced.info", "s", "html", "out")), "game.new"))
def test_what_was_edited_of_a_part_stays(repair, name):
    with_bank_edited(repair)
    write(name, "my own\n")
    repair("IMAGE=game.nes", 2)
    holds(name, "my own\n")


def test_blocks_of_an_executable(repair):
    """Each block of an Atari's executable is a part. If one grows, its header says so in the new file."""
    first, second = bytes.fromhex("A9 0E 8D C8 02 60"), bytes.fromhex("20 00 20 60")
    header = bytes.fromhex("FF FF 00 20 05 20")
    rest = bytes.fromhex("00 40 03 40") + second + bytes.fromhex("E0 02 E1 02 00 40")
    write("colour.xex", header + first + rest)
    said = repair("IMAGE=colour.xex MACHINE=none")
    assert re.search(r"6 bytes at \$2000  colour_(\w+).info\n", said) and "4 bytes at $4000" in said
    holds("colour.new", header + first + rest)
    name = re.search(r"6 bytes at \$2000  colour_(\w+).info\n", said)[1]
    assert b"ASMINC" not in read(f"colour_{name}.info") and b"sta     $02C8" in read(f"colour_{name}.s")
    edit(f"colour_{name}.s", "        rts", "        nop\n        rts")
    repair("IMAGE=colour.xex MACHINE=none")
    holds("colour.new", header[:-2] + b"\x06\x20" + first[:-1] + b"\xea\x60" + rest)


def test_bytes_that_do_not_lie_in_one_piece(repair):
    """Those of a HEX file are written to a file of their own, which is no file to edit."""
    def record(address, data):
        line = bytes([len(data)]) + address.to_bytes(2, "big") + b"\0" + data
        return f":{(line + bytes([-sum(line) % 256])).hex().upper()}\n"
    text = record(0x2000, SUM[:16]) + record(0x2010, SUM[16:]) + ":00000001FF\n"
    write("sum.hex", text)
    assert repair("IMAGE=sum.hex").startswith("sum.hex: ") and b'INPUTNAME "sum.bin"' in read("sum.info")
    holds("sum.bin", SUM)
    assert read("sum.new").decode().upper().split() == text.split()
    edit("sum.s", "#$02", "#$03")
    assert repair("IMAGE=sum.hex") == SAYS + "$2001: 02 -> 03, line 5: lda     #$03\n"
    assert read("sum.new").decode().upper().split() == text.replace(
        record(0x2000, SUM[:16]), record(0x2000, b"\xa9\x03" + SUM[2:16])).split()
    write("sum.bin", SUM[::-1])
    assert "sum.bin is not as it was made, and stays: take it away\n" in repair("IMAGE=sum.hex", 2)
    holds("sum.bin", SUM[::-1])


def test_a_start_for_a_container(repair):
    write("game.nes", NES)
    said = repair("IMAGE=game.nes START=0x4000", 2)
    assert "START is the address of a plain image, and game.nes says its own\n" in said
    assert not [name for name in os.listdir() if name.startswith("game") and name != "game.nes"]


def test_other_options_of_open65(repair):
    """A dump is opened as banks of a size."""
    said = repair("IMAGE=sum.bin OPEN='--bank-size 12'")
    assert "bank0  12 bytes at $" in said and "bank1  12 bytes at $" in said and "guessed: " in said
    holds("sum_bank1.out", SUM[12:])
    holds("sum.new", SUM)


def test_programs_by_what_their_names_begin_with(repair):
    repair(programs=os.getcwd() + "/programs/")
    holds("sum.out", SUM)


def test_from_a_makefile(repair):
    write("Makefile", f"IMAGE := sum.bin\nSTART := 0x2000\nPROGRAMS := programs\ninclude {ROOT}/share/repair.mk\n")
    Program("make")("moves", 0, None, None)
    holds("sum.out", SUM)


def test_the_information_file_is_edited(repair):
    """The listing and the page are made anew, and the file stays as it is."""
    repair()
    edit("sum.info", GLOBAL, GLOBAL + TABLE + 'LABEL { ADDR $2000; NAME "first"; };\n')
    kept = read("sum.info")
    assert repair("IMAGE=sum.bin") == ""
    holds("sum.info", kept)
    assert b"first:  lda     #$02\n" in read("sum.s") and b"first" in read("sum.html")


def test_the_listing_is_edited(repair):
    """It stays, also after an edit of the information file, and the page, the image and the comparison follow it."""
    repair()
    edit("sum.s", "#$02", "#$03")
    edited = read("sum.s")
    assert repair() == SAYS + "$2001: 02 -> 03, line 5: lda     #$03\n"
    holds("sum.out", SUM.replace(b"\xa9\x02", b"\xa9\x03"))
    assert b"#$03" in read("sum.html")
    edit("sum.info", GLOBAL, GLOBAL + TABLE)
    assert repair() == SAYS + "$2001: 02 -> 03, line 5: lda     #$03\n"
    holds("sum.s", edited)
    assert "adc" not in repair("IMAGE=sum.bin moves")
    holds("sum.info", GLOBAL + TABLE)


@pytest.mark.ca65
def test_what_is_repaired_runs(repair):
    """A program that ends with the sum of a table: once with the table as it was, and once with a byte more in it,
    behind code that was put in."""
    head, start = b"sim65\x02\x00\x00", b"\x00\x20"
    write("sum.bin", bytes.fromhex("D8 A9 16 85 20 A9 20 85 21 A0 02 A9 00 18 71 20 88 10 FB 4C F9 FF 01 02 03"))
    repair("IMAGE=sum.bin START=0x2000 moves")
    Program("sim65")(write("sum.prg", head + start + start + read("sum.out")), 6)
    edit("sum.s", "#$02", "#$03\n        nop")
    edit("sum.s", "$01,$02,$03", "$01,$02,$03,$04")
    repair()
    Program("sim65")(write("sum.prg", head + start + start + read("sum.out")), 10)


def test_what_move65_finds(repair):
    """Rounds add it to the information file, until there is nothing new."""
    write("sum.info", GLOBAL + TABLE)
    said = repair("IMAGE=sum.bin moves")
    assert said.startswith("round 1: 2 lines more in sum.info\n# ") and "round 2" not in said
    holds("sum.info", GLOBAL + TABLE + FOUND)
    assert b"adc     #<L2014\n" in read("sum.s") and b"#&lt;<a" in read("sum.html")
    holds("sum.out", SUM)
    repair("IMAGE=sum.bin moves")
    holds("sum.info", GLOBAL + TABLE + FOUND)


@pytest.mark.parametrize("name", PARTS[1:])
def test_what_was_not_made_here_stays(repair, name):
    write(name, "my own\n")
    os.utime(name, (0, 0))
    repair(status=2)
    holds(name, "my own\n")


@pytest.mark.parametrize("name", PARTS[1:])
def test_what_was_edited_stays(repair, name):
    repair()
    write(name, "my own\n")
    edit("sum.info", GLOBAL, GLOBAL + TABLE)
    repair(status=2)
    holds(name, "my own\n")


def test_an_image_of_another_folder_with_the_same_name(repair):
    repair()
    before = times()
    os.mkdir("other")
    for image in "other/sum.bin", "other/sum.rom":
        write(image, SUM[::-1])
        said = f"sum.info is that of sum.bin, and not of {image}: work in another folder\n"
        assert said in repair("IMAGE=" + image, 2) and times() == before
    assert repair("IMAGE=./sum.bin") == "" and repair(f"IMAGE={os.getcwd()}/sum.bin") == ""


def test_a_faulty_information_file(repair):
    repair()
    before = {name: read(name) for name in PARTS[1:]}
    edit("sum.info", "$2000", "2000h")
    assert "trace65: info:2: bad number\n" in repair(status=2)
    assert before == {name: read(name) for name in PARTS[1:]}


@pytest.mark.parametrize("moment, commands", (("move65", "echo '# mine' >>sum.info"), (
    "mv", "case $* in */sum.info) echo '# mine' >>sum.info; esac"), (
    "mv", "case $* in */sum.info) { cat sum.info; echo '# mine'; } >new; /bin/mv new sum.info; esac")),
                         ids=("while move65 runs", "in place at the last moment", "by mv at the last moment"))
def test_the_information_file_is_saved_while_moves_works(repair, moment, commands):
    """It stays as it was saved, and what move65 finds is in a file of its own."""
    write("sum.info", GLOBAL + TABLE)
    said = repair("IMAGE=sum.bin moves", 2, **meanwhile(moment, commands))
    holds("sum.info", GLOBAL + TABLE + "# mine\n")
    found = re.match(r"sum.info has been edited meanwhile, and stays: what move65 finds is in (sum.moves\.\w+)\n", said)
    holds(found[1], FOUND)


@pytest.mark.parametrize("moment, commands", (("name65", "sed -i 's/#$02/#$03/' sum.s"), ("mv", """
case $* in */sum.s) sed -i 's/#$02/#$03/' sum.s; esac"""), ("mv", """
case $* in */sum.s) sed 's/#$02/#$03/' sum.s >new; cat new >sum.s; rm new; esac"""), ("mv", """
case $* in */sum.s) exec 3<>sum.s; sed 's/#$02/#$03/' sum.s >new; /bin/mv "$@"; cat new >&3; rm new; exit; esac""")),
                         ids=("while name65 runs", "by mv at the last moment", "in place at the last moment",
                              "in place during the move"))
def test_the_listing_is_saved_while_it_is_made(repair, moment, commands):
    """It is the source from then on, in the same run."""
    repair()
    edited = read("sum.s").replace(b"#$02", b"#$03")
    edit("sum.info", GLOBAL, GLOBAL + FIRST)
    assert repair(**meanwhile(moment, commands)) == SAYS + "$2001: 02 -> 03, line 5: lda     #$03\n"
    holds("sum.s", edited)
    holds("sum.out", SUM.replace(b"\xa9\x02", b"\xa9\x03"))


@pytest.mark.parametrize("signal", ("INT", "TERM", "HUP"))
def test_ended_after_the_listing_was_saved(repair, signal):
    """The listing stays, and nothing else is left: as after Ctrl-C, or when the terminal is closed."""
    os.mkdir("tmp")
    repair()
    edited = read("sum.s").replace(b"#$02", b"#$03")
    edit("sum.info", GLOBAL, GLOBAL + FIRST)
    how = meanwhile("name65", f"sed -i 's/#$02/#$03/' sum.s; kill -{signal} 0")
    how["env"]["TMPDIR"] = os.getcwd() + "/tmp"
    repair(status=None, start_new_session=True, **how)
    holds("sum.s", edited)
    assert os.listdir("tmp") == []


def test_files_of_one_s_own(repair):
    names = ["sum.listed.s", "sum.moves.s", *(name + ".new" for name in PARTS)]
    for name in names:
        write(name, "mine\n")
    repair("IMAGE=sum.bin START=0x2000 moves")
    for name in names:
        holds(name, "mine\n")


@pytest.mark.parametrize("seed", range(4))
def test_ended_at_random_moments_and_twice_at_once(repair, seed):
    """Ten times and eight in all."""
    found = list(kills.faults(os.path.abspath("programs"), 3 - seed // 2, 2, seed))
    assert not found, found


def test_an_older_listing(repair):
    """What is old is told by checksums and not by times: page and image follow a listing with an older time."""
    repair()
    edit("sum.s", "#$02", "#$03")
    os.utime("sum.s", (1e9, 1e9))
    assert repair() == SAYS + "$2001: 02 -> 03, line 5: lda     #$03\n"
    holds("sum.out", SUM.replace(b"\xa9\x02", b"\xa9\x03"))
    assert b"#$03" in read("sum.html")


@pytest.mark.parametrize("name, seconds", (("sum.info", 1e9), *((name, 4e9) for name in PARTS)))
def test_an_older_information_file_and_files_of_the_future(repair, name, seconds):
    repair()
    edit("sum.info", GLOBAL, GLOBAL + FIRST)
    os.utime(name, (seconds, seconds))
    assert repair() == "" and b"first:  lda" in read("sum.s") and b"first" in read("sum.html")
    repair("IMAGE=sum.bin moves")
    holds("sum.info", GLOBAL + FIRST + FOUND)


def test_an_information_file_without_a_line_feed(repair):
    write("sum.info", GLOBAL + TABLE + "# the end")
    repair("IMAGE=sum.bin moves")
    holds("sum.info", GLOBAL + TABLE + "# the end\n" + FOUND)


def test_links_and_permissions_stay(repair):
    repair()
    os.mkdir("source")
    for name in "sum.info", "sum.s":
        os.rename(name, "source/" + name)
        os.symlink("source/" + name, name)
        os.chmod(name, 0o600)
    edit("sum.info", GLOBAL, GLOBAL + FIRST)
    repair("IMAGE=sum.bin moves")
    holds("source/sum.info", GLOBAL + FIRST + FOUND)
    assert b"first:  lda" in read("source/sum.s")
    for name in "sum.info", "sum.s":
        assert os.path.islink(name) and os.stat(name).st_mode & 0o777 == 0o600


def test_a_folder_with_a_blank_in_its_name(repair):
    os.mkdir("my own")
    shutil.copy(ROOT / "share/repair.mk", "my own")
    repair("IMAGE=sum.bin START=0x2000 moves", file="my own/repair.mk")
    holds("sum.info", GLOBAL + FOUND)


@pytest.mark.parametrize("name", ("all", "moves", "sum", "sum.info.bin"))
def test_an_image_with_the_name_of(repair, name):
    """What make has a rule for; and one without a dot, which make would make of its listing."""
    os.rename("sum.bin", name)
    made = name.removesuffix(".bin")
    said = repair(f"IMAGE={name} START=0x2000 moves", timeout=60)
    opened = f"{name}: plain image, 1 part\n{made}  24 bytes at $2000  {made}.info\n"
    assert said == f"{opened}round 1: 2 lines more in {made}.info\n# 11 of 11 instructions have run in both\n"
    assert repair(f"IMAGE={name} all", timeout=60) == ""
    holds(made + ".out", SUM)
    holds(name, SUM)


def test_another_start_later(repair):
    repair()
    for start in "0x2000", "0X2000", "8192", "'$2000'", "'$$2000'":
        assert repair(f"IMAGE=sum.bin START={start}") == ""
    says = "START counts only when sum.info is made: change STARTADDR there\n"
    assert repair("IMAGE=sum.bin START=0x3000") == says
    holds("sum.info", GLOBAL)
    write("sum.info", "# STARTADDR $3000\nglobal{inputname\"sum.bin\";startaddr 8192;}\n")
    assert repair("IMAGE=sum.bin START=0x3000") == says and repair() == ""


@pytest.mark.parametrize("word", ("0xfc00", "64512", "'$FC00'", "'$$FC00'"))
def test_a_start_in_a_makefile(repair, word):
    """There `$` is written twice."""
    address = word.strip("'").replace("$FC", "$$FC").replace("$$$", "$$")
    write("Makefile", f"IMAGE := sum.bin\nBASE = {address}\nSTART = $(BASE)\nPROGRAMS := programs\n"
          f"include {ROOT}/share/repair.mk\n")
    Program("make")("sum.info", 0, OPENED.replace("2000", "FC00"), None)
    holds("sum.info", GLOBAL.replace("$2000", "$FC00"))


def test_another_fill_later(repair):
    """A byte that was taken out before a segment is filled by it."""
    repair()
    edit("sum.info", GLOBAL, GLOBAL + 'SEGMENT { START $2015; END $2017; NAME "SUMMANDS"; };\n')
    repair()
    edit("sum.s", "        clc\n", "")
    for words, filled in ("", b""), ("FILL=0xFF", b"\xff"), ("FILL='$$EE'", b"\xee"), ("", b""):
        repair("IMAGE=sum.bin " + words)
        holds("sum.out", SUM.replace(b"\x18", b"").replace(b"\x60", b"\x60" + filled))


def test_programs_in_the_home_folder(repair):
    repair(programs="~/programs", env={"HOME": os.getcwd()})
    write("Makefile", f"IMAGE := sum.bin\nPROGRAMS := ~/programs/\ninclude {ROOT}/share/repair.mk\n")
    Program("make")("all", 0, env={"HOME": os.getcwd()})


def test_shellcheck():
    if not shutil.which("shellcheck"):
        pytest.skip("shellcheck is not installed")
    script = re.search(r"(?ms)^define repair\n(.*?)^endef", read(ROOT / "share/repair.mk").decode())[1]
    Program("shellcheck")("-s bash -S warning -", stdin=script)


@pytest.mark.parametrize("words, said", (
    ("", "IMAGE is the name of one file"), ("'IMAGE=two words.bin'", "IMAGE is the name of one file"),
    ("IMAGE=it\\'s.bin", "IMAGE is the name of one file"),
    ("IMAGE=sum.s", "sum.s has the name of a file that is made of an image"),
    ("IMAGE=.bin", "IMAGE is the name of a file that does not begin"), ("IMAGE=-s.bin", "IMAGE is the name of a file"),
    ("IMAGE=sum.bin START=", "START is empty: write START=0xFC00, or put quotes around $FC00"),
    *((f'IMAGE=sum.bin START="{word}"', f"START is an address such as 0xFC00, '$FC00' or 64512: {word}\n")
      for word in ("here", "FC00", "000", "0xFC00h", "0x12345", "65536", "it's", "-1", "1+1"))))
def test_refuses(repair, words, said):
    assert said in repair(words, 2)
    assert sorted(os.listdir()) == ["examples", "names", "programs", "sum.bin"]


@pytest.mark.parametrize("words", ("", "moves", "lost.s"))
def test_an_image_that_is_not_there(repair, words):
    said = repair("IMAGE=lost.bin " + words, 2)
    assert re.fullmatch(r"\S+/repair.mk:\d+: \*\*\* there is no file lost.bin.  Stop.\n", said), said
    assert sorted(os.listdir()) == ["examples", "names", "programs", "sum.bin"]
