"""Counts instructions by valgrind's callgrind: of da65 beside cc65's da65 on the same bytes, as65, name65 and html65
beside ca65 and ld65 on the same listing, trace65 and move65 alone; and seconds of move65. A row has the figure of
docs/GATE.md, and fails if it is a twentieth above that. Twice as much takes at most 2.3 times the instructions, or as
many times as a row says. The end of the run has the figures."""
import bisect, functools, itertools, os, random, re
import pytest
from conftest import ROOT, Program, read, same, tables, write

pytestmark = [pytest.mark.valgrind, pytest.mark.ca65]
draw = random.Random(1)


def dense():
    """Pairs of immediates, one after the other."""
    numbers = list(itertools.accumulate(range(32769), lambda number, _: (number * 75 + 74) % 65537))
    return b"".join(bytes((0xA9, a % 256, 0xA2, b // 257)) for a, b in zip(numbers[1::2], numbers[2::2]))


def pushed(high, low):
    """Two loads with an index, each pushed."""
    return bytes((0xBD, high % 256, high // 256, 0x48, 0xBD, low % 256, low // 256, 0x48))


RANDOM = draw.randbytes(65536)
DATA = {
    "random": RANDOM, "nop": 65536 * b"\xea", "byte": b"\xea", "kilobyte": RANDOM[:1024],
    # In each 512 bytes code without a range, text, words, bytes, two-byte values high byte first, and code.
    "mixed": b"".join(draw.randbytes(192) + bytes(draw.choices(range(32, 127), k=64)) + draw.randbytes(256)
                      for _ in range(128)),
    "hello": read(ROOT / "examples/hello.bin"), "dense": dense(), "blanks": b"\x60" + 65535 * b" ",
    # Routines of which each has the address of the next one in halves; calls of the last byte.
    "chain": 4 * b"\xea" + b"".join(bytes((0xA9, a % 256, 0xA2, a // 256 & 255, 0xE8, 0xE8, 0xE8, 0x60)) + 8 * b"\xff"
                                    for a in range(20, 65537, 16)),
    "calls": 21845 * b"\x20\xff\xff" + b"\x60",
    # Two tables of halves of which the first begins in the code: the same for all that read them, and others for each.
    "table": 8000 * pushed(63900, 64100) + bytes(k * 37 % 256 for k in range(1536)),
    "tables": b"".join(pushed(63999 - k % 200, 64060 + k // 200) for k in range(8000)) + bytes(
        k * 37 % 256 for k in range(1536)),
    # Words that lead to one address, from which code goes on to the end of the image.
    "words": b"\x4c\x00\x70" + 14335 * b"\x01\x80" + b"\x60" + 36862 * b"\xea",
}
PARTS = ((192, 255, "TEXTTABLE"), (256, 319, "WORDTABLE"), (320, 383, "BYTETABLE"), (384, 447, "DBYTETABLE"),
         (448, 511, "CODE"))
INFO = {
    "ranges": "".join(f"RANGE {{ START ${k + first:04X}; END ${k + last:04X}; TYPE {kind}; }};\n"
                      for k in range(0, 65536, 512) for first, last, kind in PARTS),
    # Of no other image than one byte table are there so few lines, so what is done once for each byte shows most.
    "table": "RANGE { START 0; END $FFFF; TYPE BYTETABLE; };\n",
    "segments": "".join(f'SEGMENT {{ START ${k:04X}; END ${k + 63:04X}; NAME "S{k}"; }};\n'
                        for k in range(0, 65536, 64)),
    "segment": 'SEGMENT { START $1000; END $1001; NAME "S"; };\n', "label": 'LABEL { ADDR $1000; NAME "entry"; };\n',
    "comment": 'LABEL { ADDR $1000; NAME "entry"; COMMENT "the entry"; };\n',
    # What people run; what is done once whatever there is shows most.
    "hello": tables(__name__)[0]["HELLO"],
}
HALVES = "".join(f"n{n}: lda #<n{n * 7919 % 8000}\n ldx #>n{n * 7919 % 8000}\n" for n in range(8000))
LISTINGS = {
    "halves": HALVES, "three": "here:   lda     #$01\n        sta     $10\n        jmp     here\n",
    "lobytes": "".join(f"n{n} := {8192 + n}\n" for n in range(3000)) + "".join(
        f"{',' if n % 8 else f'{chr(10)} .lobytes '}n{n * 7919 % 3000}" for n in range(3000)) + "\n",
    "cpus": 10000 * '        .setcpu "6502"\n' + "        rts\n",
}


# Groups of an information file, or lines with a definition, each with an address and a size. Ranges and segments have
# one byte each.
LABEL = 'LABEL {{ ADDR ${0:04X}; NAME "n{0:04x}"; }};\n'
SIZED = 'LABEL{{ADDR ${0:04X};NAME "n{0:04x}";SIZE {1};}}\n'
GROUPS = {
    "labels": LABEL, "descending": LABEL, "shuffled": LABEL, "ends": SIZED, "nested": SIZED,
    "ranges": "RANGE {{ START ${0:04X}; END ${0:04X}; TYPE CODE; }};\n",
    "segments": 'SEGMENT{{START ${0:04X};END ${0:04X};NAME "s{0:04x}";}};\n',
    "tables": "RANGE {{ START ${2:04X}; SIZE 2; TYPE ADDRTABLE; }};\n",
    "bases": "#: BASE {{ ADDR ${3:04X}; FROM $FFFF; }};\n",
    "definitions": "n{0:04x} := ${0:04X}\n", "inlines": "#: INLINE {{ ADDR ${0:04X}; SIZE 3; }};\n",
}


def groups(kind, count):
    """That many groups. Labels that are `ends` end at one address, and those that are `nested` lie in each other."""
    return "".join(GROUPS[kind].format({"descending": count - 1 - k, "shuffled": k * 40503 % 65536}.get(kind, k),
                                       {"ends": count - k, "nested": 65536 - 2 * k}.get(kind, 1), 2 * k + 3, 4 * k)
                   for k in range(count))


def sharing(count):
    """That many names with a hash of 0 in da65, so that they share a slot. A letter adds to the hash so far times the
    factor, so the hash of a name is that of its first half times a power, and that of its second half."""
    factor, modulus = 413293, 1 << 20

    def hashed(word):
        return functools.reduce(lambda value, letter: value * factor + ord(letter), word, 0) % modulus

    words, found = ["".join(four)[::-1] for four in itertools.product("abcdefghijklmnopqrstuvwxyz", repeat=4)], []
    ends = sorted((hashed(word), word) for word in words)
    for first in words:
        low = -hashed(first) * factor**4 % modulus
        at = bisect.bisect(ends, (low, ""))
        while at < len(ends) and ends[at][0] == low:
            found.append(first + ends[at][1])
            at += 1
        if len(found) >= count:
            return found[:count]


# Words with the hash of `mmmmmmmmmmmmmmmmmmmm` in as65, where that is a sum of the letters, each times a power of one
# number.
ALIKE = """
    nknmoqrmomjpkqjompql prkjjqhlnolqoimmnpll slkorkqknpnlkpqrlnjl lmjpjknkotrjnqrmmnlo jpkoknpllikqnlnhjfpn
    snpqrlpkkplnkmkmrrll lnhpqlohslkklpgmmlll oromnlmjmkomjghsqomm mnnilmnkqqfmlmmjsopi pinmojqopmmjplqtjlqo
    klimlgqorpqkmohninno jrfmokpilnpkkjmjplmh
""".split()


def alike(count):
    """That many words with one hash: what these words have beyond `m` is added or taken away."""
    words = [(0,) * len(ALIKE[0])]
    for step in ([ord(letter) - ord("m") for letter in word] for word in ALIKE):
        words = [tuple(a + sign * b for a, b in zip(word, step)) for word in words for sign in (-1, 0, 1)]
        words = [word for word in words if max(map(abs, word)) <= 12]
    return ["".join(chr(letter + ord("m")) for letter in word) for word in words[:count]]


def information(kind, count):
    """That many groups, or lines of an include file. Those that are `colliding` share one of da65's 1,048,576 slots."""
    if kind == "definitions":
        return f'ASMINC {{ FILE "{write(f"{count}.inc", groups(kind, count))}"; }};'
    if kind == "colliding":
        return "".join(f'LABEL {{ ADDR ${k:04X}; NAME "{name}"; }};\n'
                       for k, name in enumerate(sharing(count)))
    return groups(kind, count)


def instructions(program, words, status=0):
    """How many instructions it takes, with this status. It has no environment but PATH, since the loader reads that:
    each variable costs some 500 instructions."""
    words = ["--tool=callgrind", "--callgrind-out-file=/dev/null", program, *words.split()]
    ran = Program("valgrind")(words, status, None, None, before=("env", "-i", "PATH=" + os.environ["PATH"]),
                             timeout=600)
    return int(re.search(rb"Collected : (\d+)", ran.err)[1])


@pytest.fixture
def shows(record_property, request):
    """Keeps a figure for the end of the run: at most a twentieth above so many percent of other instructions."""
    def show(limit, ours, theirs, more=""):
        name, ratio = re.sub(r".*\[(.*)\]", r"\1", request.node.name), 100 * ours / theirs
        record_property("shown", f"{name:44} {ours:12} {theirs:12} {ratio:6.1f} %{more}")
        assert ratio <= 1.05 * limit, f"{ratio:.1f} % of the instructions, more than a twentieth above {limit} %"
    return show


@pytest.fixture
def text(da65, as65):
    """A text, or the listing of data, or of the pairs of halves as numbers, by its name."""
    def made(name):
        if name in LISTINGS:
            return LISTINGS[name]
        data, _, info = name.partition(" ")
        image, info = DATA.get(data), INFO.get(info, "")
        if data == "numbers":
            image = as65(f"-S 0 {write('halves.s', HALVES)}", 0, None).out
            info = "".join(f'LABEL {{ ADDR ${4 * n:04X}; NAME "n{n}"; }};\n' for n in range(8000))
        return da65(["-S", "0", "-i", write("l.info", info), write("l.bin", image)], 0, None).out
    return made


def test_da65(da65, shows, limit, data, words, info):
    write("a.info", "".join(INFO[name] for name in info.split()))
    words += f" -i a.info {write('image.bin', DATA[data])} -o out.s"
    shows(limit, instructions(da65.path, words), instructions("da65", words))


def test_da65_with_include_files(da65, shows, limit, lines, width, fill):
    comment = "; a line of comment that says something about what stands below it\n"
    for k in range(16):
        remark = f" ; {'a remark':>{width}}\n" if width else "\n"
        included = "".join(f"n{a:04x} := ${a:04X}{remark}" for a in range(k * lines, (k + 1) * lines))
        write(f"{k}.inc", included + (fill - len(included)) // len(comment) * comment)
    write("a.info", "".join(f'ASMINC {{ FILE "{k}.inc"; }};\n' for k in range(16)))
    words = f"-S 0 -i a.info {write('image.bin', DATA['kilobyte'])} -o out.s"
    shows(limit, instructions(da65.path, words), instructions("da65", words))


def test_large_information_files(da65, shows, kind, count, half, limit, kilobytes):
    """What it takes to list one byte with that many groups or lines, and with half as many."""
    write("one.bin", "\xea")
    words, before = "-i a.info -S 0 one.bin -o out.s", None
    for number, most in (count // 2, half), (count, limit):
        write("a.info", information(kind, number))
        here, there = (int(Program("/usr/bin/time")(["-f", "%M", program, *words.split()], err=None).err.split()[-1])
                       for program in (da65.path, "da65"))
        ours = instructions(da65.path, words)
        shows(most, ours, instructions("da65", words),
              f" for {number}; kilobytes {here:8} {there:8} {100 * here / there:7.1f} %")
        assert not before or ours <= 2.3 * before, "more than 2.3 times the instructions of half as many"
        before = ours
    assert here <= 1.05 * kilobytes, f"{here} kilobytes, more than a twentieth above {kilobytes}"


def files(what, kind, count):
    """The texts of files by the ends of their names, with so many of something."""
    numbers = range(count)
    return {
        "bytes": lambda: {"info": information(kind, count), "bin": count * b"\xea"},
        "jumps": lambda: {"info": groups(kind, count), "bin": b"".join(
            b"\x4c" + (32768 + n * 7919 % count).to_bytes(2, "little") for n in numbers)},
        "definitions": lambda: {"s": groups("definitions", count) + " nop\n"},
        "sharing": lambda: {"s": " nop\n" + "".join(f"{name} := 0\n" for name in alike(count))},
        "lines": lambda: {"s": count * " .byte 0,1\n", "bin": bytes(2 * count)},
        "moved": lambda: {"s": " nop\n" + "".join(f"L{2 * n:04X}: nop\n nop\n" for n in numbers),
                          "bin": 2 * count * b"\xea"},
        "used": lambda: {"s": "".join(f"n{n}: lda n{n * 7919 % count}\n" for n in numbers)},
        "values": lambda: {"s": "".join(f"n{n} := 4\n" for n in numbers) + "".join(
            f" .byte n{n * 7919 % count}\n" for n in numbers)},
        "references": lambda: {"s": "v := 4\n" + count * " .byte v\n"},
        "leads": lambda: {"s": "t: nop\nr: jsr r\n" + count * f" {kind} t\n"},
        "texts": lambda: {"s": count * ' .byte "&<>"\n .byte 1,2\n'},
        # Groups of 256 low bytes, and 16 times as many numbers elsewhere.
        "numbers": lambda: {"s": "start:\n" + 32 * count * " .byte 0,0,0,0,0,0,0,0\n", "info": "".join(
            f"#: HALVES {{ LOW ${256 * n:04X}; ADDR 0; SIZE 256; }};\n" for n in numbers) + "".join(
            f"#: NUMBER {{ ADDR ${0xF000 + n:04X}; }};\n" for n in range(16 * count))},
        # Bytes that count, and groups of other halves.
        "branches": lambda: {"s": "".join(f"l{n}: ldx #<l{n}\n cpx #{6 * n % 256}\n bne l{n + 1}\n" for n in numbers)
                             + f"l{count}: rts\n", "info": "".join(
            f"#: HALVES {{ LOW ${0x8000 + 2 * n:04X}; HIGH ${0x8001 + 2 * n:04X}; }};\n" for n in numbers)},
        # A group AFTER for each name after the image.
        "after": lambda: {"bin": b"".join(b"\x8d" + (0x8000 + 4 * n).to_bytes(2, "little") for n in numbers) + b"\x60",
                          "info": "".join(
            f'LABEL {{ ADDR ${0x8000 + 4 * n:04X}; NAME "v{n}"; }};\n'
            f"#: AFTER {{ START ${0x8000 + 4 * n:04X}; END ${0x8001 + 4 * n:04X}; }};\n" for n in numbers)},
        "digits": lambda: {"s": f"{kind}{0:0{count}}1\n"},
        "line": lambda: {"s": " .byte 0,1" + (count - 1) * ",0,1" + "\n", "bin": bytes(2 * count)},
    }[what]()


def test_pace(request, tool, count, words, files_, kind, status):
    taken = []
    for number in count, 2 * count:
        for end, data in files(files_, kind, number).items():
            write(f"{number}.{end}", data)
        taken.append(instructions(request.getfixturevalue(tool).path, words.replace("@", str(number)), status))
    assert taken[1] <= 2.3 * taken[0], taken


def ca65_and_ld65():
    """How many instructions both take for the listing `a.s`."""
    write("flat.cfg", "MEMORY { MAIN: start = 0, size = $10000, file = %O; } SEGMENTS { CODE: load = MAIN; }")
    words = "--relax-checks -o a.o a.s", "-C flat.cfg -o theirs.bin a.o"
    return sum(map(instructions, ("ca65", "ld65"), words))


def test_as65(as65, shows, text, limit, name):
    write("a.s", text(name))
    ours, theirs = instructions(as65.path, "-S 0 -o ours.bin a.s"), ca65_and_ld65()
    same(read("theirs.bin"), read("ours.bin"), "as65 and ld65 write other bytes")
    shows(limit, ours, theirs)


def test_as65_compares(as65, count, times):
    for end, data in files("moved", "", count).items():
        write(f"a.{end}", data)
    assembled = instructions(as65.path, "-S 0 -o out.bin a.s")
    compared = instructions(as65.path, "-S 0 --compare a.bin a.s", 1)
    assert compared <= times * assembled, f"{compared} instructions, more than {times} times {assembled}"


def test_name65(name65, shows, text, limit, name, words, step):
    write("a.s", text(name))
    pairs = [f"#: HALVES {{ LOW ${4 * n + 1:04X}; HIGH ${4 * n + 3:04X}; }};\n"
             for n in range(0, 8000, step)] if step else []
    words += f" -i {write('a.info', ''.join(pairs))}" if pairs else ""
    shows(limit, instructions(name65.path, f"-S 0 {words} -o ours.s a.s"), ca65_and_ld65())


def test_html65(html65, shows, text):
    """The page is at most 5.3 times as long as the listing of random bytes."""
    listing = text("random")
    ours = instructions(html65.path, f"-S 0 -o a.html {write('a.s', listing)}")
    shows(57.5, ours, ca65_and_ld65())
    assert len(read("a.html")) <= 5.3 * len(listing)


def test_html65_page(html65, lines, most):
    """A page of so many empty lines has at most so many bytes: an empty line is no element."""
    html65(f"-S 0 -o a.html {write('a.s', lines * chr(10) + 'nop')}")
    page = read("a.html")
    assert page.count(b"\n") > lines and page.count(b'id="a') == 1
    assert len(page) <= most, f"{len(page)} bytes of page, more than {most}"


def test_move65(move65, record_property, request, limit, routines):
    """Routines that call each other until their steps are used up. Half as many take half of it."""
    def count(number):
        text = "".join(f"""r{n}: lda #{n % 256}\n sta $20\n lda r{n * 7919 % number},x\n clc\n adc $30\n sta ($22),y
            inx\n ldy $24\n iny\n sty $25\n cmp #$10\n bne s{n}\ns{n}: jsr r{(n * 7919 + 1) % number}\n rts
            """ for n in range(number))
        return instructions(move65.path, f"-S 0x800 {write('calls.s', text)}")

    whole = count(routines)
    record_property("shown", f"move65: {request.node.callspec.id:36} {whole:12}")
    assert whole <= 1050000 * limit, f"{whole} instructions of move65, more than a twentieth above {limit} million"
    assert whole <= 2.3 * count(routines // 2)


def rom(what):
    """A listing from $E000 on, and its groups. A log has an entry for each instruction, in routines that return to
    nowhere; each of the calls is a routine, since the one before calls it."""
    if what == "log":
        text = "".join(f"r{n}: ldx #{n % 256}\ns{n}: lda r{n * 7919 % 500},x\n sta $0400,x\n inx\n bne s{n}\n rts\n"
                       for n in range(500))
        starts = (0xE000 + 13 * n + at for n in range(500) for at in (0, 2, 5, 8, 9, 11))
        return text, "".join(f"#: ENTRY {{ ADDR ${at:04X}; }};\n" for at in starts)
    if what == "entries":
        text = "".join(f"e{n}: inc $20\n jmp e{n}\n" for n in range(1600))
        return text, "".join(f"#: ENTRY {{ ADDR ${0xE000 + 5 * n:04X}; }};\n" for n in range(1600))
    return "".join(f"c{n}: jsr c{n * 1009 % 2700}\n" for n in range(2700)), ""


def test_move65_takes(move65, record_property, request, seconds, what):
    """At most so many seconds of the processor."""
    text, info = rom(what)
    words = f"-f %U {move65.path} -S 0xE000 -i {write('rom.info', info)} {write('rom.s', text)}"
    taken = float(Program("/usr/bin/time").run(words, timeout=5 * seconds).err.split()[-1])
    record_property("shown", f"move65: {request.node.callspec.id:36} {taken:10.1f} s")
    assert taken <= seconds, f"{taken} seconds of move65"


def test_trace65(trace65, record_property, request, limit, data, groups_, kind, times):
    """The whole takes at most so many times what its first half takes, or half of the groups."""
    def count(image, number):
        info = "#: INLINE { ADDR $FFFF; };\n" if number == 1 else groups(kind or "inlines", number)
        words = f"-i {write('a.info', info)} " if number else ""
        return instructions(trace65.path, f"-S 0 --entry 0 {words}{write('image.bin', image)}")

    image, number = DATA[data], groups_ or 0
    whole = count(image, number)
    record_property("shown", f"trace65: {request.node.callspec.id:35} {whole:12}")
    assert whole <= 1000000 * limit, f"{whole} instructions of trace65, more than {limit} million"
    if len(image) > 1 and number != 1:
        assert whole <= (times or 2.3) * (count(image, number // 2) if number else count(image[:len(image) // 2], 0))
