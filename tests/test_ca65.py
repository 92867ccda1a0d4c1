"""The programs beside those of cc65: what both da65 say of an information file, the values of the names of names/, and
the bytes of listings and of random texts, as people write them who edit a listing, or that both assemblers refuse them.

The same seed gives the same images and texts; --images, --texts and --seed say which. Left out, since ca65 treats them
in its own way: a segment named ZEROPAGE, a byte $FF in a comment, and what EXCUSED names."""
import itertools, os, random, re, shutil, subprocess
import pytest
from conftest import CPUS, IMAGES, INFORMATION, ROOT, Program, command, fails, read, write

pytestmark = pytest.mark.ca65
PEER = os.environ.get("PEER", "/usr/bin/da65")
IS_CC65S = shutil.which(PEER) and b"da65 V" in subprocess.run([PEER, "--version"], capture_output=True).stderr
PAGE = (ROOT / "docs/DIFFERENCES.md").read_text()
PEERS = [*sorted(path.stem for path in (ROOT / "tests/peer").glob("*.info")), "above_1_mib"]


def shrunk(items, is_bad):
    """A part of a list that is bad too: pieces are left out as long as it stays so, first large and then small ones."""
    size, least = len(items) // 2, len(items) // 128
    while size > least:
        for at in reversed(range(0, len(items), size)):
            rest = items[:at] + items[at + size:]
            if rest and is_bad(rest):
                items = rest
        size //= 2
    return items


def body(listing):
    """The lines of a listing after its head, without empty ones, unless they follow a jump or a return."""
    lines, leaves = [], False
    for line in re.split(r"(?m)^ *\.setcpu.*\n", listing.decode("latin-1"), 1)[1].split("\n"):
        if line:
            leaves = re.search("jmp|rts", line)
        if line or leaves:
            lines.append(line)
    return lines


@pytest.mark.skipif(not IS_CC65S, reason=f"{PEER} is not cc65's da65")
@pytest.mark.parametrize("name", PEERS)
def test_differences(da65, name):
    """What both say of a file is a row of docs/DIFFERENCES.md."""
    shutil.copytree(ROOT / "tests/peer", ".", dirs_exist_ok=True)
    words = ["-i", name + ".info"] + ([] if b"INPUTNAME" in read(name + ".info") else ["-S", "0x1000", "image.bin"])
    here, there = (program.run(words) for program in (da65, Program(PEER)))
    said = f"`{here.err.decode().rstrip()}`" if here.status else "accepted"
    compared = "-" if here.status or there.status else "same" if body(here.out) == body(there.out) else "another"
    found = f"| `{name}` | {said} | {'refused' if there.status else 'accepted'} | {compared} |"
    assert found in PAGE, f"docs/DIFFERENCES.md has no row {found}"


def test_the_page_has_no_other_row():
    assert sorted(re.findall(r"^\| `([a-z0-9_]+)` \|", PAGE, re.M)) == sorted(PEERS)


def test_names_agree(name, count, others, includes):
    """These include files, some of which ask for a name `__MACHINE__`, have at least that many of the names, and give
    them the same values, except the others."""
    names = re.findall(r"^(\w+) += (\$....)  ;", (ROOT / "names" / (name + ".inc")).read_text(), re.M)
    lines = ["names_of_both .set 0", *(
        f"{word} = 1" if word.startswith("__") else f'.include "{word}.inc"' for word in includes.split())]
    for word, value in names:
        lines += [f".ifdef {word}", f'.assert {word} = {value}, warning, "{word}"',
                  "names_of_both .set names_of_both + 1", ".endif"]
    write("names.s", "\n".join([*lines, '.out .sprintf("%d", names_of_both)\n']))
    run = Program("ca65")(f"-o names.o -D __{name.upper()}__ names.s", 0, None, None)
    assert int(run.out) >= count
    assert {line.rsplit(b": ", 1)[1].decode() for line in run.err.splitlines()} <= set(others.split())


SEGMENT = re.compile(r'^ *\.(?:code$|segment +"?(\w+).*)', re.M)


def segments(text):
    """The segments of a text that have a statement, each as often as it is entered."""
    first, *rest = SEGMENT.split(text)
    parts = [("CODE", first), *zip(rest[::2], rest[1::2])]
    return [name or "CODE" for name, part in parts if re.search(r"(?m)^(?!\s*(;|$|\.setcpu|\w+\s*:?=)).", part)]


def in_stretches(text):
    """The text in which each segment line leads to a segment of its own, since ld65 puts those of one name together."""
    numbers = itertools.count(1)
    return SEGMENT.sub(lambda _: f' .segment "stretch_{next(numbers)}"', text)


def linked(text, start, size):
    """The bytes of a text by ca65 and ld65, its segments in their order; or what they say."""
    write("linked.s", text.encode("latin-1"))
    areas = "".join(f"    {name}: load = MAIN, type = ro;\n" for name in segments(text))
    write("linked.cfg", f"MEMORY {{ MAIN: start = {start}, size = {size}, file = %O; }}\nSEGMENTS {{\n{areas}}}\n")
    for words in ("ca65 --relax-checks -o linked.o linked.s", "ld65 -C linked.cfg -o linked.out linked.o"):
        run = subprocess.run(words.split(), capture_output=True)
        if run.returncode:
            return run.stderr.decode("latin-1")
    return read("linked.out")


def fault(da65, as65, start, image, words):
    """What is wrong with the listing of an image, which both assemblers have to take, or nothing."""
    listed = da65.run(words)
    text = listed.out.decode("latin-1")
    entered = segments(text)
    is_again = len(set(entered)) < len(entered)
    if listed.status or listed.err != b"da65: warning: a segment is entered again\n" * is_again:
        return f"da65: {listed.err.decode()}"
    write("listing.s", listed.out)
    ours = as65.run(f"-S {start} --compare {image} listing.s")
    if ours.status:
        return f"as65: {(ours.out + ours.err).decode('latin-1')[:500]}"
    theirs = linked(in_stretches(text) if is_again else text, start, len(read(image)))
    return theirs if isinstance(theirs, str) else None if theirs == read(image) else "ld65: other bytes"


TYPES = "CODE BYTETABLE WORDTABLE DBYTETABLE DWORDTABLE ADDRTABLE RTSTABLE TEXTTABLE".split()
NAMES = "CODE DATA BSS RODATA lda A s0 s1 s2 s3 s4 s5".split()


def random_information(draw, start, size, cpu, apart):
    """Lines with ranges that do not overlap, labels, segments and a layout. No label is named ina, dea, wai or stp,
    which ca65 takes for mnemonics of the later CPUs. Segments that are apart have names of their own and reach to the
    end, so that none is entered again."""
    end, lines, named = start + size, [f'GLOBAL {{ STARTADDR ${start:04X}; CPU "{cpu}"; }};'], set()
    at = start + draw.randrange(200)
    while at < end:
        last = min(at + draw.randrange(60), 65535)
        lines.append(f"RANGE {{ START ${at:04X}; END ${last:04X}; TYPE {draw.choice(TYPES)}; }};")
        at = last + 1 + draw.randrange(100) * draw.randrange(2)
    for _ in range(draw.randrange(30)):
        at = draw.choice((draw.randrange(256), draw.randrange(65536), start + draw.randrange(size)))
        count = draw.randrange(1, 4)
        if at not in named and at + count <= 65536:
            named.add(at)
            remark = "".join(chr(9 if byte in (34, 127) else byte)
                             for byte in draw.choices(range(32, 255), k=draw.randrange(40)))
            lines.append(f'LABEL {{ ADDR ${at:04X}; NAME "n_{at:04x}"; SIZE {count}; COMMENT "{remark}"; }};')
    at, k = start + draw.randrange(size), 0
    while at < end and k < 30:
        last = at + draw.randrange(300)
        last = end - 1 if apart and (last >= end or k == 29) else min(last, 65535)
        name = f"t{k}" if apart else draw.choice(NAMES)
        lines.append(f'SEGMENT {{ START ${at:04X}; END ${last:04X}; NAME "{name}"; }};')
        at, k = last + 1 + (0 if apart else draw.randrange(50) * draw.randrange(2)), k + 1
    columns = "".join(f" {name}COLUMN {draw.randrange(1, 121)};" for name in "MNEMONIC ARGUMENT COMMENT TEXT".split()
                      if draw.randrange(2))
    layout = f"LABELBREAK {draw.randrange(121)}; NEWLINEAFTERJMP on; NEWLINEAFTERRTS on;"
    return [*lines, f"GLOBAL {{ COMMENTS {draw.randrange(5)};{columns} {layout} }};"]


def pytest_generate_tests(metafunc):
    option = metafunc.config.getoption
    rows = {"image": [f"image {k} of seed {option('seed')}" for k in range(option("images"))],
            "text": [f"50 texts of seed {option('seed')} from {k} on" for k in range(0, option("texts"), 50)]}
    for name in rows.keys() & metafunc.fixturenames:
        metafunc.parametrize(name, rows[name])


@pytest.mark.parametrize("cpu", CPUS)
def test_a_listing(da65, as65, image, cpu):
    draw, apart = random.Random(f"{image} {cpu}"), int(image.split()[1]) % 2 == 0
    # Stretches of random bytes, of printable ones and of one byte.
    size, data = draw.randrange(draw.choices((40, 4000, 65536), (24, 75, 1))[0]) + 1, b""
    while len(data) < size:
        count, kind = draw.randrange(1, 201), min(draw.randrange(4), 2)
        data += (bytes(draw.choices(range(32, 127), k=count)), count * draw.randbytes(1), draw.randbytes(count))[kind]
    start, data = draw.randrange(65536 - size + 1), data[:size]
    lines = random_information(draw, start, len(data), cpu, apart)

    def bad(lines, data):
        write("image.bin", data)
        return fault(da65, as65, start, "image.bin", f"-i {write('image.info', chr(10).join(lines))} image.bin")

    if found := bad(lines, data):
        lines = lines[:1] + shrunk(lines[1:], lambda some: bad(lines[:1] + some, data))
        data = bytes(shrunk(list(data), lambda some: bad(lines, bytes(some))))
        fails(f"{found}\na smaller case, of the bytes {data[:300].hex(' ')}: {bad(lines, data)}\n" + "\n".join(lines))
    assert not apart or b".segment" in read("listing.s")


@pytest.mark.parametrize("name", INFORMATION)
def test_the_listing_of_an_example(da65, as65, name):
    text = (ROOT / name).read_text()

    def said(word, otherwise):
        found = re.search(rf'\b{word}\s+"?([^";]*)', text)
        return found[1].replace("$", "0x") if found else otherwise

    offset, size = int(said("INPUTOFFS", "0"), 0), int(said("INPUTSIZE", "65536"), 0)
    data = read(said("INPUTNAME", ""))[offset:offset + size]
    start = int(said("STARTADDR", str(65536 - len(data))), 0)
    assert not fault(da65, as65, start, write("example.bin", data), f"-i {name}")


@pytest.mark.parametrize("cpu", CPUS)
@pytest.mark.parametrize("name", IMAGES)
def test_the_listing_of_an_image(da65, as65, name, cpu):
    assert not fault(da65, as65, 65536 - len(read(name)), name, f"--cpu {cpu} {name}")


# What stands for a name in braces: one of its texts, where 5* is as likely as five; {#N} is a number below N. The other
# names are methods of Text.
GRAMMAR = """\
statement = .byte {#256}, {#256}, "A;b" | {words} {value},{#65536} | .setcpu "{cpu}" | {segment} | {branch} {here} | \
{far} {value} | {one} | 2*{implied} | 4*{load} {operand} | 5*{repair}
words = .word | .addr | .dbyt | .dword | .WORD
cpu = 6502 | 65SC02 | 65C02 | 65c02
segment = .code | .segment "one" | .segment "Two"
branch = bcc | bcs | beq | bmi | bne | bpl | bvc | bvs
far = jmp | jsr | inc | asl | bit | ldx | sty
one = asl a | ROL A | lsr a | jmp ($1234) | ldx $20,y | sty $20,x | {newer}
newer = bra here1 | bra {near} | stz $10 | lda ($20) | rmb3 $40 | bbs7 $12,here1 | bbr3 $12,{near} | inc a | inc | dec
implied = brk | clc | cld | cli | clv | dex | dey | inx | iny | nop | pha | php | pla | plp | rti | rts | sec | sed | \
sei | tax | tay | tsx | txa | txs | tya
load = adc | and | cmp | eor | lda | ora | sbc | sta
operand = 21*{value} | 7*{value},x | 7*{value},y | 8*({#256},x) | 8*({#256}),Y | 8*#{#256} | 3*a:{value} | \
a:{value},x | a:{value},y
repair = 3*{immediate} #{half} | 2*{immediate} #{byte} | 2*.byte {data} | {halves} {expressions} | \
{numbers} {differences} | 2*.res {size} | {shift}
immediate = adc | and | cmp | cpx | cpy | eor | lda | ldx | ldy | ora | sbc
halves = .lobytes | .hibytes | .LoBytes | .HIBYTES
numbers = .word | .addr | .dbyt | .dword
shift = asl | lsr | rol | ror | ASL | Ror | {newer}
size = {fill} | {fill}, {#260}
fill = 39*{#20} | {#70000}
data = {datum} | {datum}, {data}
datum = 2*{half} | "<;" | "A" | "%'" | 3*{byte}
byte = {expression} | 3*{difference} | 8*{#256}
expressions = {expression} | {expression}, {expressions}
expression = {difference} | 2*{value}
differences = {difference} | {difference}, {differences}
value = 25*{number} | 5*{number}{plus}{#256} | 6*{name}{minus}{#300} | 5*{name}+{#300} | {name}+{#300}-1 | \
15*{name} | 3*{name}-1 | 2*{star}
star = * | *{minus}{#300} | *+{#300} | *+{#300}-1
near = *{minus}{#120} | *+{#120}
number = {#65536} | 3*{#256}
plus = + | \x20+\x20
minus = 2*- | \x20-\x20
is = \x20:=\x20 | \x20=\x20 | =
"""
RULES = {}
for rule in GRAMMAR.splitlines():
    left, _, right = rule.partition(" = ")
    texts = [re.fullmatch(r"(?:(\d+)\*)?(.*)", text).groups("1") for text in right.split(" | ")]
    RULES[left] = [text for times, text in texts for _ in range(int(times))]


class Text:
    """A random text: lines with a statement each, the names that it defines and those that a later line may define."""

    def __init__(self, draw, cpu):
        self.draw, self.any, self.defined, self.wanted = draw, draw.randrange, [], set()
        self.lines = [f'.setcpu "{cpu}"']
        for self.count in range(1, self.any(3, 43) + 1):
            kind = self.any(12)
            if kind < 2:
                name = f"{'kp'[kind]}{self.count}"
                line = name + self.made(("{is}{number} ; a constant", " := * + {#20}")[kind])
            else:
                line, name = self.made("{statement}"), f"w{self.count}"
                name = name if self.any(3) == 0 and line[:2] not in (".c", ".s") else None
                line = f"{name}:  {line}" if name else line
            self.defined += [name] if name else []
            self.lines.append(f"here{self.count}:\n {line}")
        self.lines += [self.made(name + " := {#65536}") for name in sorted(self.wanted) if self.any(30)]

    def made(self, text):
        """The text with what stands for its names."""
        return re.sub(r"\{(#?)(\w+)\}", lambda found: self.below(int(found[2])) if found[1]
                      else getattr(self, found[2])() if hasattr(self, found[2])
                      else self.made(self.draw.choice(RULES[found[2]])), text)

    def below(self, limit):
        """A number below this one: in decimal, hexadecimal or binary, or as a character."""
        value, kind = self.any(limit), self.any(6)
        character = 32 + value % 95 if 32 + value % 95 < limit else 32
        return {0: str(value), 4: f"%{value:b}", 5: f"'{chr(character)}'"}.get(kind, f"${value:0{kind}X}")

    def here(self):
        return f"here{self.count}"

    def name(self):
        if self.any(5) and self.defined:
            return self.draw.choice(self.defined)
        name = f"later{self.any(12)}"
        self.wanted.add(name)
        return name

    def difference(self):
        """That of two names: mostly of a line and one before it."""
        if self.any(8) == 0:
            return self.made("{name}{minus}{name}")
        first = self.any(1, self.count + 1)
        return self.made(f"here{self.any(first, self.count + 1)}{{minus}}here{first}")

    def half(self):
        """That of a value. A number and a name may stand in parentheses; anything else needs them."""
        word = self.made("{expression}")
        in_parentheses = "-" in word or "+" in word or self.any(3) == 0
        return self.draw.choice(("<", ">", "< ", "> ")) + (f"({word})" if in_parentheses else word)


# as65 refuses what ca65 takes: a value below 0 or above $FFFF whose half is taken or that .dbyt has, a value below 0 in
# .dword, of which ca65 takes the low bytes, a text without a byte, and * in a list of several.
EXCUSED = re.compile(r"(?mi): value out of range: .*([<>]|\.lobytes|\.hibytes|\.dbyt|\.dword)|: no bytes$"
                     r"|: undefined name: \* ")


def judged(as65, lines, start):
    """Whether both assemblers give the same bytes for a text; and what is wrong, if they do not agree."""
    write("text.s", "\n".join(lines) + "\n")
    ours = as65.run(f"-S {start} text.s")
    theirs = linked(in_stretches("\n".join(lines)), start, 65536 - start)
    said, they_say = ours.err.decode("latin-1"), theirs if isinstance(theirs, str) else ""
    if ours.status == 0 and theirs == ours.out:
        return True, None
    if ours.status and (they_say or EXCUSED.search(said)):
        return False, None
    return False, f"from {start} as65 says: {said or 'bytes'}, and ca65: {they_say or 'other bytes'}"


def test_texts(as65, text):
    """At least half of the texts have bytes for both."""
    agreed, draw = 0, random.Random(text)
    for k in range(50):
        lines, start = Text(draw, CPUS[k % 3]).lines, draw.randrange(60000)
        is_same, wrong = judged(as65, lines, start)
        agreed += is_same
        if wrong:
            lines = shrunk(lines, lambda some: judged(as65, some, start)[1])
            fails(f"{wrong}\na smaller case: {judged(as65, lines, start)[1]}\n" + "\n".join(lines))
    assert agreed >= 25


# The operations of each CPU and their operands: those of the 6502, what the 65SC02 has more, and what the 65C02; wai
# and stp are not of the 65C02 of da65.
OPERATIONS = {"6502": """\
adc and cmp eor lda ora sbc = #$12 $12 $12,x $1234 $1234,x $1234,y ($12,x) ($12),y
sta = $12 $12,x $1234 $1234,x $1234,y ($12,x) ($12),y
asl lsr rol ror = a $12 $12,x $1234 $1234,x
inc dec = $12 $12,x $1234 $1234,x
ldx = #$12 $12 $12,y $1234 $1234,y
ldy = #$12 $12 $12,x $1234 $1234,x
stx = $12 $12,y $1234
sty = $12 $12,x $1234
cpx cpy = #$12 $12 $1234
bit = $12 $1234
jmp = $1234 ($1234)
jsr = $1234
bcc bcs beq bmi bne bpl bvc bvs = here
brk clc cld cli clv dex dey inx iny nop pha php pla plp rti rts sec sed sei tax tay tsx txa txs tya = .
""", "65SC02": """\
adc and cmp eor lda ora sbc sta = ($12)
inc dec = a
bit = #$12 $12,x $1234,x
jmp = ($1234,x)
bra = here
stz = $12 $12,x $1234 $1234,x
trb tsb = $12 $1234
phx phy plx ply = .
""", "65C02": """\
bbr0 bbr1 bbr2 bbr3 bbr4 bbr5 bbr6 bbr7 bbs0 bbs1 bbs2 bbs3 bbs4 bbs5 bbs6 bbs7 = $12,here
rmb0 rmb1 rmb2 rmb3 rmb4 rmb5 rmb6 rmb7 smb0 smb1 smb2 smb3 smb4 smb5 smb6 smb7 = $12
"""}


@pytest.mark.parametrize("here", ("w{}", "*", "*+122", "*-3"))
@pytest.mark.parametrize("cpu, count", zip(CPUS, (151, 178, 210)))
def test_each_operation(as65, cpu, count, here):
    """Each opcode of a CPU once. Branches lead to themselves, or to an address before or after them."""
    rows = [row.split(" = ") for more in CPUS[:CPUS.index(cpu) + 1] for row in OPERATIONS[more].splitlines()]
    found = [f"{word} {operand.strip('.')}" for words, operands in rows for word in words.split()
             for operand in operands.split()]
    assert len(set(found)) == len(found) == count
    lines = [f"w{k}: " + text.replace("here", here.format(k)) for k, text in enumerate(found)]
    assert judged(as65, [f'.setcpu "{cpu}"', *lines], 0x1000) == (True, None)


def test_segments_at_their_place(as65):
    text = ('start: lda #<last\n ldx #last-start\nlast:\n.segment "TABLES"\nthere: .addr start,there,last\n .res 3\n'
            '.segment "VECTORS"\nend: .word end-there,end,start\n')
    write("a.info", 'SEGMENT { START $1010; END $1FFF; NAME "TABLES"; };\n'
          'SEGMENT { START $2FFA; END $2FFF; NAME "VECTORS"; };\n')
    write("a.cfg", "MEMORY { ROM: start = $1000, size = $2000, file = %O, fill = yes, fillval = $EA; }\n"
          "SEGMENTS { CODE: load = ROM, type = ro; TABLES: load = ROM, type = ro, start = $1010;"
          " VECTORS: load = ROM, type = ro, start = $2FFA; }\n")
    write("linked.s", text.replace(".res 3", ".res 3,$00"))
    command("ca65 -o linked.o linked.s")
    command("ld65 -C a.cfg -o linked.out linked.o")
    as65(["-S", "0x1000", "-i", "a.info", "--fill", "$EA", write("text.s", text)], 0, read("linked.out"))
