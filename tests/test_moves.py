"""How good the proposals of trace65 are, and what moves: tests/corpus/*.s, small programs whose truth is known. The
README beside them says what a program is, and what its figures are. --write writes what is found."""
import functools, re, subprocess
from collections import Counter, defaultdict
import pytest
from conftest import ROOT, Program, read, same, write

FOLDER = ROOT / "tests/corpus"
FIGURES = (
    "code {reached} of {code}, constants as code {taken} of {constants}, halves {pairs} right {false_pairs} wrong, "
    "rows {rows} right {false_rows} wrong, follows {follows} of {places}, wrong {wrong}, runs {runs} of {moves}")
RANGE = re.compile(r"^RANGE \{ START \$(\w+); END \$(\w+); TYPE (\w+);", re.MULTILINE)
HALVES = re.compile(r"^#: HALVES \{ LOW \$(\w+); HIGH \$(\w+); \};", re.MULTILINE)
INSTRUCTION = re.compile(r"(\w+:)?\s+[a-z]{3}[0-7]?(\s|$)")


class Refused(Exception):
    """What is said instead of figures."""


def addresses(spans):
    """The addresses from the first to the last of each span."""
    return {at for first, last in spans for at in range(int(first, 16), int(last, 16) + 1)}


class Sample:
    """A program of the corpus. `head` is what its text says first, `lost` are lines that trace65 should have shown."""

    def __init__(self, path, **tools):
        self.tools, self.parts, self.lost, self.figures, self.head = tools, [], [], Counter(), defaultdict(list)
        self.text = path.read_text()
        for key, value in re.findall(r"^; (expect|should be|shows|info|entry|start): (.*)", self.text, re.MULTILINE):
            self.head[key].append(value)
        self.start = int(self.head["start"][0][1:], 16) if self.head["start"] else 0x1000
        self.cpu = (re.findall(r'\.setcpu +"(\w+)"', self.text) or ["6502"])[0]
        self.is_rom = '"VECTORS"' in self.text

    def assemble(self):
        """Assembles and links it. Each part gets a segment of its own, so that ld65 keeps their order."""
        def segment(match):
            self.parts.append(f"{match[1].upper()}{len(self.parts)}")
            return f'.segment "{self.parts[-1]}"'

        write("program.s", re.sub(r"^ *\.(code|rodata)\b", segment, self.text, flags=re.MULTILINE))
        self.run("ca65", "-g", "--relax-checks", "-I", FOLDER, "-o", "program.o", "program.s")
        self.image = self.linked(0)
        self.code = addresses(re.findall(r"^CODE\d+ +(\w+) +(\w+)", read("map").decode(), re.MULTILINE))
        self.labels = {name: int(at, 16) for at, name in re.findall(r"al (\w+) \.(\w+)", read("labels").decode())}

    def run(self, tool, *words):
        """What a tool writes."""
        done = self.tools.get(tool, Program(tool)).run(words)
        if done.status:
            said = done.err.decode(errors="replace").split("\n")[0].removeprefix(f"{tool}: ")
            raise Refused(f"refused by {tool}: {said}")
        return done.out.decode(errors="replace")

    def start_at(self, distance):
        """Where the image begins if it is linked this many bytes later, or a ROM earlier."""
        return self.start - distance if self.is_rom else self.start + distance

    @functools.cache
    def linked(self, distance):
        """The image, linked this many bytes later, or a ROM earlier."""
        size, parts = 0x10000 - self.start, "".join(f"{part}: load = MAIN;\n" for part in self.parts)
        write("config", f"""
            MEMORY {{ ZP: start = $80, size = $70; MAIN: start = {self.start_at(distance)}, size = {size}, file = %O,
                      fill = {'yes' if self.is_rom else 'no'}, fillval = $FF; }}
            SEGMENTS {{ ZEROPAGE: load = ZP, type = zp, optional = yes; {parts}
                        VECTORS: load = MAIN, offset = {size - 6}, optional = yes;
                        BSS: load = MAIN, type = bss, optional = yes; }}""")
        self.run("ld65", "-C", "config", *(() if distance else ("-m", "map", "-Ln", "labels")), "-o", "image",
                 "program.o")
        return read("image")

    def is_address(self, low, high):
        """Whether these two bytes are the halves of an address wherever the program is linked, also with a carry."""
        word = lambda image: image[low - self.start] + 256 * image[high - self.start]
        value = word(self.image)
        carry = value % 256 + 1 if self.is_rom else 256 - value % 256
        return all(word(self.linked(by)) - value == self.start_at(by) - self.start for by in (1, 256, carry - 1, carry))

    def address_of(self, name):
        if name not in self.labels:
            raise Refused(f"no label {name}")
        return self.labels[name]

    def with_addresses(self, text):
        """The text, with addresses in place of names of labels."""
        return re.sub(r"@(\w+)(\+\d+)?", lambda match: f"${self.address_of(match[1]) + int(match[2] or 0):04X}", text)

    def assembled(self, listing, distance=0):
        """The image that as65 makes of a listing."""
        self.run("as65", "-S", self.start_at(distance), "-o", "assembled", listing)
        return read("assembled")

    def executed(self, image, start):
        """How an image with this start ends in sim65, what it writes, and what sim65 says."""
        word = start.to_bytes(2, "little")
        write("program.prg", b"sim65" + bytes([2, self.cpu == "65C02", 0xF0]) + word + word + image)
        done = subprocess.run(["sim65", "-x", "1000000", "program.prg"], capture_output=True)
        return done.returncode, done.stdout, done.stderr.decode(errors="replace").strip()

    def propose(self):
        """Takes the image through trace65, da65 and name65. Gives the information file, and what trace65 proposes."""
        write("image.bin", self.image)
        info = f'GLOBAL {{ INPUTNAME "image.bin"; STARTADDR ${self.start:04X}; CPU "{self.cpu}"; }};\n'
        info += "".join(self.with_addresses(line) + "\n" for line in self.head["info"])
        write("given.info", info)
        entries = ",".join(str(self.address_of(name)) for line in self.head["entry"] for name in line.split())
        found = self.run("trace65", "-i", "given.info", *(["--entry", entries] if entries else []))
        self.lost = [line for line in map(self.with_addresses, self.head["shows"]) if line not in found.split("\n")]
        write("all.info", info + found)
        self.run("da65", "-i", "all.info", "-o", "listing.s")
        self.run("name65", "-i", "all.info", "-o", "named.s", "listing.s")
        if self.assembled("named.s") != self.image:
            raise Refused("the listing by names gives other bytes")
        return info, found

    def count(self, info, found):
        """Counts code, addresses in halves and in rows, and the bytes that follow if the program moves."""
        all_bytes = set(range(self.start, self.start + len(self.image)))
        reached = all_bytes - addresses((first, last) for first, last, kind in RANGE.findall(info + found)
                                        if kind != "Code")
        pairs = [self.is_address(int(low, 16), int(high, 16)) for low, high in HALVES.findall(found)]
        rows = [all(self.is_address(at, at + 1) for at in range(int(first, 16), int(last, 16), 2))
                for first, last, kind in RANGE.findall(found) if kind in ("AddrTable", "RtsTable")]
        self.figures.update(code=len(self.code), reached=len(self.code & reached), taken=len(reached - self.code),
                            constants=len(all_bytes - self.code), pairs=pairs.count(True),
                            false_pairs=pairs.count(False), rows=rows.count(True), false_rows=rows.count(False))
        for by in 1, 256:
            for here, linked, named in zip(self.image, self.linked(by), self.assembled("named.s", by)):
                self.figures.update(places=linked != here, follows=named == linked != here,
                                    wrong=named != linked == here)

    def count_runs(self):
        """Whether the program runs as before after bytes were inserted."""
        before = self.executed(self.image, self.start)
        if before[2] or self.executed(self.linked(256), self.start + 256) != before:
            raise Refused("it does not run, or not so if it is linked a page later: " + before[2])
        lines = read("named.s").decode().split("\n")
        for number, size in insertions(lines):
            write("edited.s", "\n".join(lines[:number] + ["        nop"] * size + lines[number:]))
            self.figures.update(moves=1)
            try:
                self.figures.update(runs=self.executed(self.assembled("edited.s"), self.start) == before)
            except Refused:  # as65 can't assemble it
                pass


    def measure(self):
        """What is said of it: its figures, or why it is refused."""
        try:
            self.assemble()
            self.count(*self.propose())
            if "sim65.inc" in self.text:
                self.count_runs()
            return FIGURES.format_map(self.figures).removesuffix(", runs 0 of 0")
        except Refused as cause:
            self.figures = Counter(refused=1)
            return str(cause)


def insertions(lines):
    """Before which lines bytes are inserted, and how many."""
    first, *later = [number for number, line in enumerate(lines) if INSTRUCTION.match(line)]
    yield from ((first, 3), (first, 300))
    for number in later:
        if not lines[number].startswith(" "):
            while ":= *" in lines[number - 1]:  # a name of a place in the instruction stays with it
                number -= 1
            yield number, 1


def summary(figures):
    """The figures of several programs together."""
    total, ran = sum(figures, Counter()), [one for one in figures if one["moves"]]
    as_before = f"{sum(one['runs'] == one['moves'] for one in ran)} of {len(ran)} run as before"
    return f"{len(figures)} programs, {total['refused']} refused; {as_before}; {FIGURES.format_map(total)}"


@pytest.mark.ca65
@pytest.mark.parametrize("name", sorted(path.stem for path in FOLDER.glob("*.s")))
def test_corpus(trace65, da65, as65, name65, name, record_property, request):
    path = FOLDER / f"{name}.s"
    sample = Sample(path, trace65=trace65, da65=da65, as65=as65, name65=name65)
    said = sample.measure()
    record_property("figures", dict(sample.figures))
    if request.config.getoption("--write"):
        return path.write_text(re.sub(r"^; expect:.*", lambda _: f"; expect: {said}", sample.text, 1, re.MULTILINE))
    same("".join(sample.head["expect"]).replace(", ", ",\n"), said.replace(", ", ",\n"), f"{name}.s: the figures")
    assert not sample.lost, "trace65 does not show this"
    reached = [line for line in sample.head["should be"] if set(line.split(", ")) <= set(said.split(", "))]
    assert not reached, "it is as it should be, so this line can go"
