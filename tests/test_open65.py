"""open65 on files of each kind. Each is made here from the public description of its form, from the images that are its
parts: so what is to come back, with an image changed or of another length, is made here too."""
import collections, os, random, re, struct
import pytest
from conftest import ROOT, command, read, write

CODE = bytes.fromhex("a200bd1008f006 20d2ffe8d0f5 60".replace(" ", "")) + b"HELLO\r\0"
le, be = struct.Struct("<H").pack, struct.Struct(">H").pack


def chip(size, seed, vectors=None):
    """A chip of this size: code, other bytes, and the vectors."""
    made = bytearray(random.Random(seed).randbytes(size))
    made[:len(CODE)] = CODE
    if vectors is not None:
        made[-6:] = le(vectors) * 3
    return bytes(made)


def p00(images):
    return b"C64File\0" + b"GAME".ljust(17, b"\0") + b"\0" + le(0x0801) + images[0]


def t64(images):
    head = b"C64S tape image file".ljust(32, b"\0") + le(0x0101) + le(4) + le(len(images)) + b"\0\0" + b"TAPE".ljust(24)
    at, entries = 64 + 4 * 32, b""
    for number, (start, image) in enumerate(zip((0x0801, 0xC000), images)):
        entries += b"\x01\x82" + le(start) + le(start + len(image)) + b"\0\0" + struct.pack("<I", at) + bytes(4)
        entries += b"FILE %d".replace(b"%d", b"%d" % number).ljust(16)
        at += len(image)
    return head + entries.ljust(4 * 32, b"\0") + b"".join(images)


def d64(images, size=174_848):
    """A disk with two programs, whose sectors are five apart."""
    sectors = [(track, sector) for track in range(1, 41) for sector in range(
        21 if track < 18 else 19 if track < 25 else 18 if track < 31 else 17)]
    place = {pair: 256 * number for number, pair in enumerate(sectors)}
    disk = bytearray(size)
    disk[place[18, 0]:][:3] = disk[place[18, 0]:place[18, 0] + 3] = b"\x12\x01A"
    disk[place[18, 1] + 1] = 0xFF
    free = [(track, sector * 5 % 17) for track in (17, 19, 20) for sector in range(17)]
    for number, (start, image) in enumerate(zip((0x0801, 0xC000), images)):
        rest, chain = le(start) + image, []
        while rest:
            chain.append((free.pop(0), rest[:254]))
            rest = rest[254:]
        for (here, data), after in zip(chain, [one for one, _ in chain[1:]] + [None]):
            link = bytes(after) if after else bytes([0, len(data) + 1])
            disk[place[here]:place[here] + 2 + len(data)] = link + data
        entry = place[18, 1] + 32 * number
        disk[entry + 2:entry + 21] = b"\x82" + bytes(chain[0][0]) + b"PROG %d".replace(b"%d", b"%d" % number).ljust(
            16, b"\xa0")
    return bytes(disk)


def crt(images):
    made = b"C64 CARTRIDGE   " + struct.pack(">IHHBB6x32s", 64, 0x100, 5, 0, 0, b"TEST")
    for number, image in enumerate(images):
        made += b"CHIP" + struct.pack(">IHHHH", 16 + len(image), 0, number, 0x8000, len(image)) + image
    return made


def sid(images, inside=False):
    head = b"PSID" + struct.pack(">HHHHHHHI", 2, 0x7C, 0 if inside else 0x1000, 0x1000, 0x1003, 1, 1, 0)
    return head + bytes(96 + 6) + (le(0x1000) if inside else b"") + images[0]


def vsf(images):
    memory = bytes(0x0800) + images[0] + bytes(0x3000)
    made = b"VICE Snapshot File\x1a\2\0" + b"C64".ljust(16, b"\0") + b"VICE Version\x1a" + bytes(8)
    for name, data in (b"MAINCPU", bytes(20)), (b"C64MEM", b"\x37\x2f\1\1" + memory + bytes(15)):
        made += name.ljust(16, b"\0") + b"\0\1" + struct.pack("<I", 22 + len(data)) + data
    return made


def nes(mapper, trainer=False):
    def made(images):
        code = b"".join(images)
        flags = mapper % 16 * 16 + 4 * trainer
        return b"NES\x1a" + bytes([len(code) // 0x4000, 1, flags, mapper & 0xF0]) + bytes(8) + bytes(512 * trainer) + \
            code + bytes(range(256)) * 32
    return made


def xex(images):
    made = b"\xff\xff"
    for start, image in zip((0x2000, 0x3000), images):
        made += le(start) + le(start + len(image) - 1) + image
    return made + le(0x02E0) + le(0x02E1) + le(0x2000)


def car(kind):
    def made(images):
        data = b"".join(images)
        return b"CART" + struct.pack(">III", kind, sum(data), 0) + data
    return made


def a78(images):
    data = b"".join(images)
    return (b"\x01ATARI7800".ljust(17, b"\0") + b"GAME".ljust(32, b"\0") + struct.pack(">I", len(data))).ljust(
        128, b"\0") + data


def dos33(images):
    return le(0x0803) + le(len(images[0])) + images[0]


def single(images):
    """The resource fork stands behind the data."""
    data, info = images[0], be(0xC3) + be(6) + struct.pack(">I", 0x0803)
    at = 26 + 3 * 12
    entries = [(11, at, len(info)), (1, at + 8, len(data)), (2, at + 8 + len(data), 5)]
    return struct.pack(">II", 0x00051600, 0x00020000) + bytes(16) + be(3) + b"".join(
        struct.pack(">III", *entry) for entry in entries) + info + data + b"after"


def in_order(sectors, is_prodos):
    """A disk of sectors by (track, sector) of DOS, in the order of DOS or of ProDOS."""
    order = [0, 14, 13, 12, 11, 10, 9, 8, 7, 6, 5, 4, 3, 2, 1, 15]
    disk = bytearray(143_360)
    for (track, sector), data in sectors.items():
        at = 4096 * track + 256 * (order.index(sector) if is_prodos else sector)
        disk[at:at + len(data)] = data
    return bytes(disk)


def dos_disk(is_prodos=False):
    def made(images):
        table = bytearray(256)
        table[1:4], table[0x27], table[0x34:0x38] = b"\x11\x0f\3", 122, b"\x23\x10\0\1"
        catalog, sectors = bytearray(256), {(17, 0): table}
        for number, (start, image) in enumerate(zip((0x0803, 0x6000), images)):
            track, rest = 20 + number, le(start) + le(len(image)) + image
            pairs = bytearray(256)
            for sector in range(1, 1 + (len(rest) + 255) // 256):
                pairs[10 + 2 * sector:12 + 2 * sector] = bytes([track, sector])
                sectors[track, sector] = rest[256 * sector - 256:256 * sector]
            sectors[track, 0] = pairs
            name = b"PROG %d".replace(b"%d", b"%d" % number).ljust(30)
            catalog[11 + 35 * number:11 + 35 * number + 33] = bytes([track, 0, 4]) + bytes(one | 0x80 for one in name)
        sectors[17, 15] = catalog
        return in_order(sectors, is_prodos)
    return made


def prodos_disk(is_prodos):
    """A seedling and a sapling, in blocks of two sectors."""
    def made(images):
        blocks = {}
        entries = bytes([0xF3]) + b"VOL".ljust(15, b"\0") + bytes(15) + b"\x27\x0d" + bytes(6)
        for number, (start, image) in enumerate(zip((0x2000, 0x4000), images)):
            key = 20 * (number + 1)
            pieces = [image[at:at + 512] for at in range(0, len(image), 512)]
            if len(pieces) == 1:
                blocks[key], storage = pieces[0], 1
            else:
                index, storage = bytearray(512), 2
                for at, piece in enumerate(pieces):
                    blocks[key + 1 + at], index[at] = piece, key + 1 + at
                blocks[key] = bytes(index)
            entries += bytes([16 * storage + 5]) + b"PROG" + b"%d" % number + bytes(10) + b"\x06" + le(key) + le(
                len(pieces)) + struct.pack("<I", len(image))[:3] + bytes(4) + b"\0\0\xc3" + le(start) + bytes(6)
        blocks[2] = bytes(4) + entries
        sectors = {}
        halves = [(0, 14), (13, 12), (11, 10), (9, 8), (7, 6), (5, 4), (3, 2), (1, 15)]
        for block, data in blocks.items():
            data = bytes(data).ljust(512, b"\0")
            for half in 0, 1:
                sectors[block // 8, halves[block % 8][half]] = data[256 * half:256 * half + 256]
        return in_order(sectors, is_prodos)
    return made


def oric(images):
    made = b""
    for start, image in zip((0x0600, 0x8000), images):
        made += b"\x16\x16\x16\x24" + bytes([0, 0, 0x80, 0xC7]) + be(start + len(image) - 1) + be(start) + b"\0"
        made += b"PROG\0" + image
    return made


def ssd(images):
    names, places, sector, data = b"DISC    ", b"    " + bytes([0, 8 * len(images), 3, 32]), 2, b""
    for start, image in zip((0x1900, 0x2000), images):
        names += b"PROG%d  $".replace(b"%d", b"%d" % sector)
        places += le(start) + le(start) + le(len(image)) + bytes([0xCC, sector])
        data += image.ljust(-len(image) % 256 + len(image), b"\0")
        sector += (len(image) + 255) // 256
    return names.ljust(256, b"\0") + places.ljust(256, b"\0") + data


def intel(images):
    def line(kind, at, data=b""):
        body = bytes([len(data)]) + be(at) + bytes([kind]) + data
        return b":" + (body + bytes([-sum(body) % 256])).hex().upper().encode() + b"\r\n"
    return b"".join(line(0, 0xE000 + at, images[0][at:at + 16]) for at in range(0, len(images[0]), 16)) + line(1, 0)


def motorola(images, kind=b"S1", wide=2, start=0xE000):
    def line(kind, at, data=b""):
        body = bytes([wide + len(data) + 1]) + struct.pack(">I", at)[4 - wide:] + data
        return kind + (body + bytes([~sum(body) % 256])).hex().upper().encode() + b"\n"
    return b"S0030000FC\n" + b"".join(line(kind, start + at, images[0][at:at + 16]) for at in range(
        0, len(images[0]), 16)) + line(b"S9" if wide == 2 else b"S8", 0)


def joined(images):
    return b"".join(images)


Form = collections.namedtuple("Form", "make starts images kind grows words guess", defaults=(False, "", ""))
ONE, TWO = [CODE], [CODE, bytes(range(200)) * 3]
ROM, BANKS = [chip(0x2000, 1, 0xE000)], [chip(0x4000, seed, 0xC000) for seed in range(4)]
NROM = chip(0x8000, 7, 0x8000)
EIGHTS = [chip(0x2000, seed) for seed in range(8)]
COLD = le(0x8009) * 2 + b"\xc3\xc2\xcd80" + CODE + EIGHTS[0][9 + len(CODE):]
MMC3 = "that banks of 8 KiB are seen at $8000: some of them may be seen at $A000"
FORMS = {
    "game.prg": Form(lambda images: le(0x0801) + images[0], [0x0801], ONE, "Commodore program", True),
    "game.p00": Form(p00, [0x0801], ONE, "P00, Commodore program", True),
    "tape.t64": Form(t64, [0x0801, 0xC000], TWO, "T64", True),
    "disk.d64": Form(d64, [0x0801, 0xC000], TWO, "D64"),
    "errors.d64": Form(lambda images: d64(images, 175_531), [0x0801, 0xC000], TWO, "D64"),
    "disk40.d64": Form(lambda images: d64(images, 196_608), [0x0801, 0xC000], TWO, "D64"),
    "cart.crt": Form(crt, [0x8000] * 3, [COLD, *EIGHTS[1:3]], "C64 cartridge, hardware 5"),
    "tune.sid": Form(sid, [0x1000], ONE, "SID tune", True),
    "inside.sid": Form(lambda images: sid(images, True), [0x1000], ONE, "SID tune", True),
    "snap.vsf": Form(vsf, [0x0800], [chip(0xC800, 3)], "VICE snapshot",
                     guess="that the program lies from $0800 to $CFFF"),
    "nrom.nes": Form(nes(0), [0xC000], [chip(0x4000, 1, 0xC000)], "NES, mapper 0"),
    "low.nes": Form(nes(0), [0x8000], [chip(0x4000, 1, 0x8000)], "NES, mapper 0"),
    "nrom256.nes": Form(nes(0, True), [0x8000], [NROM], "NES, mapper 0"),
    "mmc1.nes": Form(nes(1), [0x8000] * 3 + [0xC000], BANKS, "NES, mapper 1"),
    "uxrom.nes": Form(nes(2, True), [0x8000] * 3 + [0xC000], BANKS, "NES, mapper 2"),
    "cnrom.nes": Form(nes(3), [0x8000], [NROM], "NES, mapper 3"),
    "mmc3.nes": Form(nes(4), [0x8000] * 6 + [0xC000, 0xE000], EIGHTS, "NES, mapper 4", guess=MMC3),
    "mmc5.nes": Form(nes(5), [0x8000] * 7 + [0xE000], EIGHTS, "NES, mapper 5", guess=MMC3),
    "axrom.nes": Form(nes(7), [0x8000] * 2, [NROM, NROM[::-1]], "NES, mapper 7"),
    "mmc2.nes": Form(nes(9), [0x8000] * 5 + [0xA000, 0xC000, 0xE000], EIGHTS, "NES, mapper 9", guess=MMC3),
    "gxrom.nes": Form(nes(66), [0x8000] * 2, [NROM, NROM[::-1]], "NES, mapper 66"),
    "other.nes": Form(nes(85), [0x8000] * 3 + [0xC000], BANKS, "NES, mapper 85",
                      guess="banks of 16 KiB, of which the last one stays at $C000"),
    "game.xex": Form(xex, [0x2000, 0x3000], TWO, "Atari executable", True),
    "anything": Form(xex, [0x2000, 0x3000], TWO, "Atari executable", True),
    "cart.car": Form(car(1), [0xA000], [chip(0x2000, 5)], "Atari cartridge, type 1"),
    "xegs.car": Form(car(12), [0x8000] * 3 + [0xA000], EIGHTS[:4], "Atari cartridge, type 12",
                     guess="banks of 8 KiB, of which the last one stays at $A000"),
    "game.a78": Form(a78, [0x8000], [NROM], "Atari 7800"),
    "super.a78": Form(a78, [0x8000] * 3 + [0xC000], BANKS, "Atari 7800",
                      guess="banks of 16 KiB at $8000, of which the last one stays at $C000"),
    "game.a52": Form(joined, [0x8000], [chip(0x4000, 2)], "Atari 5200"),
    "game2k.a26": Form(joined, [0xF800], [chip(0x0800, 2, 0xF800)], "Atari 2600"),
    "game4k.a26": Form(joined, [0xF000], [chip(0x1000, 2, 0xF000)], "Atari 2600"),
    "game8k.a26": Form(joined, [0xF000] * 2, [chip(0x1000, seed, 0xF000) for seed in range(2)], "Atari 2600"),
    "game16k.bin": Form(joined, [0xF000] * 4, [chip(0x1000, seed, 0xF000) for seed in range(4)], "Atari 2600",
                        words="--kind a26"),
    "tigervision.bin": Form(joined, [0xF000] * 3 + [0xF800], [chip(0x0800, seed) for seed in range(4)], "Atari 2600",
                            words="--kind 3f", guess="that banks but the last one are seen at $F000"),
    "hello.dos33": Form(dos33, [0x0803], ONE, "DOS 3.3 binary", True),
    "hello": Form(dos33, [0x0803], ONE, "DOS 3.3 binary", True),
    "hello.as": Form(single, [0x0803], ONE, "AppleSingle", True),
    "hello.system": Form(joined, [0x2000], ONE, "ProDOS system file", True),
    "dos.dsk": Form(dos_disk(), [0x0803, 0x6000], TWO, "disk of DOS 3.3"),
    "dos.po": Form(dos_disk(True), [0x0803, 0x6000], TWO, "disk of DOS 3.3"),
    "prodos.po": Form(prodos_disk(True), [0x2000, 0x4000], TWO, "disk of ProDOS"),
    "prodos.dsk": Form(prodos_disk(False), [0x2000, 0x4000], TWO, "disk of ProDOS"),
    "tape.tap": Form(oric, [0x0600, 0x8000], TWO, "Oric tape", True),
    "disc.ssd": Form(ssd, [0x1900, 0x2000], TWO, "BBC disc"),
    "game.lnx": Form(lambda images: b"LYNX".ljust(64, b"\0") + images[0], [0x0200], ROM, "Lynx cartridge", guess=(
        "all: the first bytes are an encrypted loader, and the directory behind it is not read")),
    "rom.hex": Form(intel, [0xE000], ROM, "Intel HEX", True),
    "rom.s19": Form(motorola, [0xE000], ROM, "S-records", True),
    "rom.s28": Form(lambda images: motorola(images, b"S2", 3), [0xE000], ROM, "S-records"),
    "rom.bin": Form(joined, [0xE000], ROM, "plain image", guess="nothing says where it lies"),
    "at.bin": Form(joined, [0x4000], ROM, "plain image", words="--at 0x4000"),
    "large.bin": Form(joined, [0x8000] * 8, BANKS * 2, "plain image",
                      guess="nothing says where its banks lie, and how large they are"),
    "banks.bin": Form(joined, [0xA000] * 4, EIGHTS[:4], "plain image", words="--at 0xA000 --bank-size 0x2000"),
}


@pytest.fixture(params=FORMS)
def form(request):
    """The name of a file and its form; the file is there."""
    write(request.param, FORMS[request.param].make(FORMS[request.param].images))
    return request.param, FORMS[request.param]


def listed(out):
    """The first line, what each line of a part says, and the guesses."""
    first, *lines = out.decode().splitlines()
    found = [re.fullmatch(r"(\S+)  +([\d,]+) bytes? at \$(\w{4})  (\S+\.info)(?:  \S.*)?", line) for line in lines]
    parts = [(one[1], int(one[2].replace(",", "")), int(one[3], 16), one[4]) for one in found if one]
    return first, parts, [line for line, one in zip(lines, found) if not one]


def image_of(name):
    """What an information file says: the bytes of its image, and their address."""
    text = read(name).decode()
    said = dict(re.findall(r'(INPUT\w+|STARTADDR) "?\$?([^";]+)"?;', text))
    begin = int(said["INPUTOFFS"])
    return read(said["INPUTNAME"])[begin:begin + int(said["INPUTSIZE"])], int(said["STARTADDR"], 16), text


def test_list(open65, form):
    name, form = form
    there = os.listdir()
    first, parts, guesses = listed(open65(f"--list {form.words} {name}", 0, None).out)
    count = len(form.images)
    assert first == f"{name}: {form.kind}, {count} part{'s' if count > 1 else ''}"
    assert [part[1:3] for part in parts] == [(len(image), start) for image, start in zip(form.images, form.starts)]
    assert guesses == ([f"guessed: {form.guess}"] if form.guess else [])
    assert os.listdir() == there


def test_open(open65, da65, form):
    """Each information file says where its image is, and da65 takes it."""
    name, form = form
    os.mkdir("new")
    _, parts, _ = listed(open65(f"-d new {form.words} {name}", 0, None).out)
    for (short, _, _, info), image, start in zip(parts, form.images, form.starts):
        assert info == (f"{name.rsplit('.', 1)[0]}_{short}.info" if len(parts) > 1 else f"{short}.info")
        found, at, text = image_of("new/" + info)
        assert (found, at) == (image, start)
        da65(f"-i new/{info}", 0, None)
        assert ("$FFFA; END $FFFF; TYPE AddrTable" in text) == (start + len(image) == 0x10000)
        assert ("$8000; END $8003; TYPE AddrTable" in text) == (image[4:9] == b"\xc3\xc2\xcd80")
    assert {one.rsplit(".", 1)[0] for one in os.listdir("new")} == {one[3].rsplit(".", 1)[0] for one in parts}
    # Nothing is written over, and if one of the files is there, none is written.
    os.mkdir("other")
    write("other/" + parts[-1][3], "own")
    open65.refuses(f"-d other {form.words} {name}", f"other/{parts[-1][3]} exists")
    assert os.listdir("other") == [parts[-1][3]]


def back(open65, name, form, images):
    """The file with these images in the place of its parts."""
    _, parts, _ = listed(open65(f"--list {form.words} {name}", 0, None).out)
    words = [f"{part[0]}={write(f'image{number}', image)}" for number, (part, image) in enumerate(zip(parts, images))]
    run = open65.run(f"{form.words} --back {name} -o new {' '.join(words)}")
    made = read("new") if os.path.exists("new") else None
    if made is not None:
        os.remove("new")
    return run, made


def test_back(open65, form):
    """What is put back is the file made of these images: as they are, with other bytes, and with other lengths."""
    name, form = form
    run, made = back(open65, name, form, form.images)
    run.gives()
    assert made == read(name)
    other = [bytes([image[0]]) + bytes(255 - byte for byte in image[1:-6]) + image[-6:] for image in form.images]
    run, made = back(open65, name, form, other)
    run.gives()
    assert made == form.make(other)
    for change in (lambda image: image + b"more", lambda image: image[:-3]) if form.starts[0] + len(
            form.images[0]) < 0x10000 else (lambda image: image[:-3],):
        for number in range(len(form.images)):
            longer = list(form.images)
            longer[number] = change(longer[number])
            run, made = back(open65, name, form, longer)
            if form.grows:
                run.gives()
                assert made == form.make(longer)
            else:
                assert run.status == 1 and made is None
                assert f" {len(longer[number])} bytes" in run.err.decode()


def test_damaged(open65, form):
    """A file that is cut, or has other bytes: a message, or parts that lie in the file. No other file is written."""
    name, form = form
    whole, own = read(name), random.Random(name)
    cuts = range(len(whole)) if len(whole) < 300 else [*range(150), *own.sample(range(len(whole)), 100)]
    damaged = [whole[:cut] for cut in cuts]
    for _ in range(100):
        other = bytearray(whole)
        for _ in range(own.choice((1, 3, 30))):
            at = own.randrange(min(len(whole), own.choice((64, 1024, 200_000))))
            other[at] = own.choice((0, 255, own.randrange(256)))
        damaged.append(bytes(other))
    os.mkdir("new")
    there = sorted(os.listdir())
    for data in damaged:
        write(name, data)
        run = open65.run(f"-d new {form.words} {name}", timeout=10)
        assert run.status in (0, 1) and len(run.err.splitlines()) == run.status, run
        infos = [one for one in os.listdir("new") if one.endswith(".info")]
        assert len(listed(run.out)[1] if run.out else []) == len(infos)
        for info in infos:
            image, start, text = image_of("new/" + info)
            assert len(image) == int(re.search(r"INPUTSIZE (\d+)", text)[1]) and start + len(image) <= 0x10000
        for one in os.listdir("new"):
            os.remove("new/" + one)
        assert sorted(os.listdir()) == there


def test_words(open65, given, words, status, out, err, after, stdin):
    open65.does(given, words, status, out, err, after, stdin)


def test_disk_with_a_loop(open65):
    """The directory, or a file, leads back to its first sector."""
    disk = bytearray(d64(TWO))
    at = 256 * (17 * 21 + 1)
    disk[at:at + 2] = b"\x12\x01"
    write("disk.d64", disk)
    first, parts, _ = listed(open65("--list disk.d64", 0, None, timeout=10).out)
    assert first == f"disk.d64: D64, {len(parts)} parts" and len(parts) <= 2 * 19
    begin = 256 * 16 * 21
    disk[begin:begin + 2] = b"\x11\0"
    write("disk.d64", disk)
    open65("--list disk.d64", 0, None, timeout=10)


def test_entries(open65):
    """What a container says of where code begins."""
    known = {"game.xex": ["$2000"], "tune.sid": ["$1000", "$1003"], "hello.as": ["$0803"], "tape.tap": ["$0600"],
             "disc.ssd": ["$1900"], "start.system": ["$2000"], "low.nes": ["$8000"] * 3}
    for name, entries in known.items():
        form = FORMS[name.replace("start", "hello")]
        write(name, form.make(form.images))
        _, parts, _ = listed(open65(name, 0, None).out)
        assert re.findall(r"#: ENTRY { ADDR (\S+); };", read(parts[0][3]).decode()) == entries, name


def test_filler(open65, da65):
    """Stretches of a page and more are tables. Those of NOP are not, and neither are the vectors."""
    image = CODE.ljust(0x100, b"\xff") + bytes(0x100) + b"\xea" * 0x200 + b"\xff" * 0x3FC + bytes.fromhex("00f000f8")
    open65(f"{write('rom.bin', image.rjust(0x1000, bytes([1])))}", 0, None)
    text = read("rom.info").decode()
    ranges = re.findall(r"RANGE { START \$(\w+); END \$(\w+); TYPE (\w+); };", text)
    assert ranges == [("FFFA", "FFFF", "AddrTable"), ("F000", "F7FF", "ByteTable"), ("F900", "F9FF", "ByteTable"),
                      ("FC00", "FFF9", "ByteTable")]
    da65("-i rom.info", 0, None)


def test_names(open65, da65):
    """The names of the machine are included from the folder `names`."""
    write("game.prg", FORMS["game.prg"].make(ONE))
    open65("game.prg", 0, None)
    assert 'ASMINC { FILE "names/c64.inc"; };' in read("game.info").decode()
    da65("-i game.info", 0, None)
    for words, wanted in ("--machine vic20", "names/vic20.inc"), ("--machine none", None), ("--names examples", ""):
        os.remove("game.info")
        if wanted == "":
            open65.refuses(f"{words} game.prg", "cannot read examples/c64.inc")
            write("game.info", "")
            continue
        open65(f"{words} game.prg", 0, None)
        assert re.findall('FILE "(.*)"', read("game.info").decode()) == ([wanted] if wanted else [])


def test_records_with_gaps(open65):
    """Bytes between records are $FF, and the order counts for nothing. What is written into a gap gets records."""
    def line(at, data, kind=0):
        body = bytes([len(data)]) + be(at) + bytes([kind]) + data
        return ":" + (body + bytes([-sum(body) % 256])).hex() + "\n"
    write("rom.hex", line(0xE010, CODE[:9]) + line(0xE000, b"ab") + line(0, b"", 1))
    _, parts, guesses = listed(open65("rom.hex", 0, None).out)
    image = b"ab" + b"\xff" * 14 + CODE[:9]
    assert image_of("rom.info")[:2] == (image, 0xE000) and not guesses
    open65(f"--back rom.hex -o new.hex rom={write('image', image)}")
    assert read("new.hex") == read("rom.hex")
    other = b"abc" + image[3:]
    open65(f"--back rom.hex -o gap.hex rom={write('image', other)}")
    wanted = line(0xE000, other[:16]).upper() + line(0xE010, other[16:]).upper() + line(0, b"", 1)
    assert read("gap.hex").decode() == wanted
    # A chip that begins at 0 ends at $FFFF, as far as is known.
    write("chip.hex", "".join(line(at, bytes(16)) for at in range(0, 0x0800, 16)))
    _, parts, guesses = listed(open65("--list chip.hex", 0, None).out)
    assert parts[0][1:3] == (0x0800, 0xF800)
    assert guesses == ["guessed: nothing says where it lies: the addresses of the records are those in a chip"]
    # More than 64 KiB are a part for each piece.
    write("far.hex", line(0xFFF0, b"ab") + line(0, be(3), 4) + line(0x1000, b"cd") + line(0x1002, b"ef"))
    _, parts, _ = listed(open65("--list far.hex", 0, None).out)
    assert [part[:3] for part in parts] == [("block0", 2, 0xFFF0), ("block1", 4, 0x1000)]


@pytest.mark.ca65
@pytest.mark.parametrize("target", ("c64", "nes", "atari", "apple2"))
def test_cc65(open65, da65, trace65, target):
    """A program of cc65 opens, and an instruction is reached at the address that its linker gives to main."""
    write("main.c", "int main(void) { return *(unsigned char *)0x400; }\n")
    command(f"cl65 -t {target} -m map -o program main.c")
    main = int(re.search(r"\b_main +(\w{6})\b", read("map").decode())[1], 16)
    _, parts, _ = listed(open65("--machine none program", 0, None).out)
    (info,) = [info for _, size, start, info in parts if start <= main < start + size]
    trace65(f"-i {info} --whole -o whole.info", 0, None)
    listing = da65("-i whole.info", 0, None).out.decode()
    assert re.search(rf"(?m)^L{main:04X}:\s+(\.proc|[a-z]{{3}})\b", listing)


def test_man_page_lists_each_kind():
    """The words of --kind in the man page are those of the table."""
    page = (ROOT / "docs/open65.1").read_text().partition(".nf\n")[2].partition(".fi\n")[0]
    table = (ROOT / "crates/open65/src/kinds.rt").read_text().replace(" .atari2600", "")
    rows = [(line[:9].strip(), line[9:31].strip()) for line in page.splitlines()]
    assert rows == [*re.findall(r'\("(\w+)", "([^"]+)", (?:true|false)\)', table), ("plain", "")]
