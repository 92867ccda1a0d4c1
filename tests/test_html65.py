"""html65 on real files: its messages, and the page. The page is read by Python's own reader of HTML, references are
counted from the listing by patterns, and what the page looks like is left to tidy and to a browser."""
import base64, collections, html, html.parser, json, random, re, shutil, socket, struct, subprocess
import pytest
from conftest import BROWSER, CPUS, IMAGES, INFORMATION, ROOT, read, tables, write

REPAIR = tables(__name__)[0]["REPAIR"]


# What the page says of those who refer to something.
SAID = {"called by": "call", "jumped to by": "jump", "branched to by": "branch", "read by": "read",
        "written by": "write", "changed by": "change", "pointer of": "pointer", "in the table at": "table",
        "half in": "half", "value in": "value"}


class Page(html.parser.HTMLParser):
    """A page as a reader of HTML sees it: `text` of the listing; `lines`: the number of the line of each id in it; of
    each line the `left` remark, and the `links`: the numbers of lines and the rows to which its operands lead; and
    `uses`: (way, line) of the remark above it. `rows` has the same of the row of an address, or of the name of a line.
    `inside` are the elements that are open: pre is that of the listing, and i a remark."""

    def __init__(self, page):
        super().__init__()
        self.text, self.hrefs, self.attributes, self.images = "", [], set(), []
        self.tags, self.ids = collections.Counter(), collections.Counter()
        self.left, self.lines = collections.defaultdict(str), {}
        self.links, self.uses, self.rows = (collections.defaultdict(list) for _ in range(3))
        self.inside, self.line, self.way, self.row = set(), 1, "", None
        self.feed(page.decode("latin-1"))
        self.close()
        self.links, self.uses, self.rows = ({self.lines.get(key, key): list(map(self.led, all_)) for key, all_ in
                                             found.items()} for found in (self.links, self.uses, self.rows))

    def led(self, one):
        """A target, or a use, with the number of the line in place of its id."""
        return self.lines.get(one, one) if isinstance(one, str) else (one[0], self.lines[one[1]])

    def handle_starttag(self, tag, attributes):
        values = dict(attributes)
        self.tags[tag] += 1
        self.attributes |= {(tag, name) for name in values}
        name, target = values.get("id", ""), values.get("href", "")
        if name:
            self.ids[name] += 1
        if target:
            self.hrefs.append(target)
        if tag == "img":
            self.images.append((self.line, values))
        if tag != "pre" or name == "listing":
            self.inside.add(tag)
        if tag == "i" and values.get("class") == "r":
            self.inside.add("r")
        if tag == "tr":
            self.row = self.row if values.get("class") == "u" else name
            self.inside |= {"u"} if values.get("class") == "u" else set()
        if name and "pre" in self.inside and tag != "pre":
            self.lines[name] = self.line
        if tag == "a" and "pre" in self.inside:
            if "i" not in self.inside:
                self.links[self.line].append(target[1:])
            elif target[1] in "al":
                self.uses[self.line].append((self.way, target[1:]))
        elif tag == "a" and "tr" in self.inside and target[1] in "al":
            if "u" in self.inside:
                self.rows[self.row].append((self.way, target[1:]))
            else:
                self.row = target[1:]

    def handle_endtag(self, tag):
        self.inside.discard(tag)
        if tag in ("i", "table"):
            self.inside -= {"r", "u"}

    def handle_data(self, data):
        if said := re.findall("|".join(SAID), data):
            self.way = SAID[said[-1]]
        if "\n" in data:
            self.inside.discard("u")
        if "pre" in self.inside and "i" not in self.inside:
            self.text += data
            self.line += data.count("\n")
        elif "pre" in self.inside and "r" not in self.inside:
            self.left[self.line] += data


@pytest.fixture
def page_of(html65):
    """The page of a listing on standard input."""
    return lambda listing, words="-S 0x1000": html65(f"{words} -", 0, None, stdin=listing).out


@pytest.fixture
def whole(page_of):
    """The page of a listing, which gives it back, and each of whose links leads to one line."""
    def read_back(listing, words="-S 0x1000"):
        page = Page(page_of(listing, words))
        text = listing if isinstance(listing, str) else listing.decode("latin-1")
        assert page.text == text.replace("\0", "\ufffd")
        assert all(page.ids[href[1:]] == 1 and href[0] == "#" for href in page.hrefs)
        assert set(page.ids.values()) == {1}
        assert {name: line for name, line in page.lines.items() if name[0] == "a"} == {
            f"a{left[:4]}": line for line, left in page.left.items() if left.strip()}
        assert all(name[0] == "a" or name == f"l{line}" for name, line in page.lines.items())
        return page
    return read_back


def test_words(html65, given, words, status, out, err, after, stdin):
    html65.does(given, words, status, out, err, after, stdin)


def test_start(html65, words, left):
    write("a.s", '.segment "TWO"\nnop\n.code\nnop\n')
    write("a.info", 'GLOBAL { STARTADDR $1000; };\nSEGMENT { NAME "TWO"; START $1004; END $1005; };\n')
    html65(f"{words} -o a.html a.s")
    page = Page(read("a.html"))
    assert page.left[2].strip() == left
    assert "fill" not in words or page.left[1].strip() == "1000 00 00 00 00"


WAYS = {name: way for way, names in {
    "call": "jsr", "jump": "jmp bra", "branch": "bcc bcs beq bmi bne bpl bvc bvs", "write": "sta stx sty stz",
    "change": "inc dec asl lsr rol ror trb tsb"}.items() for name in names.split()}
DEFINED = re.compile(r"[ \t]*([A-Za-z_]\w*)[ \t]*(?::=|=|:)")


def expected(listing):
    """From the listing alone: the lines that define names, the (way, line) that refer to each, and the links."""
    lines, defined, uses, links = listing.splitlines(), {}, collections.defaultdict(list), collections.defaultdict(list)
    for number, line in enumerate(lines, 1):
        if found := DEFINED.match(line):
            defined[found[1]] = number
    for number, line in enumerate(lines, 1):
        plain = re.sub(r"'.'|\"[^\"]*\"", " ", line).split(";")[0]
        plain = re.sub(r"^[ \t]*[A-Za-z_]\w*[ \t]*:(?!=)", "", plain)
        if ":=" in plain or "=" in plain or not (found := re.match(r"[ \t]*(\.?\w+)(.*)", plain)):
            continue
        operation, operands = found[1].lower(), found[2]
        for at, operand in enumerate(operands.split(",")):
            for name in re.finditer(r"(?<![\w$])[A-Za-z_]\w*", operand):
                if name[0] in defined:
                    uses[defined[name[0]]].append((way(operation, operands, operand, name.start(), at), number))
                    links[number].append(defined[name[0]])
    return defined, uses, links


def way(operation, operands, operand, start, at):
    if "<" in operand[:start] or ">" in operand[:start] or operation in (".lobytes", ".hibytes"):
        return "half"
    if operation[0] == ".":
        return "value" if operation == ".byte" else "table"
    if operation[:3] in ("bbr", "bbs"):
        return "branch" if at else "read"
    if operation[:3] in ("rmb", "smb"):
        return "change"
    return "value" if "#" in operands else "pointer" if "(" in operands else WAYS.get(operation, "read")


def nearest(line, uses):
    """Those of the uses that stand above the line: the first ten by their ways, and of each way the nearest first."""
    by_way = sorted(uses, key=lambda use: (list(SAID.values()).index(use[0]), abs(use[1] - line), use[1]))
    return sorted(by_way[:10])


def test_text(da65, as65, whole):
    """Each listing comes back: of all examples, of small texts and of random bytes. The links are those of the listing,
    and CR, blanks and a last line without a line feed stay."""
    def listed(words, more="", **how):
        return words, da65(f"{words} {more}", 0, None, None, **how).out

    listings = [listed("-S 0x1000", name) for name in IMAGES if len(read(name)) <= 0xF000]
    listings += [listed(f"-i {name}", f"--comments {level}") for name in INFORMATION for level in (0, 4)]
    listings += [("-S 0x1000", read(text)) for text in sorted(ROOT.glob("crates/*/stdin"))
                 if as65.run(["-S", "0x1000", "-o", "/dev/null", text]).status == 0]
    listings += [listed("-S 0xC000", f"--cpu {cpu} /dev/stdin", stdin=random.Random(seed).randbytes(700 * (seed + 1)))
                 for cpu in CPUS for seed in range(6)]
    assert len(listings) > 31
    for words, listing in listings:
        page = whole(listing, words)
        lines = listing.split(b"\n")
        defined, uses, links = expected(listing.decode("latin-1"))
        assert page.ids.keys() >= {f"l{number}" for number in defined.values()}, words
        assert {line: sorted(page.rows[line]) for line, found in uses.items() if len(found) > 10} == {
            line: sorted(found) for line, found in uses.items() if len(found) > 10}, words
        assert {line: sorted(found) for line, found in page.uses.items()} == {
            line: nearest(line, found) for line, found in uses.items()}, words
        assert {line: found for line, some in page.links.items()
                if (found := [one for one in some if isinstance(one, int)])} == dict(links), words
    for listing in ("nop", "\n\nnop\n\n", " \tnop ; x\r\n", "lda #'<'\nlda #'&' ; 'x\n.byte \"\",$00\n"):
        whole(listing)


@pytest.mark.parametrize("text", [
    "<script>alert(1)</script>", "</pre><img src=http://leak.test/x.png>", "<i>", "</i></span></pre>",
    "&lt;i&gt;&amp;amp;", "&", "&#60;", "<", "\" onclick=\"x", "<!--", "<![CDATA[", "<a href=\"#l1\" id=\"l1\">",
    "\0\x01\x1b[31m\x7f", "\x80\xfe\xff\xc3\x28", "\x0b\x0c\x85\u00a0"])
def test_hostile(html65, whole, text):
    """What stands in a comment, a string or the name of a file is never markup."""
    def made(text):
        string = re.sub(r'[^ -~]|"', "", text) or "a"
        return f'v := $12 ; {text}\n; {text}\nL: lda v ; {text}\n.byte "{string}" ; {text}\n'

    page, plain = whole(made(text)), whole(made("a" * len(text)))
    assert page.tags == plain.tags and page.attributes == plain.attributes and page.hrefs == plain.hrefs
    assert all(values["src"].startswith("data:image/bmp;base64,") for _, values in page.images)
    name = write(text.replace("/", "_").replace("\0", "") + ".s", made(text))
    named = Page(html65(["-S", "0x1000", "--", name.encode().decode("latin-1")], 0, None).out)
    assert named.tags == plain.tags and named.attributes == plain.attributes
    assert not {"script", "iframe", "object", "link", "base", "form"} & set(page.tags)


def test_ways(whole):
    """The expected ways of each kind of operand, worked out by hand: (way, line) for the line of each name."""
    page = whole(REPAIR)
    assert {line: sorted(uses) for line, uses in page.uses.items()} == {
        1: [("pointer", 10), ("read", 17), ("write", 7), ("write", 9)], 2: [("value", 5), ("value", 20)],
        3: [("jump", 18)], 5: [("half", 21), ("table", 22)], 10: [("branch", 13)],
        15: [("branch", 17), ("call", 11), ("half", 21), ("table", 23)],
        20: [("half", 6), ("half", 8), ("half", 20), ("table", 22), ("value", 20)],
        21: [("table", 22), ("value", 20)], 22: [("pointer", 14)]}


def rows_of(page, title):
    """The rows of a table of the page, without tags."""
    text = page.decode("latin-1")
    part = text[text.index(f"<summary>{title} ("):]
    part = part[:part.index("</table>")]
    part = re.sub(r'<td colspan="(.)">(?=<td)', lambda cell: int(cell[1]) * "|", part)
    return [re.sub("<[^>]*>", "", re.sub("<td[^>]*>", "|", row.partition(">")[2])).strip("|\n")
            for row in part.split("<tr")[1:]]


def test_lists(page_of):
    """Names and addresses by their values: counts of reads, writes, changes, pointers, jumps and data. Below the row of
    an address, and of a name that more than ten lines refer to, stands who does, by way and routine."""
    page = page_of(REPAIR)
    group = 'LABEL { ADDR $0012; NAME ""; };'
    assert rows_of(page, "Before the image") == [
        "$0003|COUNT||||||d2", "$0010|ptr|r1|w2||p1", "$0012||||c1", f"changed by print 1015 {group}"]
    assert rows_of(page, "In the image") == [
        "$1000|start||||||d2|begins", "$100A|loop|||||j1", "$1015|print|||||j2|d2", "$101D|text||||||d5|the length",
        "$1021|end||||||d2", "$1023|vec||||p1"]
    assert rows_of(page, "After the image") == ["$FFD2|out|||||j1"]
    assert rows_of(page, "Routines") == [
        "$1000|$1014|21|start", "calls print", "$1015|$101C|8|print", "calls out; called by start"]
    assert f"Groups to copy (1)</summary><code>{group}\n</code>" in page.decode()
    links, titles = r'<a href="#(s\d)">(.*?)</a>', r'<details open id="(s\d)"><summary>(.*?) \('
    assert re.findall(links, page.decode()) == [("s0", "Routines"), ("s1", "before"), ("s2", "in"), ("s3", "after")]
    assert re.findall(titles, page.decode()) == [
        ("s0", "Routines"), ("s1", "Before the image"), ("s2", "In the image"), ("s3", "After the image")]
    assert rows_of(page_of("L: nop\n"), "After the image") == ["none"]
    assert rows_of(page_of("L: nop\nM: jmp L\n"), "In the image") == ["$1000|L|||||j1", "$1001|M|none"]
    inside = page_of("start: jsr in\n rts\nin := *+1\n bit $01A9\n rts\n")
    assert rows_of(inside, "Routines") == ["$1000|$1004|5|start", "calls in", "$1005|$1007|3|in", "called by start"]


def test_links(whole, listing, links):
    """Each operand leads where the row says, and no line has another link."""
    found = whole(listing).links
    assert ", ".join(f"{line}: {' '.join(map(str, found[line]))}" for line in sorted(found)) == links


def test_entities(whole, page_of, listing, shown):
    whole(listing)
    first = page_of(listing).decode("latin-1").partition('<pre id="listing">')[2].partition("\n")[0]
    assert re.sub("<i.*</i>|<[^>]*>", "", first) == shown


def test_rows(page_of, listing, title, rows):
    assert rows_of(page_of(listing), title) == rows.split(", ")


# Lines that use an address, and the row and the lines of its uses; and what is no routine of its own.
NUMBERS = """dump: lda $20
 beq done
 sta $20
 jmp dump
done: inc $20
 rts
show: sta $0020
 jmp ($20)
 sta $2000,x
 lda #$20
 .addr $20
 .word $20
table: .byte 1
"""


def test_numbers(whole, page_of):
    """An operand that is the number of an address leads to its row, and the row back to each use."""
    page = whole(NUMBERS)
    assert {line: found for line, found in page.links.items() if any(isinstance(one, str) for one in found)} == {
        1: ["r0020"], 3: ["r0020"], 5: ["r0020"], 7: ["r0020"], 8: ["r0020"], 9: ["r2000"], 11: ["r0020"]}
    assert page.rows["r0020"] == [("read", 1), ("write", 3), ("write", 7), ("change", 5), ("pointer", 8), ("table", 11)]
    rows = rows_of(page_of(NUMBERS), "Before the image")
    assert rows[:2] == ["$0020||r1|w2|c1|p1||d1",
                        "read by dump 1000; written by dump 1004, show 100C; changed by dump 1009; "
                        'pointer of show 100E; in the table at 1016 LABEL { ADDR $0020; NAME ""; };']
    assert [row.split("|")[3] for row in rows_of(page_of(NUMBERS), "Routines")] == ["dump", "show"]


def test_star(whole):
    """A `*` is the address of its line. Neither that is a link, nor what is added to it."""
    page = whole("L: bne *+2\n jmp *\nM := *+1\n lda *+$20,x\n .word *-2\n .word L\n jsr M\n")
    assert page.links == {6: [1], 7: [3]} and page.uses == {1: [("table", 6)], 3: [("call", 7)]}
    assert page.ids["r0020"] == page.ids["r0002"] == 0


def test_styles(page_of):
    """The page loads nothing, has a dark theme and one for paper, and what it adds to the listing is not selected."""
    styles = page_of("nop").decode()
    assert "default-src 'none'" in styles and "@media (prefers-color-scheme:dark){" in styles
    assert "@media print{" in styles and re.search(r"pre i\{[^}]*;user-select:none\}", styles)


def test_folded(page_of, whole):
    """Of more than ten references the nearest stand above the line, and a link leads to the row that has all."""
    listing = "jmp L\n" * 7 + "L: nop\n" + "jmp L\n" * 6 + "jsr L\n"
    above = re.search(r'<i class="r">(.*)\n</i>', page_of(listing).decode())[1]
    assert re.sub("<[^>]*>", "", above) == (
        "called by 1028 L; jumped to by 1012 , 1016 L, 100F , 1019 L, 100C , 101C L, 1009 , 101F L, 1006 ; 4 more"
        ).replace(" ,", ",").replace(" ;", ";")
    assert sorted(whole(listing).rows[8]) == sorted(
        [("jump", line) for line in (1, 2, 3, 4, 5, 6, 7, 9, 10, 11, 12, 13, 14)] + [("call", 15)])


def test_filler(whole, page_of):
    """Filler of eight lines folds in the listing, and no less. Its whole rows are one row of the map."""
    line = " .byte " + ",".join(8 * ["$FF"]) + "\n"
    page = page_of("nop\n" + 9 * line + "rts\n" + 8 * line, "-S 0x1000").decode()
    assert page.count('<b class="f">') == 1 and "72 bytes of filler" in page
    assert whole("nop\n" + 9 * line).text.count(line) == 9
    page = page_of("nop\n.res 1023,255\nnop\n", "-S 0x1000").decode()
    assert 'viewBox="0 -.5 64 3"' in page and page.count("M000 001h064") == 1


def test_glyphs(whole):
    """Eight equal bytes do not end what is no filler, nor does a set begin after a blank."""
    blank, glyph = " .byte 0,0,0,0,0,0,0,0\n", " .byte 1,2,3,4,5,6,7,8\n"
    page = whole("nop\n" + blank + glyph + blank + glyph)
    assert {line for line, _ in page.images} == {2}
    assert {values["height"] for _, values in page.images if values["alt"] == "cells of 8 by 8"} == {"16"}


def test_left(da65, whole):
    """At the left of each line stand its own address and bytes, as da65's remarks have them."""
    for info in ("examples/monitor.info", "examples/hello.info"):
        listing = da65(f"-i {info} --comments 3", 0, None, None).out
        page = whole(listing, f"-i {info}")
        for number, line in enumerate(listing.decode("latin-1").splitlines(), 1):
            found = re.search(r"; ([0-9A-F]{4})((?: [0-9A-F]{2})+)$", line)
            data = found[2].split() if found else []
            wanted = f"{found[1]} {' '.join(data[:4])}" + (".." if len(data) > 4 else "") if found else ""
            assert page.left[number].strip() == wanted


def runs_of(page):
    """The runs of the map that are links: addresses, kind, class, and what its lines cover; and of each kind what the
    lines of those cover that are none. Rows are counted from the top, as far as they are shown."""
    text, base = page.decode("latin-1"), None
    wide = int(re.search(r'viewBox="0 -.5 (\d+) [^>]* role="group"', text)[1])
    base = int(re.search(r"</h1> \$(\w{4}) to", text)[1], 16) // wide * wide

    def covered(shape):
        return [base + int(y) * wide + int(x) + column
                for x, y, width in re.findall(r"M(\d+) (\d+)h(\d+)", shape) for column in range(int(width))]

    title = r'<title>(\w+) \$(\w{4})(?: to \$(\w{4}), (\d+) bytes)?(?:: \w+)?</title>'
    path = rf'<a href="#a(\w+)" class="(\w+)">{title}<path d="([^"]*)"/></a>'
    runs = []
    for line, kind, named, first, last, count, shape in re.findall(path, text):
        assert line == first
        first, last = int(first, 16), int(last or first, 16)
        assert int(count or 1) == last - first + 1
        runs.append((first, last, named, kind, covered(shape)))
    return runs, {kind: covered(shape) for kind, shape in re.findall(r'<path class="(\w+)" d="([^"]*)"/>', text)}


def test_map(da65, page_of, listing, words, kinds, rows):
    """Each run is a link, but for the short ones of a large image; the view box has as many rows as are shown."""
    page = page_of(listing or da65(words, 0, None).out, words)
    kinds = [(kind, int(first, 16), int(last, 16)) for kind, first, last in re.findall(r"(\w+) (\w+)-(\w+)", kinds)]
    runs, others = runs_of(page)
    is_small = kinds[-1][2] - kinds[0][1] < 4096
    assert re.search(r'viewBox="0 -.5 (\d+ \d+)"', page.decode("latin-1"))[1] == f"{64 if is_small else 256} {rows}"
    linked = [run for run in kinds if is_small or run[2] - run[1] >= 15]
    assert [(named, first, last) for first, last, named, _, _ in runs] == linked
    assert {kind for kind, *_ in kinds if kind not in [run[0] for run in linked]} <= others.keys()
    for first, last, named, kind, cells in runs:
        assert named == kind and (sorted(cells) == list(range(first, last + 1)) or named == "filler")
    total = collections.Counter(named for named, first, last in kinds for _ in range(first, last + 1))
    head = re.sub("<[^>]*>", " ", re.search("<header>.*?</header>", page.decode("latin-1"), re.S)[0])
    assert {name: int(count) for name, count in re.findall(r"(code|text|bytes|words|addresses|filler) (\d+)",
                                                           head)} == dict(total)


def test_titles(page_of):
    """The title of a stretch names the label at its first address, and no constant."""
    titles = re.findall("<title>(.*?)</title>", page_of("K := $1000\nL: nop\n .byte 1\n").decode())
    assert titles[1:] == ["code $1000: L", "bytes $1001"]


def test_pages(page_of):
    """Each page of 256 bytes leads to the first line that has bytes of it."""
    page = page_of("; x\n nop\n .res 600\n nop\n", "-S 0x10FE").decode()
    assert re.findall(r'<a href="#a(\w+)">(\w\w)</a>', page[:page.index("<svg")]) == [
        ("10FE", "10"), ("10FF", "11"), ("10FF", "12"), ("10FF", "13")]


def test_pictures(whole):
    """Sixteen bytes as pixels: the cells of 8 by 8, and the rows, as a reader of BMP sees them."""
    images = whole(REPAIR).images
    data = bytes([0x00, 0x18, 0x3C, 0x7E, 0xFF, 0x18, 0x18, 0x00, 0x81, 0x42, 0x24, 0x18, 0x18, 0x24, 0x42, 0x81])
    assert [values["alt"] for _, values in images] == [
        "cells of 8 by 8", "rows of 1 byte", "rows of 2 bytes", "rows of 3 bytes", "rows of 40 bytes"]
    assert {line for line, _ in images} == {24}
    wanted = [[data[y:16:8] for y in range(8)],
              *([data[k:k + size] for k in range(0, 16, size)] for size in (1, 2, 3, 40))]
    for (_, values), lines in zip(images, wanted):
        bitmap = base64.b64decode(values["src"].partition(",")[2], validate=True)
        magic, size, _, offset, head, wide, high, planes, bits = struct.unpack("<2sIIIIIIHH", bitmap[:30])
        assert (magic, size, offset, head, planes, bits) == (b"BM", len(bitmap), 62, 40, 1, 1)
        assert (int(values["width"]), int(values["height"])) == (2 * wide, 2 * high)
        line = (wide + 31) // 32 * 4
        shown = [bitmap[offset + line * (high - 1 - y):][:wide // 8] for y in range(high)]
        assert [row[:len(want)] for row, want in zip(shown, lines)] == lines and high == len(lines)
        assert all(not any(row[len(want):]) for row, want in zip(shown, lines))


def test_wide_pictures(whole):
    """81 bytes have eleven cells beside each other, and three rows of 40 bytes."""
    data = bytes(number * 37 % 251 for number in range(81))
    images = whole("".join(f" .byte {byte}\n" for byte in data)).images
    for alt, wanted in (("cells of 8 by 8", [data[y::8].ljust(11, b"\0") for y in range(8)]),
                        ("rows of 40 bytes", [data[:40], data[40:80], data[80:].ljust(40, b"\0")])):
        bitmap, = (base64.b64decode(values["src"].partition(",")[2]) for _, values in images if values["alt"] == alt)
        wide = (len(wanted[0]) + 3) // 4 * 4
        assert [bitmap[62 + wide * (len(wanted) - 1 - y):][:len(row)] for y, row in enumerate(wanted)] == wanted


@pytest.mark.skipif(not shutil.which("tidy"), reason="tidy is not installed")
def test_tidy(da65, page_of):
    """tidy finds no error, and nothing to warn of but the attributes of SVG that it does not know."""
    words = "-i examples/monitor.info"
    for page in page_of(REPAIR), page_of(da65(words, 0, None).out, words):
        got = subprocess.run(["tidy", "-errors", "-quiet", "-utf8"], input=page, capture_output=True)
        said = [line for line in got.stderr.decode().splitlines()
                if not re.search('Warning: <a> proprietary attribute "(href|class)"$', line)]
        assert got.returncode < 2 and said == []


@pytest.mark.browser
def test_browser(da65, page_of, folder):
    """The DOM has each line and leads each link to its line; nothing is asked for; and something is to be seen."""
    def chromium(*words):
        return subprocess.run([BROWSER, "--headless", "--no-sandbox", "--disable-gpu", "--no-first-run",
                               "--disable-background-networking", f"--user-data-dir={folder}/profile", *words,
                               f"file://{folder}/a.html"], capture_output=True, timeout=120)

    server = socket.create_server(("127.0.0.1", 0))
    server.setblocking(False)
    address, words = f"http://127.0.0.1:{server.getsockname()[1]}", "-i examples/board/board.info"
    listing = da65(words, 0, None).out.decode() + f"; <img src={address}/a><script src={address}/b></script>\n"
    write("a.html", page_of(listing, words))
    page = Page(chromium("--dump-dom").stdout)
    assert page.text == listing
    assert all(page.ids[href[1:]] == 1 for href in page.hrefs) and len(page.hrefs) > 100
    chromium("--window-size=1400,900", "--screenshot=a.png")
    assert len(read("a.png")) > 20_000
    with pytest.raises(BlockingIOError):
        server.accept()


@pytest.mark.browser
def test_copied(page_of, folder):
    """What a browser marks in the listing is the listing: without what the page adds, also above lines and in folded
    filler, and with the CR at the end of a line. For a NUL it has U+FFFD."""
    listing = "\nv := $12 ; x\r\nL: lda v ; a\0b\n\n\nM: jsr L\n" + 9 * " .byte 0,0,0,0,0,0,0,0\n" + "jmp M\n"
    script = b"""<script>addEventListener("load", () => {
        getSelection().selectAllChildren(document.getElementById("listing"))
        document.title = JSON.stringify(getSelection().toString()) })</script></body>"""
    page = re.sub(b"<meta http-equiv[^>]*>", b"", page_of(listing))
    write("a.html", page.replace(b"</body>", script))
    got = subprocess.run([BROWSER, "--headless", "--no-sandbox", "--disable-gpu", f"--user-data-dir={folder}/profile",
                          "--dump-dom", f"file://{folder}/a.html"], capture_output=True, timeout=120)
    title = html.unescape(re.search("<title>(.*?)</title>", got.stdout.decode(), re.S)[1])
    assert json.loads(title).rstrip("\n") == listing.replace("\0", "\ufffd").rstrip("\n")


def test_large(page_of):
    """As much as is read: 16 MiB of comments."""
    lines = ("; " + "x" * 97 + "\n") * 167_771 + "nop"
    page = page_of(lines.ljust(16 * 1024 * 1024), "-S 0")
    assert page.count(b"<i>\t</i><span") == 167_771 and page.count(b'id="a') == 1
