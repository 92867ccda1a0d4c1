"""What the pages show: every command of README.md, docs/GUIDE.md, docs/RECIPES.md and the examples of the man pages.
Each page has a folder of its own that looks like a checkout after `make`. A block of a page is one of these:

  ```sh      commands, run in order; the words after `sh` are further programs that the block needs
  ```        an excerpt: its lines stand, one after the other, in what the last commands printed or in a file

A section ends at the first block whose programs are missing. In tables a command `bin/da65 ..` or `bin/as65 ..` runs,
and an information file beside the message `da65: ..` or the word nothing has to give that. Then everything is
installed, completed by bash and zsh, and uninstalled."""
import glob, os, random, re, shutil, subprocess
import pytest
from conftest import MADE, ROOT, command, fails, lack, read, same, write


@pytest.fixture
def checkout(folder, monkeypatch, request):
    """A folder that has what a checkout has after `make`, in which nothing has to be built."""
    for name in "bin/made", "docs", "crates", "path", "home":
        os.makedirs(name)
    for name in MADE:
        write("bin/made/" + ("da65_cli" if name == "da65" else name), "")
        shutil.copy(request.getfixturevalue(name).path, "bin/" + name)
        os.symlink(folder / "bin" / name, "path/" + name)
    os.remove("examples")
    os.remove("names")
    for name in "examples", "names", "completions", "share":
        shutil.copytree(ROOT / name, name)
    for file, to in (ROOT / "Makefile", "."), (ROOT / "tests/stand_ins/ssh", "path"), *(
            (page, "docs") for page in (ROOT / "docs").glob("*.[15]")):
        shutil.copy(file, to)
    write("crates.txt", "")
    # SHELL is what a login sets: without it, parallel loses the status of a command that it runs elsewhere.
    for name, value in (("SHELL", "/bin/sh"), ("HOME", f"{folder}/home"), ("DESTDIR", f"{folder}/installed"),
                        ("PATH", f"{folder}/path:{os.environ['PATH']}")):
        monkeypatch.setenv(name, value)


class Page:
    """A page, what its last commands printed, and how many ran."""

    def __init__(self, name):
        self.name, self.printed, self.ran, self.found, self.left_out = name, "", 0, 0, 0
        self.text = (ROOT / name).read_text()

    def does(self, commands):
        """They end with status 0."""
        run = subprocess.run(["bash", "-eu", "-o", "pipefail", "-c", commands], stdout=subprocess.PIPE,
                             stderr=subprocess.STDOUT, stdin=subprocess.DEVNULL, timeout=300)
        self.printed = run.stdout.decode("latin-1")
        if run.returncode:
            fails(f"{self.name}: status {run.returncode} of\n{commands}\n{self.printed}")
        self.ran += 1

    def has(self, lines):
        """The lines stand, one after the other, in what the last commands printed, or in a file."""
        names = [name for folder in ("", "examples/", "examples/board/") for end in ("s", "info", "cfg", "inc")
                 for name in glob.glob(f"{folder}*.{end}")]
        texts = [self.printed, *(read(name).decode("latin-1") for name in names)]
        return any(f"\n{lines}\n" in "\n" + text.replace("\0", "").rstrip("\n") + "\n" for text in texts)

    def blocks(self):
        """Runs the blocks in their order."""
        is_skipped = False
        for heading, kind, text in re.findall(r"^(#.*)|^```(.*)\n((?s:.*?))\n*^```$", self.text, re.M):
            is_skipped = is_skipped and not heading
            if is_skipped or heading:
                continue
            assert not kind or kind.split()[0] == "sh", f"{self.name}: a block of kind {kind}"
            if not kind:
                if not self.has(text.encode().decode("latin-1")):
                    fails(f"{self.name}: not in what the commands made:\n{text}\n\nThey printed:\n{self.printed}")
                self.found += 1
            elif not all(map(shutil.which, kind.split()[1:])) or re.search("(ca|cl|ld)65", text) and lack("ca65"):
                self.left_out += 1
                is_skipped = True
            else:
                self.does(text)

    def tables(self):
        """Runs the commands in the page's tables, and its tables of mistakes with their messages."""
        write("zeros.bin", bytes(65536))
        write("bom.info", "\xef\xbb\xbfGLOBAL { };")
        for row in re.findall(r"^\|.*", self.text, re.M):
            row = row.replace("` and in line 2 `", "\n").replace("` and a line feed |", "\n` |")
            if said := re.match(r"\| `([^`]+)` \| (`(da65: [^`]+)`|nothing \|)", row):
                text, message = said[1].replace(r"\|", "|"), said[3] or ""
                mistake = f"bin/da65 -i {write('mistake.info', text.encode())} examples/three.bin"
                run = subprocess.run(["bash", "-c", text if text.startswith("bin/da65") else mistake],
                                     capture_output=True)
                same(message, run.stderr.rstrip(b"\n"), f"{self.name}: {text}")
                self.ran += 1
            else:
                for text in re.findall(r"`(bin/(?:da|as)65[^`]*)`", row):
                    self.does(text)


@pytest.mark.parametrize("name", ("README.md", "docs/GUIDE.md", "docs/RECIPES.md"))
def test_page(checkout, name, record_property):
    page = Page(name)
    page.blocks()
    page.tables()
    assert page.ran >= 3 and page.found
    record_property("shown", f"{name}: {page.ran} commands ran, {page.found} excerpts found, {page.left_out} left out")


def test_mistakes_of_information_files(checkout):
    page = Page("docs/INFORMATION_FILE.md")
    page.tables()
    assert page.ran > 10


def example(page):
    """The commands of the man page's example."""
    text = re.search(r"^\.SH EXAMPLES(.*)^\.SH SEE", (ROOT / "docs" / page).read_text(), re.M | re.S)[1]
    commands = re.findall(rf"^(?:{'|'.join(MADE)}|cat|ca65|ld65|cmp) .*", text, re.M)
    return "\n".join(commands).replace(r"\(aq", "'").replace(r"\-", "-")


@pytest.mark.parametrize("page", ("as65.1", "trace65.1", "name65.1", "move65.1", "html65.1"))
def test_example_of(checkout, page):
    write("rom.bin", read("bin/da65")[:4096])
    Page("docs/" + page).does(example(page))


@pytest.mark.ca65
@pytest.mark.parametrize("start, size", (
    *((start, 16384) for start in ("0x0000", "0x2000", "0x4000", "0x7800", "0xC000")), ("0xF000", 4096),
    ("0x0000", 65536)))
def test_example_of_da65_at(checkout, start, size):
    write("rom.bin", (4 * random.Random(1).randbytes(16384))[:size])
    Page("docs/da65.1").does(example("da65.1").replace("0xF000", start))


def options(name):
    """Those of the help text."""
    text = command(["bin/" + name, "-h"]).decode()
    found = re.findall("-[^ ,]+", " ".join(re.findall(r"^  (-[^ ]+(?: --[^ ]+)?)", text, re.M)))
    assert len(found) >= 10, text
    return found


@pytest.mark.parametrize("program", MADE)
def test_man_page_has_each_option(checkout, program):
    """And no other."""
    section = re.search(r"^\.SH OPTIONS(.*?)^\.SH", (ROOT / f"docs/{program}.1").read_text(), re.M | re.S)[1]
    heads = " ".join(re.findall(r"^\.TP\n(.*)", section, re.M)).replace(r"\-", "-")
    assert sorted(options(program)) == sorted(re.findall(r'(?<![^ "])--?\w[\w-]*', heads))


def bash_completes(file, *words):
    """What bash offers for the last of these words after the name."""
    script = ('source "$1"; shift; COMP_WORDS=("$@") COMP_CWORD=$(($# - 1)); '
              'function=$(complete -p "$1") && function=${function#*-F } && '
              '"${function% *}" 2>/dev/null && printf "%s\\n" "${COMPREPLY[@]}"')
    return subprocess.run(["bash", "-c", script, "-", file, *words], stdout=subprocess.PIPE).stdout.decode().split()


def zsh_completes(folder, line, last):
    """What zsh shows after two TABs behind the line, up to the last word."""
    script = ("""zmodload zsh/zpty; zpty z "TERM=dumb zsh -f -i"
zpty -w z "PS1=; fpath=($1 \\$fpath); autoload -Uz compinit; compinit -u -D; LISTMAX=0; COLUMNS=120; LINES=100"
zpty -w z "print re''ady"
zpty -r z out "*ready*"; zpty -w -n z "$2"$'\\t\\t'; zpty -r z out "*$3*"; print -r -- "$out" """)
    return command(["zsh", "-f", "-c", script, "-", folder, line, last], timeout=60).decode()


@pytest.fixture
def installed(checkout, folder, request):
    """Everything installed under the programs' names with a prefix."""
    words = [f"DESTDIR={folder}/made", "PREFIX=/usr", f"PROGRAM_PREFIX={request.param}"]
    command(["make", "-s", "install", *words])
    yield request.param, folder / "made/usr"
    command(["make", "-s", "uninstall", *words])
    left = [path for path in (folder / "made").rglob("*") if path.is_file() or path.name == "names"]
    assert not left, "left after uninstall"


with_prefix = pytest.mark.parametrize("installed", ("", "proved-"), ids=("by its name", "by another name"),
                                      indirect=True)


@with_prefix
def test_what_is_installed(installed):
    prefix, made = installed
    files = [file for name in (prefix + name for name in MADE) for file in (
        f"bin/{name}", f"share/man/man1/{name}.1", f"share/bash-completion/completions/{name}",
        f"share/zsh/site-functions/_{name}")]
    files += [f"share/man/man5/{prefix}da65.info.5", f"share/{prefix}da65/repair.mk"]
    files += [f"share/{prefix}da65/{path.relative_to(ROOT)}" for path in (ROOT / "names").rglob("*.in*")]
    assert sorted(files) == sorted(str(path.relative_to(made)) for path in made.rglob("*") if path.is_file())
    for name in MADE:
        same(read("bin/" + name), read(f"{made}/bin/{prefix}{name}"), "another program")


@with_prefix
@pytest.mark.parametrize("program", MADE)
def test_bash_completes(installed, program):
    prefix, made = installed
    file, name = f"{made}/share/bash-completion/completions/{prefix}{program}", prefix + program
    assert not [option for option in options(program) if option not in bash_completes(file, name, option)]
    if program == "da65":
        assert bash_completes(file, name, "--cpu", "65") == ["6502", "65SC02", "65C02"]


@pytest.mark.skipif(not shutil.which("zsh"), reason="zsh is not installed")
@with_prefix
@pytest.mark.parametrize("program", MADE)
def test_zsh_completes(installed, program):
    prefix, made = installed
    listed = zsh_completes(f"{made}/share/zsh/site-functions", f"{prefix}{program} -", "-o  ")
    assert not [option for option in options(program) if not re.search(rf"(^|[ ]){re.escape(option)} ", listed, re.M)]


def test_man_pages_refer_to_what_is_installed():
    for page in (ROOT / "docs").glob("*.[15]"):
        for line in page.read_text().splitlines()[1:]:
            assert not re.search(r"\.md\b|docs/|crates/|examples/", line), f"{page.name}: {line}"


@pytest.mark.skipif(not shutil.which("mandoc"), reason="mandoc is not installed")
def test_man_pages_are_well_formed():
    command(["mandoc", "-T", "lint", *map(str, (ROOT / "docs").glob("*.[15]"))])
