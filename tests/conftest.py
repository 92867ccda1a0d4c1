"""What the tests share: the programs and a folder of one's own as fixtures, the tables of tests/rows, the shim, and
what a failure shows. CONTRIBUTING.md says what a row looks like, and how to run some of them."""
import collections, contextlib, functools, os, pathlib, re, shlex, shutil, subprocess, tempfile, threading, time
import pytest

ROOT = pathlib.Path(__file__).resolve().parent.parent
# The programs that `make` makes and installs.
MADE = re.search(r"^install: (.*)", (ROOT / "Makefile").read_text(), re.M)[1].replace("bin/", "").split()
PROGRAMS = [*MADE, "step65"]
BROWSER = next(filter(shutil.which, ("chromium", "chromium-browser", "google-chrome")), "chromium")
NEEDS = {"ca65": ("ca65", "ld65", "sim65"), "valgrind": ("valgrind", "/usr/bin/time"), "browser": (BROWSER,),
         "cc": (os.environ.get("CC", "cc"),)}
for name in "MAKEFLAGS", "MAKELEVEL":
    os.environ.pop(name, None)


def pytest_generate_tests(metafunc):
    """The test test_X of test_FILE.py runs once for each row of the table [test_X] of tests/rows/FILE.txt."""
    _, found = tables(metafunc.module.__name__)
    if metafunc.function.__name__ in found:
        names, table = found[metafunc.function.__name__]
        metafunc.parametrize(names, [pytest.param(*cells, id=name) for name, *cells in table])


@functools.lru_cache(None)
def tables(file):
    """The texts of tests/rows/FILE.txt, or that of a test_FILE, by their names, and its tables: the names of the cells,
    and the rows, each its name and its cells. CONTRIBUTING.md says how they are written."""
    texts, found, last, table = {}, {}, None, None

    def text(cell):
        cell = re.sub(r"\{([A-Z][A-Z0-9_]*)\}", lambda match: texts.get(match[1], match[0]), cell)
        cell = re.sub(r"\\(x..|.)", lambda match: {"n": "\n", "t": "\t", "r": "\r"}.get(match[1]) or (
            chr(int(match[1][1:], 16)) if match[1][0] == "x" else match[1]), cell)
        return re.sub(r"(?s)\{(\d+)\*(.*?)\}", lambda match: int(match[1]) * match[2], cell)

    def value(name, cell):
        return (float(cell) if "." in cell else int(cell)) if name[-1] == "#" and cell else cell

    path = ROOT / f"tests/rows/{file.removeprefix('test_')}.txt"
    for number, line in enumerate(path.read_text().splitlines() if path.exists() else (), 1):
        if match := re.match(r"([A-Z][A-Z0-9_]*) =(?: (.*))?$", line):
            last = match[1]
            texts[last] = text(match[2] or "")
        elif line.startswith("    "):
            texts[last] += text(line[4:] + r"\n")
        elif match := re.match(r"\[(\w+)\] (.*)", line):
            names, table = match[2].split(" | "), []
            found[match[1]] = match[2].replace("#", "").split(" | "), table
        elif line and line[0] != "#":
            name, *cells = (text(cell.removeprefix(" ")) for cell in re.split(r" \|(?= |$)", line))
            for part in cells[len(names):] if "{}" in name else ["{}"]:
                row = [cell.replace("{}", part) for cell in cells] + [""] * (len(names) - len(cells))
                named = name.replace("{}", part)
                at = f"{path}:{number}"
                assert "{}" in name or len(cells) <= len(names), f"{at}: {len(cells)} cells after the name"
                assert named not in (row[0] for row in table), f"{at}: a row above has this name"
                table.append((named, *map(value, names, row)))
    return texts, found


def raw(text):
    """The bytes of a text: each character is a byte."""
    return text.encode("latin-1") if isinstance(text, str) else bytes(text)


def write(name, text):
    """Writes a file, and gives its name."""
    pathlib.Path(name).write_bytes(raw(text))
    return name


def read(name):
    return pathlib.Path(name).read_bytes()


def pairs(cell):
    """The files of a cell, NAME=TEXT || NAME: their names and texts, and None for one that is not there."""
    return [(part.split("=", 1) + [None])[:2] for part in cell.split(" || ")] if cell else []


def fails(what, wanted=None, given=None):
    """Ends the test, and shows what was expected and given, from shortly before the first byte that differs."""
    if wanted is not None:
        wanted, given = raw(wanted), raw(given)
        at = len(os.path.commonprefix([wanted, given]))
        at = max(0, at - 200) if at > 600 else 0
        for kind, data in ("expected", wanted), ("given", given):
            lines = "\n".join("    " + repr(line)[1:] for line in data[at:at + 1000].splitlines(keepends=True))
            what += f"\n{kind}{f' from byte {at}' if at else ''}: {len(data)} bytes\n{lines}"
            what += "\n    .." if data[at + 1000:] else ""
    test = os.environ.get("PYTEST_CURRENT_TEST", "").rpartition(" ")[0]
    pytest.fail(f"{what}\nto run this test alone: pytest {shlex.quote(test)}", pytrace=False)


def same(wanted, given, what):
    """Two texts are the same."""
    if raw(wanted) != raw(given):
        fails(what, wanted, given)


def holds(name, wanted):
    """The file has exactly this text; if that is None, there is no such file."""
    if wanted is None:
        assert not os.path.lexists(name), f"there is a file {name}"
    else:
        same(wanted, read(name), f"{os.path.abspath(name)} has another text")


Counts = collections.namedtuple("Counts", "opens reads writes most asked allocations")


class Run(collections.namedtuple("Run", "line status out err counts")):
    """What a run did: the command, its status, what it wrote on both streams, and with the shim its `Counts`."""

    def gives(self, status=0, out="", err=""):
        """It ended with this status and wrote these texts; None is any text, as is what went elsewhere."""
        if self.status != status:
            same(err or "", self.err or "", f"{self.line}\nstatus {self.status}, expected {status}; standard error")
            fails(f"{self.line}\nstatus {self.status}, expected {status}")
        for stream, wanted, given in (("output", out, self.out), ("error", err, self.err)):
            if wanted is not None and given is not None:
                same(wanted, given, f"{self.line}\nstandard {stream}")
        return self


class Program:
    """A program, which runs on words: a text as a shell splits it, or a list."""

    def __init__(self, path, name=None):
        self.path, self.name = os.path.abspath(shutil.which(path) or path), name or os.path.basename(path)

    def run(self, words="", stdin=b"", env=None, shim=None, before=(), timeout=120, **streams):
        """Runs it. `stdin` is what a pipe gives it, or an open file. `shim` is what the shim is to do by the names of
        tests/shim.c without SHIM_, `before` a command that runs the program, and `streams` are those of Popen."""
        words = [os.fsdecode(raw(str(word))) for word in (shlex.split(words) if isinstance(words, str) else words)]
        env, command = dict(env or {}), [*before, self.path, *words]
        if shim is not None:
            env.update({"SHIM_" + name: str(value) for name, value in shim.items()},
                       LD_PRELOAD=shim_folder().name + "/shim.so", SHIM_COUNTS=os.path.abspath("counts"))
        given = {"input": raw(stdin)} if isinstance(stdin, (str, bytes)) else {"stdin": stdin}
        set_before = "".join(f"{name}={shlex.quote(value)} " for name, value in env.items())
        line = f"cd {os.getcwd()} && {set_before}{shlex.join(command)}"
        if given.get("input"):
            line += f" <<<{shlex.quote(stdin if isinstance(stdin, str) else repr(stdin)[2:-1])}"[:300]
        line = line.encode(errors="backslashreplace").decode()
        try:
            got = subprocess.run(command, env={**os.environ, **env}, timeout=timeout, **given,
                                 **{"stdout": subprocess.PIPE, "stderr": subprocess.PIPE, **streams})
        except subprocess.TimeoutExpired:
            fails(f"{line}\nstill running after {timeout} seconds")
        counts = Counts(*map(int, read("counts").split())) if shim is not None and os.path.exists("counts") else None
        return Run(line, got.returncode, got.stdout, got.stderr, counts)

    def __call__(self, words="", status=0, out="", err="", **how):
        """Runs it, and it has to end so: None is any text."""
        return self.run(words, **how).gives(status, out, err)

    def refuses(self, words, message, status=1, **how):
        """It writes this message alone."""
        return self(words, status, "", f"{self.name}: {message}\n", **how)

    def does(self, given, words, status, out, err, after, stdin):
        """A row of files: those of `given` are written before, and those of `after` are there then. If it fails, there
        is no other file. Each line of `err` follows the name of the program. `stdin` is the name of a file."""
        for name, text in pairs(given):
            write(name, text)
        there = set(os.listdir())
        err = "".join(f"{self.name}: {line}\n" for line in err.split("\n")) if err else ""
        self(words, status or 0, out, err, stdin=open(stdin, "rb") if stdin else b"")
        assert not status or set(os.listdir()) == there, "it has failed, and there is another file"
        for name, text in pairs(after):
            holds(name, text)


@functools.lru_cache(None)
def shim_folder():
    """The folder with the shim, which is compiled once, and goes with this process."""
    folder = tempfile.TemporaryDirectory()
    shim = [folder.name + "/shim.so", ROOT / "tests/shim.c"]
    subprocess.run([*NEEDS["cc"], "-O1", "-shared", "-fPIC", "-o", *shim, "-ldl"], check=True)
    return folder


def shell(text):
    """The beginning of a command that first does this in a shell: closes a stream, or sets a limit."""
    return ["sh", "-c", text + '; exec "$@"', "sh"]


def command(words, **how):
    """Runs another command, which has to end with status 0, and gives what it wrote."""
    name, *words = shlex.split(words) if isinstance(words, str) else words
    return Program(name)(words, 0, None, None, **how).out


def in_pieces(first, rest="", seconds=0.05):
    """The reading end of a pipe that gives one piece, and the rest so many seconds later."""
    ours, theirs = os.pipe()

    def give():
        with contextlib.suppress(BrokenPipeError), os.fdopen(theirs, "wb", 0) as file:
            file.write(raw(first))
            time.sleep(seconds)
            file.write(raw(rest))

    threading.Thread(target=give, daemon=True).start()
    return os.fdopen(ours, "rb")


CPUS = ("6502", "65SC02", "65C02")
IMAGES, INFORMATION = (sorted(str(path.relative_to(ROOT)) for path in (ROOT / "examples").glob("**/*" + end))
                       for end in (".bin", ".info"))


def pytest_addoption(parser):
    parser.addoption("--bin", help="the folder of the programs: bin by default")
    for name in PROGRAMS:
        parser.addoption("--" + name, help=f"the path of {name}")
    for name, count, what in (("images", 4, "random images of each CPU"), ("texts", 50, "random texts"),
                              ("states", 34_000, "random states of each CPU"), ("seed", 1, "the seed of all")):
        parser.addoption("--" + name, type=int, default=count, help=f"{what}: {count} by default")
    parser.addoption("--write", action="store_true", help="write the figures into the programs of tests/corpus")


def program(name):
    @pytest.fixture(scope="session", name=name)
    def found(request):
        option = request.config.getoption
        folder = option("--bin") or ROOT / ("crates/step65/out" if name == "step65" else "bin")
        given = option("--" + name) or os.environ.get(name.upper()) or os.path.join(folder, name)
        path = request.config.invocation_params.dir / given
        if not path.exists():
            fails(f"there is no {path}: run make, or name it by --{name} or --bin")
        return Program(path, name)
    return found


globals().update({name: program(name) for name in PROGRAMS})


@pytest.fixture(autouse=True)
def folder(request, monkeypatch):
    """The folder of a test, with links to examples/ and names/ and the files of [files]. It stays if the test fails."""
    made, failed = pathlib.Path(tempfile.mkdtemp(prefix="tests65-")), request.session.testsfailed
    monkeypatch.chdir(made)
    for name in "examples", "names":
        os.symlink(ROOT / name, name)
    for name, text in tables(request.module.__name__)[1].get("files", ((), ()))[1]:
        write(name, text)
    yield made
    if request.session.testsfailed == failed:
        shutil.rmtree(made, ignore_errors=True)


def lack(marker):
    """Why the tests with this marker are left out, or nothing."""
    if os.environ.get(marker.upper()) == "skip":
        return f"{marker.upper()}=skip is set"
    missing = [word for word in NEEDS[marker] if not shutil.which(word)]
    return f"{' and '.join(missing)} not installed" if missing else None


def pytest_runtest_setup(item):
    """Leaves out a test with a marker whose programs are not there."""
    for marker in NEEDS:
        if item.get_closest_marker(marker) and (reason := lack(marker)):
            pytest.skip(f"{marker}: {reason}")


def pytest_terminal_summary(terminalreporter):
    """Shows what tests have kept by record_property: lines, and the figures of the corpus together."""
    kept = [pair for reports in terminalreporter.stats.values() for report in reports
            if getattr(report, "when", "") == "call" for pair in report.user_properties]
    if figures := [collections.Counter(value) for name, value in kept if name == "figures"]:
        terminalreporter.line("corpus: " + __import__("test_moves").summary(figures))
    for name, value in kept:
        if name == "shown":
            terminalreporter.line(value)
