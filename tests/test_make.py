"""What `make` does with the prover, for which tests/stand_ins/rt stands in; and that the gate needs ca65.
Some rows are in tests/rows/make.txt."""
import functools, os, pathlib, re, shutil, sys
import pytest
from conftest import MADE, ROOT, Program, holds, read, write

BELOW = {name: below.split() for name, below in re.findall(r"(?m)^(\w+):(.*)", (ROOT / "crates.txt").read_text())}


def closure(crates, below):
    """These crates and all below them."""
    return set(crates).union(*(closure(below(name), below) for name in crates)) if crates else set()


def own(name):
    """The crates here right below this one."""
    return [other for other in BELOW[name] if other in BELOW]


ALL = closure(["da65_cli", *MADE[1:]], own)


def above(*crates):
    """What is proved again if these change."""
    return closure(crates, lambda name: [other for other in ALL if name in BELOW[other]])


def run(here, words, crates, status=0, last="da65_cli", env=None, program="make"):
    """make ends with this status, and apart from its own errors prints this line last. It runs the prover once in each
    of these crates, and in no other. Gives what it printed."""
    env = {"PATH": f"{here}/path:{os.environ['PATH']}", "NOTES": write(f"{here}/notes", ""), **(env or {})}
    done = Program(program).run(words, env=env, cwd=here / "checkout").gives(status, None, None)
    printed = (done.out + done.err).decode()
    lines = [line for line in printed.splitlines() if not line.startswith("make")]
    assert lines[-1:] == [last] * bool(last) or program != "make", printed
    assert sorted(read(f"{here}/notes").decode().split()) == sorted(crates), printed
    assert not list(here.glob("checkout/bin/made/*.room")), "a room is left"
    return printed


@pytest.fixture(scope="module")
def proved(tmp_path_factory):
    """A checkout in which everything is proved."""
    here = tmp_path_factory.mktemp("make")
    os.makedirs(here / "path")
    shutil.copy(ROOT / "tests/stand_ins/rt", here / "path")
    for crate in (ROOT / "crates").iterdir():
        for part in "src", "specs", "proofs":
            os.makedirs(here / "checkout/crates" / crate.name / part)
        write(here / "checkout/crates" / crate.name / "src/lib.rt", "// one\n")
    for name in "Makefile", "crates.txt", "HANDLES", "tests/wrong_bodies", "tests/proof_cost":
        os.makedirs((here / "checkout" / name).parent, exist_ok=True)
        shutil.copy(ROOT / name, here / "checkout" / name)
    for name in "tests/lint", "tests/wrong", "docs/contracts":
        ignored = shutil.ignore_patterns("__pycache__", "stamps.txt")
        shutil.copytree(ROOT / name, here / "checkout" / name, ignore=ignored)
    run(here, "-s -j3", ALL)
    yield here
    shutil.rmtree(here)


@pytest.fixture
def make(folder, proved):
    shutil.copytree(proved, folder / "make")
    os.chdir("make/checkout")
    return functools.partial(run, folder / "make")


def test_the_first_time(make):
    for name in MADE:
        assert os.access("bin/" + name, os.X_OK)


def test_da65_comes_first(make):
    """Each other program begins after it, and what it does not stand on gives way."""
    begun = read("../notes").decode().split()
    assert begun.index("da65_cli") < min(map(begun.index, MADE[1:]))
    slow = {name for name in ALL if int(read(f"crates/{name}/out/nice")) > os.nice(0)}
    assert slow == ALL - closure(["da65_cli"], own)


def test_nothing_changed(make):
    assert "proved with" not in make("-s -j3", [])


def test_another_kit(make):
    assert "proved with rattle-kit-13f, not yet with rattle-kit-1\n" in make("-s -j3", [], env={"KIT": "rattle-kit-1"})


def test_the_kit_is_noted(make):
    """`make dist` says which one has proved each crate."""
    for crate in ALL:
        assert read(f"bin/made/{crate}").startswith(b"rattle-kit-13f logic 0\n")


def test_install_says_what_begins(make):
    """Before anything is proved, and only then."""
    said = "Not proved yet: that begins now, and takes about an hour. Ctrl-C stops it, and `make` goes on from what is"
    says = lambda goal: Program("make").run("-n " + goal).out.decode().startswith(said)
    assert not says("install")
    shutil.rmtree("bin")
    assert says("install") and not says("all") and not says("uninstall")


def test_before_any_proof(make, words, crate, shown):
    here = os.getcwd()
    os.makedirs("examples")
    os.makedirs("beside")
    for name in "examples/three.bin", "own.bin", "a listing.s", "names.inc", "beside/its.bin":
        write(name, "")
    for name in "own", "beside/its":
        groups = f'GLOBAL {{ INPUTNAME "{name[-3:]}.bin"; }}; # FILE "lost.inc"\nASMINC {{ file "names.inc"; }};\n'
        write(name + ".info", groups)
    shown = shown.replace("HERE", here)
    make("-s try " + words, [crate], last=shown if "OUT" not in words else "")
    if "OUT" in words:
        holds("out.s", shown + "\n")


def test_open65_is_asked_first(make):
    """If no word says where an image lies. Nothing of it is left."""
    write("own.bin", "")
    os.makedirs("crates/open65", exist_ok=True)
    for words, name, last in (("", "one", "own_one.info is listed: PART chooses another"),
                              ("PART=two", "two", "two  3 bytes at $2000  own_two.info  TITLE")):
        make(f"-s try IMAGE=own.bin OUT={name}.s {words}", ["open65", "da65_cli"], last="try: " + last)
        tried = re.fullmatch(r"try --data (\w+.info)=(\S+) -- -i (\w+.info)\n", read(name + ".s").decode())
        assert tried[1] == tried[3] == f"own_{name}.info" and not os.path.exists(os.path.dirname(tried[2]))
    make("-s try IMAGE=own.bin PART=three", ["open65"], 2, "try: there is no part three in own.bin")


def test_nothing_is_tried(make, words, said):
    os.makedirs("beside")
    write("own.bin", "")
    write("beside/lost.info", 'GLOBAL { INPUTNAME "lost.bin"; };\n')
    make("-s try " + words, [], 2, "try: " + said)
    holds("own.bin", "")


def test_map65_changed(make):
    write("crates/map65/src/lib.rt", "// two\n")
    make("-s -j3", above("map65"))
    assert above("map65") >= {"da65", "as65", "trace65", "name65", "move65"}
    holds("crates/map65/out/incremental/kept", "// one\n// two\n")


def test_text65_is_not_proved(make):
    write("crates/text65/src/lib.rt", "// two\n")
    make("-s -j3", ["text65"], 2, "text65: not proved", env={"REFUSED": "text65"})
    holds("crates/text65/out/incremental/kept", "// one\n// two\n")


def test_how_far_it_is(make, program, words, shown):
    if not shutil.which(program):
        pytest.skip(f"{program} is not installed")
    for crate in "info65", "stmt65":
        write(f"crates/{crate}/src/lib.rt", "// two\n")
    printed = make(words, above("info65", "stmt65"), env={"EVERY": "1", "SLOW": "3"}, program=program)
    assert shown in "\n" + printed
    assert b"so far: 10 of 66" in read("bin/made/stmt65"), "the words of the prover are not kept"


def test_one_at_a_time(make):
    write("crates/text65/src/lib.rt", "// two\n")
    make("-s -j1", above("text65"), env={"WAITS": "0"})


def test_wrong_bodies(make):
    """`make wrong` tries those whose stamp is old, and lint names them: after a change of its crate, of a
    contract below, of the edit, or of the stamp. A comment ages none. What is not refused gets no stamp."""
    bodies = sorted(str(path)[12:-5] for path in pathlib.Path("tests/wrong").rglob("*.edit"))

    def tries(old, missed=""):
        ran = Program(sys.executable).run("tests/lint stamps").gives(int(bool(old)), None, "")
        assert sorted(re.findall("stamps: (.*): was not refused on these sources", ran.out.decode())) == old
        last = f"{len(old) - bool(missed)} wrong bodies are refused"
        last += f"; not refused, or changed meanwhile: {missed}" if missed else ""
        edits = [f"crates/{body.replace('/', '/must-fail/')}.edit" for body in old]
        make("-s wrong", edits, 2 if missed else 0, last, {"MISSED": missed})

    tries(bodies, "as65/image_cut_short")
    tries(["as65/image_cut_short"])
    write("crates/as65/src/lib.rt", "// another comment\n")
    tries([])
    for file, crates in (("crates/as65/specs/Own.antt", "as65"), ("docs/contracts/reach65.txt", "trace65")):
        write(file, "more\n")
        tries([body for body in bodies if body.partition("/")[0] in crates.split()])
    write("tests/wrong/as65/image_cut_short.edit", "old: other\n")
    tries(["as65/image_cut_short"])
    stamps = read("tests/wrong/stamps.txt").decode()
    write("tests/wrong/stamps.txt", re.sub("(?m)(?<=^html65/unescaped_text_read_as_text )....", "0000", stamps))
    tries(["html65/unescaped_text_read_as_text"])
    assert read("tests/wrong/stamps.txt").decode() == stamps
    make("html65", [f"crates/html65/must-fail/{path.name}" for path in pathlib.Path("tests/wrong/html65").iterdir()],
         program="tests/wrong_bodies")


def test_proof_cost(make, lts, proof, most, status, said):
    """What is kept of as65, in bytes, under a limit in MB. It counts until the crate changes."""
    os.makedirs("crates/as65/out/incremental/antt")
    for name, size in ("a.T.f.Lts", lts), ("a.fn.T.f.all.Lts", 0), ("a.fn.T.f.all.Proof-1", proof), ("a.T.Lts", 0):
        os.truncate(write(f"crates/as65/out/incremental/antt/Rattle-as65-proofs.{name}.oantt", ""), size)
    os.makedirs("tests/rows")
    write("tests/rows/proof_cost.txt", f"[proof_cost] crate | megabytes\nas65 | {most}\n")
    Program("tests/proof_cost").run("--over 0.5 as65").gives(status, said, "")
    write("crates/as65/src/lib.rt", "// two\n")
    left = "not measured, since nothing is kept of them or they have changed: as65\n"
    Program("tests/proof_cost").run("as65").gives(0, left, "")


def test_the_gate_without_ca65(folder, apt_get, ca65, status, said):
    """.ci/run with stand-ins for apt-get, sudo and make."""
    os.mkdir("path")
    for name in "bash", "env", "dirname", "id", "timeout":
        os.symlink(shutil.which(name), "path/" + name)
    for name, text in ("apt-get", apt_get), ("sudo", 'shift; exec env "$@"'), ("make", 'echo "$@"'):
        os.chmod(write("path/" + name, f"#!/bin/sh\n{text}\n"), 0o755)
    ran = Program(ROOT / ".ci/run").run(env={"PATH": f"{folder}/path", "CA65": ca65}).gives(status, None, None)
    assert (ran.out + ran.err).decode() == said
