"""Ends share/repair.mk at random moments, while a person saves the listing, the information file, or both; and runs it
twice at once, on an image and on a container of it. No line that was saved may be lost, no file may be half made, and
the next run has to end well.

Usage: python3 tests/kills.py PROGRAMS [KILLS [PAIRS [SEED [REPAIR_MK]]]]"""
import os, pathlib, random, shutil, signal, subprocess, sys, tempfile, time

MAKEFILE = pathlib.Path(__file__).resolve().parent.parent / "share/repair.mk"
IMAGE = bytes.fromhex("A9 02 18 69 14 85 20 A9 20 69 00 85 21 A0 00 B1 20 8D 00 04 60 01 02 03")
HEX = b":10200000A9021869148520A92069008521A000B1C2\n:08201000208D000460010203B1\n:00000001FF\n"
SIGNALS = signal.SIGINT, signal.SIGTERM, signal.SIGHUP, signal.SIGKILL
LABEL = b'LABEL { ADDR $2000; NAME "first"; };\n'
COMMENTS = {"sum.s": ";", "sum.info": "#"}


class Repair:
    """A folder in which a repair has been made. Then its information file was edited, so a run makes all of it."""

    def __init__(self, folder, programs, makefile=MAKEFILE, container=None):
        self.folder = pathlib.Path(folder)
        image = ["IMAGE=sum.hex"] if container else ["IMAGE=sum.bin", "START=0x2000"]
        self.words = "make", "-f", str(makefile), f"PROGRAMS={programs}", *image
        self.file("sum.hex" if container else "sum.bin").write_bytes(container or IMAGE)
        self.run()
        self.file("sum.info").write_bytes(self.file("sum.info").read_bytes() + LABEL)

    def copied(self, folder):
        other = object.__new__(Repair)
        other.folder, other.words = pathlib.Path(folder), self.words
        shutil.copytree(self.folder, folder)
        return other

    def file(self, name):
        return self.folder / name

    def begin(self, *words):
        return subprocess.Popen([*self.words, *words], cwd=self.folder, stdout=subprocess.PIPE, text=True,
                                stderr=subprocess.STDOUT, start_new_session=True)

    def run(self, *words):
        """Runs it to its end, and gives what it said."""
        made = self.begin(*words)
        said = made.communicate()[0]
        assert made.returncode == 0, said
        return said

    def check(self, saved):
        """What was saved is there, what move65 found may follow it, and what was made is whole."""
        for name, text in saved.items():
            now = self.file(name).read_bytes()
            assert now.startswith(text) if name == "sum.info" else now == text, f"{name} was saved as {text}, is {now}"
        assert "sum.s" in saved or self.file("sum.s").read_bytes().endswith(b"$03\n"), "the listing is no whole one"
        assert self.file("sum.out").read_bytes() == IMAGE, "the image is another one"
        assert self.file("sum.html").read_bytes().endswith(b"</html>\n"), "the page is no whole one"
        if self.file("sum.hex").exists():
            assert self.file("sum.new").read_bytes() == HEX and self.file("sum.bin").read_bytes() == IMAGE

    def check_after_run(self, saved):
        """A run to the end is well, and makes everything of what is there."""
        said = self.run()
        self.check(saved)
        assert ("sum.s is edited" in said) == ("sum.s" in saved), said
        text = saved.get("sum.s", b"first").rpartition(b"; ")[2].strip()
        assert text in self.file("sum.s").read_bytes(), "the listing is old"
        assert text in self.file("sum.html").read_bytes(), "the page is old"


def save(path, chance):
    """A person adds a line to a file: the editor writes it, or renames a new one. Gives the text."""
    text = path.read_bytes() + f"{COMMENTS[path.name]} mine {chance.random()}\n".encode()
    if chance.random() < 0.5:
        path.write_bytes(text)
    else:
        beside = path.with_name("editor's own")
        beside.write_bytes(text)
        beside.replace(path)
    return text


def kill(repair, seconds, goal, chance):
    """Begins a run of so many seconds, and ends it at a random moment. The person saves up to three times."""
    names = chance.choice((("sum.s",), ("sum.info",), ("sum.s", "sum.info"), ("sum.info", "sum.s", "sum.s")))
    whole, number, saved = chance.random() < 0.7, chance.choice(SIGNALS), {}
    todo = sorted([(chance.uniform(0, 1.1), ""), *((chance.uniform(0, 1), name) for name in names)])
    begun, made = time.monotonic(), repair.begin(goal)
    for moment, name in todo:
        time.sleep(max(0, begun + moment * seconds - time.monotonic()))
        if name:
            saved[name] = save(repair.file(name), chance)
        elif made.poll() is None:
            (os.killpg if whole else os.kill)(made.pid, number)
    made.communicate()
    repair.check(saved)
    left = [path.name for path in repair.folder.glob(".repair.*")]
    assert not left or number == signal.SIGKILL, f"left after {number}: {left}"
    repair.check_after_run(saved)


def pair(repair, seconds, chance):
    """Begins a run, and a second one before the first ends."""
    first = repair.begin()
    time.sleep(chance.uniform(0, seconds))
    for made in first, repair.begin():
        said = made.communicate()[0]
        assert made.returncode == 0, said
    repair.check_after_run({})


def faults(programs, kills, pairs, seed, makefile=MAKEFILE):
    """What went wrong, a text each."""
    chance = random.Random(seed)
    with tempfile.TemporaryDirectory(prefix="kills65-", ignore_cleanup_errors=True) as folder:
        made, seconds = [], {}
        for container in None, HEX:
            os.mkdir(f"{folder}/made{len(made)}")
            made.append(Repair(f"{folder}/made{len(made)}", programs, makefile, container))
        for goal in "all", "moves":
            begun = time.monotonic()
            made[0].copied(f"{folder}/{goal}").run(goal)
            seconds[goal] = time.monotonic() - begun
        for number in range(kills + pairs):
            repair = made[number % 2].copied(f"{folder}/{number}")
            try:
                if number < kills:
                    goal = chance.choice(("all", "moves"))
                    kill(repair, seconds[goal], goal, chance)
                else:
                    pair(repair, seconds["all"], chance)
            except (AssertionError, OSError) as cause:
                yield f"{'kill' if number < kills else 'pair'} {number}: {cause}"
            shutil.rmtree(repair.folder, ignore_errors=True)


if __name__ == "__main__":
    given = sys.argv[1:]
    counts = [int(word) for word in given[1:4]] + [200, 40, 1][len(given[1:4]):]
    found = 0
    for fault in faults(os.path.abspath(given[0]), *counts, *map(os.path.abspath, given[4:5])):
        print(fault, flush=True)
        found += 1
    print(f"{counts[0]} kills, {counts[1]} pairs: {found} faults")
    sys.exit(bool(found))
