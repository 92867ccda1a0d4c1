"""What the programs do with files: each row is run by each program, as65 also with --compare, with few options and with
all. Expected is what the man pages say. tests/rows/files.txt has what differs from program to program."""
import itertools, os, re, shutil, signal, subprocess
import pytest
from conftest import Program, holds, in_pieces, raw, read, same, shell, tables, write

TEXTS, TABLES = tables(__name__)
RUNS, INPUTS, OUTPUTS = ({name: cells for name, *cells in TABLES[kind][1]} for kind in ("uses", "inputs", "outputs"))
WRITERS = ("da65", "trace65", "as65", "name65")
ASSEMBLERS = ("as65", "compare", "name65")
NULL = subprocess.DEVNULL
NONE = shell("exec <&- >&- 2>&-")
# An image of three instructions, and its listing. The image to compare with has another last byte.
IMAGE, OTHER = b"\xad\x07\x10\xad\x08\x10\x60", b"\xad\x07\x10\xad\x08\x10\xea"
LISTING = ('; da65 listing\n\n        .setcpu "6502"\n\nv1              := $1007\nv2              := $1008\n\n'
           "        lda     v1\n        lda     v2\n        rts\n")
REPORT = TEXTS["LEGEND"] + "# $1000 #\n# 7 bytes of code that is reached, 0 in ranges, 0 in neither\n"


class Use:
    """A use of a program on its inputs, with an old output where one may be. In messages @ is the name of an input."""

    def __init__(self, request, kind, options="all", input=None):
        inputs, every = RUNS[kind]
        self.kind, self.options, self.inputs = kind, options, inputs.split()
        self.every = every.split() if options == "all" else []
        self.main = self.inputs[-1]
        self.input = input or self.main
        self.missing, self.folder, self.limit, self.large = INPUTS[f"{kind} {self.input}"]
        self.tool = "as65" if kind == "compare" else kind
        self.program = request.getfixturevalue(self.tool)
        self.fine, self.trouble = (1, 2) if kind == "compare" else (0, 1)
        self.unwritten = "cannot write the listing" if kind == "da65" else "cannot write the output"
        self.begin()

    def begin(self):
        """The inputs are there by their first names."""
        shutil.rmtree("in", ignore_errors=True)
        os.mkdir("in")
        self.out = None if self.kind == "compare" else "in/out"
        self.name = {"info": "in/y.info", "one": "in/one.inc", "two": "in/two.inc", "image": "in/a.bin",
                     "listing": "in/t.s", "out": "in/out", "null": "/dev/null"}
        for name, text in (("one", "v1 := $1007\n"), ("two", "v2 := $1008\n"), ("listing", LISTING),
                           ("image", OTHER if self.kind == "compare" else IMAGE), ("out", "old\n")):
            if (name, self.kind) != ("out", "trace65"):
                write(self.name[name], text)
        return self.rename(self.name[self.input])

    def inform(self, start=0x1000):
        """Writes the information file, with the names that the include files have now."""
        includes = "".join(f'ASMINC {{ FILE "{self.name[name]}"; }};\n' for name in ("one", "two"))
        write("in/y.info", f"GLOBAL {{ STARTADDR ${start:04X}; }};\n{includes}")

    def rename(self, name):
        """The input has this name."""
        self.name[self.input] = name
        self.inform()
        return self

    def without(self, name):
        """Anew, without this input."""
        os.remove(self.begin().name[name])
        return self

    def sized(self, count):
        """Makes the input that large, by a comment or by bytes of the image."""
        begin, fill = {"info": (b"#", b"x"), "image": (b"", b"\0")}.get(self.input, (b";", b"x"))
        write(self.name[self.input], (read(self.name[self.input]) + begin).ljust(count, fill))
        return self

    def enlarged(self):
        """Inputs of a run that writes more than 8 KiB."""
        large, text = {"da65": ("image", 5000 * b"\xea"),
                       "trace65": ("info", read("in/y.info") + 5000 * b"# a comment\n"),
                       "name65": ("listing", read("in/t.s") + 5000 * b"; a comment\n"),
                       }.get(self.kind, ("listing", " .res 20000\n"))
        write(self.name[large], text)
        if self.tool == "as65":
            write("in/a.bin", 10000 * b"\0\1")
        return self

    def wanted(self):
        """What the run writes."""
        whole = read("in/y.info").decode() if self.options == "all" else ""
        differs = "$1006: EA -> 60, line 10: rts\n"
        return {"trace65": whole + REPORT, "as65": IMAGE, "compare": differs}.get(self.kind, LISTING)

    def words(self):
        to = [] if self.out is None else ["-o", self.out]
        to = ["--compare", self.name["image"]] if self.kind == "compare" else to
        return ["-i", self.name["info"], *self.every, *to, self.name[self.main]]

    def go(self, program=None, words=None, **how):
        """Runs the program on these inputs."""
        self.ran = (program or self.program).run(words or self.words(), **{"stdin": NULL, **how})
        return self

    def go_as_other(self, **how):
        """Runs it as a user who can't open the files of this one: root, who may open everything, as another one."""
        shutil.copy(self.program.path, "copied")
        for name in ".", "copied":
            os.chmod(name, 0o755)
        other = ["setpriv", "--reuid", "65534", "--regid", "65534", "--clear-groups"] if os.getuid() == 0 else []
        return self.go(Program("copied"), before=other, **how)

    def says(self, status, message=""):
        """The run has ended so."""
        said = message.lstrip("!").replace("@", self.name[self.input])
        self.ran.gives(status, None, f"{self.tool}: {said}\n" if said else "")
        return self

    def wrote(self, name=None):
        """The run was fine, and the file, or standard output, has what it writes."""
        self.says(self.fine)
        same(self.wanted(), read(name) if name else self.ran.out, self.ran.line)

    def keeps(self):
        """Nothing was written."""
        same("", self.ran.out or b"", self.ran.line)
        holds("in/out", None if self.kind == "trace65" else "old\n")

    def refuses(self, message):
        """The run was refused with this message."""
        self.says(self.trouble, message)
        holds("in/out", "") if message.startswith("!") else self.keeps()


@pytest.fixture
def use(request):
    return Use(request, *request.param)


def uses(table, *names):
    """Runs a test for each row, by its id: the arguments of Use, and then these parameters."""
    return pytest.mark.parametrize(["use", *names], table.values(), ids=table, indirect=["use"])


def each(of="program", /, kinds=tuple(RUNS), options=("few", "all"), **values):
    """Runs a test for each kind of use with few options and with all; with "input" for each input; for these values."""
    kept = [(kind, some, *input) for kind in kinds for some in options
            for input in ([(input,) for input in RUNS[kind][0].split()] if of == "input" else [()])]
    return uses({", ".join([f"{use[0]} with {use[1]} options", *use[2:], *map(str, value)]): (use, *value)
                 for use in kept for value in itertools.product(*values.values())}, *values)


WRITING = {kind: ((kind,),) for kind in WRITERS}


@each("input", what=("absent", "a folder", "a byte too large"))
def test_input(use, what):
    if what == "a byte too large":
        return use.sized(use.limit + 1).go().refuses(use.large)
    os.remove(use.name[use.input])
    if what == "a folder":
        os.mkdir(use.name[use.input])
    use.go().refuses(use.folder if what == "a folder" else use.missing)


@each("input", options=("few",))
def test_input_as_large_as_it_may_be(use):
    if use.input == "image":
        use.inform(0)
    # What trace65 finds comes after its information file, and both together have that limit.
    use.sized(use.limit - (4096 if (use.kind, use.input) == ("trace65", "info") else 0)).go().says(use.fine)


@each("input", options=("few",))
def test_input_that_may_not_be_read(use):
    use.out = None
    os.chmod(use.name[use.input], 0)
    use.go_as_other().says(use.trouble, use.missing)


@each()
def test_a_faulty_information_file(use):
    write("in/y.info", "GLOBAL { STARTADDR F000; };\n")
    use.go().refuses("info:1: something else expected")


@each(name=("", "in/a\nb\nc", "in/a\x1b[2J\x7f\xc2\x9bb"))
def test_an_input_called(use, name):
    """A message shows a line feed as \\n, and each other control as ?."""
    use.rename(name).go()
    use.name[use.main] = re.sub("[\x1b\x7f\x9b]", "?", name.replace("\n", "\\n"))
    use.refuses("cannot read @")


@each("input")
def test_from_a_pipe_with_a_name(use):
    os.mkfifo("in/pipe")
    writer = subprocess.Popen(["timeout", "10", "cp", use.name[use.input], "in/pipe"])
    use.out = None
    use.rename("in/pipe").go(timeout=10)
    writer.wait()
    use.wrote()


@each("input", by=("/dev/stdin", "handed", "/dev/fd/0", "-"))
def test_from_standard_input(use, by):
    """Standard input is read from its position, even if it can't be opened; by another name from the first byte."""
    use.out = None
    write("given", (b"" if by == "/dev/fd/0" else b"x") + read(use.name[use.input]))
    use.rename("/dev/stdin" if by == "handed" else by)
    with open("given", "rb", buffering=0) as given:
        given.read(1)
        os.chmod("given", 0 if by == "handed" else 0o600)
        (use.go_as_other if by == "handed" else use.go)(stdin=given, timeout=10)
    if by == "-" and (use.kind == "da65" or use.kind == "trace65" and use.input in ("one", "two")):
        use.says(use.trouble, use.missing)
    else:
        use.wrote()


@each()
def test_standard_input_that_is_not_asked_for(use):
    pipe = in_pieces("abcdef")
    use.go(stdin=pipe).says(use.fine)
    same("abcdef", pipe.read(), "it was read")


@each(kinds=ASSEMBLERS)
def test_a_listing_without_a_name(use):
    use.out = None
    use.go(words=use.words()[:-1], stdin=open("in/t.s", "rb")).wrote()


# A stream has its bytes only once. as65 and name65 say so by any names, trace65 by those of standard input, and da65
# never.
TWICE = ("- -", "/dev/stdin -", "- /dev/stdin", "/dev/stdin /dev/stdin")
BY_ANY_NAME = ("in/pipe in/pipe", "in/pipe ./in/pipe", "/dev/fd/0 -", "- /proc/self/fd/0", "/dev/fd/0 /dev/../dev/fd/0")
PAIRS = {"trace65": ("info image",), "as65": ("info listing",), "name65": ("info listing",),
         "compare": ("info listing", "info image", "image listing")}


@uses({f"{kind}-{pair}-{names}-{some}": ((kind, some), pair, names) for kind in PAIRS for pair in PAIRS[kind]
       for names in TWICE + (() if kind == "trace65" else BY_ANY_NAME) for some in ("few", "all")}, "pair", "names")
def test_one_stream_twice(use, pair, names):
    os.mkfifo("in/pipe")
    use.name.update(zip(pair.split(), names.split()))
    first = names.split()[0].replace("-", "/dev/stdin") if "pipe" in names or "/fd/" in names else "standard input"
    use.go(stdin=b"", timeout=10).refuses(first + " can be only one of the inputs")


@each(kinds=ASSEMBLERS)
def test_a_file_that_is_two_inputs(use):
    """A plain file may be both, and a folder is no stream."""
    use.name["info"] = "in/t.s"
    use.go().refuses("info:1: something else expected")
    os.mkdir("in/folder")
    use.name["info"] = use.name["listing"] = "in/folder"
    use.go().refuses("cannot read in/folder")


@each("input", kinds=WRITERS, by=("its name", "another name", "a hard link", "a link", "a descriptor", "appending"))
def test_the_output_is(use, by):
    """The output is an input, by one of its names or as what is appended to it."""
    name, before, wanted = use.name[use.input], read(use.name[use.input]), use.wanted()
    os.link(name, "in/hard")
    os.symlink(os.path.abspath(name), "in/link")
    with open(name, "rb") as file, open(name, "ab") as appended:
        use.out = {"its name": name, "another name": "./in/../" + name, "a hard link": "in/hard", "a link": "in/link",
                   "a descriptor": f"/dev/fd/{file.fileno()}"}.get(by)
        use.go(**({"stdout": appended} if by == "appending" else {"pass_fds": [file.fileno()]}))
    if by == "appending" and (use.kind == "da65" or (use.kind, use.input) == ("trace65", "info")):
        use.says(0)
        before += raw(wanted)
    elif (use.kind, use.input) == ("trace65", "info"):
        use.says(1, use.out + " exists")
    elif use.kind == "da65":
        use.says(*((1, "input is empty") if use.input == "image" else (0,)))
        before = b"" if use.input == "image" else wanted
    else:
        use.says(use.trouble, "the output is an input: " + (use.out or name))
    holds(name, before)


def test_no_input_is_written_over(request, program, words, out, given, status, said):
    info = ('GLOBAL { STARTADDR $1000; INPUTNAME "a.bin"; };\n'
            'ASMINC { FILE "one.inc"; };\nASMINC { FILE "two.inc"; };\n')
    texts = {"y.info": info, "one.inc": "v1 := $1007\n", "two.inc": "v2 := $1008\n", "t.s": LISTING,
             "a.bin": IMAGE, "b.bin": OTHER}
    for name in texts:
        write(name, texts[name])
    with open(out or os.devnull, "ab") as appended, open(given or os.devnull, "rb") as stdin:
        run = request.getfixturevalue(program).run(words, stdin=stdin, **({"stdout": appended} if out else {}))
    run.gives(status, None, f"{program}: {said}\n")
    for name in texts:
        holds(name, texts[name])


@each("input", kinds=("compare",))
def test_differences_are_appended_to(use):
    test_the_output_is(use, "appending")


@each(kinds=("as65", "name65"))
def test_a_device_is_the_output_and_the_input(use):
    """Only a plain file can't be both."""
    use.rename("/dev/null").out = None
    use.go(stdout=NULL).says(1, "@: no bytes")


@pytest.mark.cc
@each(kinds=("as65", "name65"))
def test_the_output_is_on_another_device(use):
    """One number on two devices is not one file."""
    os.link("in/t.s", "in/link")
    use.out = "in/link"
    use.go(shim={"ELSEWHERE": "in/link"}).wrote("in/link")


@each(kinds=WRITERS, output=[name.strip() for name in OUTPUTS])
def test_an_output_called(use, output):
    said = dict(zip(TABLES["outputs"][0], OUTPUTS[output or " "]))[use.kind]
    os.mkdir("in/folder")
    os.mkfifo("in/pipe")
    pipe = os.open("in/pipe", os.O_RDONLY | os.O_NONBLOCK)
    use.input, use.out, use.name["out"] = "out", output, output
    use.go(timeout=10)
    write("piped", os.read(pipe, 65536))
    if said or output == "/dev/null":
        use.says(1 if said else 0, said)
    elif output == "-" and use.kind != "da65":
        use.wrote()
    else:
        use.wrote({"in/pipe": "piped", "-": "./-"}.get(output, output))
        same("", use.ran.out, use.ran.line)


@each(kinds=WRITERS, what=("there", "forbidden"))
def test_an_output_that_is(use, what):
    """It is there, or may not be written."""
    use.input = "out"
    write("in/out", b"old\n" + bytes(5000))
    if what == "forbidden":
        os.chmod("in/out", 0)
        use.go_as_other().says(1, "@ exists" if use.kind == "trace65" else "cannot create @")
    else:
        use.go().says(1, "@ exists") if use.kind == "trace65" else use.go().wrote("in/out")


@each(kinds=("da65", "as65", "name65"))
def test_an_output_that_is_standard_output(use):
    use.out = "/dev/stdout"
    with open("appended", "wb", buffering=0) as file:
        file.write(b"old\n")
        use.go(stdout=file).says(0)
    holds("appended", b"old\n" + raw(use.wanted()))


@each(kinds=WRITERS)
def test_no_standard_stream(use):
    use.go(before=NONE).wrote("in/out")
    use.without(use.main).go(before=NONE).says(1).keeps()


@each()
def test_a_closed_stream(use):
    use.out = None
    use.go(before=shell("exec >&-")).says(use.trouble, use.unwritten)
    use.begin().rename("/dev/stdin").go(before=shell("exec <&-"))
    use.refuses(("!" if use.kind == "da65" else "") + ("input is empty" if use.main == "image" else "@: no bytes"))
    # What is said there is not in a file that is opened later.
    use.without(use.inputs[1]).go(before=shell("exec <&- 2>&-")).says(use.trouble)
    holds("in/out", "") if use.kind == "da65" else use.keeps()


@each()
def test_a_full_stream(use):
    use.out = None
    with open("/dev/full", "wb") as full:
        use.go(stdout=full).says(use.trouble, use.unwritten)
        use.without(use.main).go(stderr=full)
    assert use.ran.status == use.trouble
    use.keeps()


@pytest.mark.parametrize("to", ("full", "closed"))
@pytest.mark.parametrize("word", ("-h", "-V"))
@uses(WRITING)
def test_told_on_a_stream_that_is(use, word, to):
    use.go(words=word, **({"before": shell("exec >&-")} if to == "closed" else {"stdout": open("/dev/full", "wb")}))
    use.says(1, "" if use.kind == "da65" else use.unwritten)


@uses({f"{kind}-{to}": ((kind,), to) for to, kinds in (("standard output", RUNS), ("the output", WRITERS))
       for kind in kinds}, "to")
def test_a_file_that_is_full(use, to):
    """If the signal SIGXFSZ is ignored, a write fails; otherwise it ends the program. Both leave a prefix."""
    use.enlarged().out = None
    whole = use.go().ran.out
    use.out = "in/cut" if to == "the output" else None
    for ignored, status, said in ("trap '' XFSZ; ", use.trouble, use.unwritten), ("", -signal.SIGXFSZ, ""):
        with open("stdout", "wb") as out:
            use.go(stdout=out, before=shell(ignored + "ulimit -f 16")).says(status, said)
        holds(use.out or "stdout", whole[:8192])
        os.remove(use.out or "stdout")


@pytest.mark.cc
@each()
def test_what_is_opened(use):
    use.go(shim={"OPENS": os.path.abspath("opened")})
    out = [] if use.kind == "compare" else ["in/out"]
    assert read("opened").decode().split() == 3 * ["/dev/null"] + [use.name[name] for name in use.inputs] + out


@pytest.mark.cc
@each(at=(1, 2, 3))
def test_no_dev_null(use, at):
    use.input = "null"
    use.go(shim={"REFUSE_OPEN": at, "ERROR": 2}).refuses("cannot read /dev/null")
    use.go(shim={"REFUSE_OPEN": at, "ERROR": 12}).refuses("out of memory")
    use.go(shim={"REFUSE_OPEN": at, "ERROR": 2}, before=NONE).says(use.trouble).keeps()


@pytest.mark.cc
@each("input")
def test_a_call_that_fails(use):
    """Each input takes two reads."""
    at = use.inputs.index(use.input)
    for call, number, error, message in (("OPEN", at + 4, 13, use.missing), ("OPEN", at + 4, 12, "out of memory"),
                                         ("READ", 2 * at + 1, 5, use.folder), ("READ", 2 * at + 2, 5, use.folder)):
        use.begin().go(shim={"REFUSE_" + call: number, "ERROR": error}).refuses(message)


@pytest.mark.cc
@each()
def test_a_write_that_fails(use):
    use.input = "out"
    for error, message in ((13, "cannot create @"), (12, "out of memory")) if use.kind != "compare" else ():
        use.begin().go(shim={"REFUSE_OPEN": 4 + len(use.inputs), "ERROR": error}).refuses(message)
    use.input, use.out = use.main, None
    use.go(shim={"REFUSE_WRITE": 1, "ERROR": 28}).says(use.trouble, use.unwritten)
    assert use.without(use.main).go(shim={}).ran.counts.writes == 1, "a message is one write"
    use.go(shim={"REFUSE_WRITE": 1, "ERROR": 28}).says(use.trouble)
    same("", use.ran.out, "a message that fails")
    assert use.ran.counts.writes == 1, "nothing is written after a message that failed"
    # A failure of close comes too late to be seen.
    for at in range(1, 9):
        use.begin().go(shim={"REFUSE_CLOSE": at, "ERROR": 5}).wrote(use.out)
