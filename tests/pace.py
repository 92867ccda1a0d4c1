"""Looks for what grows faster than its input: each kind of image or line with each kind of group, n, 2n and 4n of them.
Counts millions of instructions by callgrind, or with --seconds the time of a processor. Where twice as much takes more
than 2.3 times, the line begins with GROWS. It runs by hand; what it finds belongs into tests/rows/speed.txt. All cases
take hours, so they come in random order: an hour shows something of each kind.

Usage: python3 tests/pace.py [-n 400] [-j 4] [--seconds] FOLDER [WORD..]

FOLDER has the programs, and the words are pieces of the names of cases, as in `html65 jumps`. If the status is not 0,
the program may have refused its input, and not read the rest. move65 runs no more than 100 instructions from a routine,
so that each size comes to that limit."""
import argparse, itertools, multiprocessing.pool, os, random, re, subprocess, tempfile

UNIT = 16
# Where images and listings begin. Words of texts lie before it, whatever the size.
START = 0x8000


def word(value):
    return (value % 65536).to_bytes(2, "little")


def unit(*parts):
    """The bytes of an image for a number: these, and then `nop`, so that all code is reached."""
    return b"".join(parts).ljust(UNIT, b"\xea")


def place(k):
    """The address of a unit."""
    return START + UNIT * k


def other(k, n):
    """The address of another unit."""
    return place(k * 7919 % n)


def low(k, n):
    return word(other(k, n))[:1]


def high(k, n):
    return word(other(k, n))[1:]


# Lines and groups have a number {k}, another one {j}, the address {a} of a unit, and places in it.
IMAGES = {
    "nops": lambda k, n: unit(),
    "halves": lambda k, n: unit(b"\xa9", low(k, n), b"\xa2", high(k, n)),
    "pointers": lambda k, n: unit(b"\xa9", low(k, n), b"\x85\x20\xa9", high(k, n), b"\x85\x21\xb1\x20"),
    "readers": lambda k, n: unit(b"\xbd", word(other(k, n)), b"\x48\xb9", word(other(k, n) + 8), b"\x48"),
    "equal readers": lambda k, n: unit(b"\xbd\x08\x80\x48\xb9\x00\x80\x85\x20"),
    "calls": lambda k, n: unit(b"\x20", word(other(k, n)), b"\x20", word(other(k + 1, n))),
    "routines": lambda k, n: unit(b"\x20", word(place(k + 1)), b"\x4c", word(other(k, n))),
    "calls of one": lambda k, n: unit(b"\x20\x00\x80\x20\x00\x80\x4c\x00\x80"),
    "branches": lambda k, n: unit(b"\xd0\x04\xf0\x02\x90\x00\xb0\xf8"),
    "texts": lambda k, n: bytes(65 + (k + i) % 26 for i in range(15)) + b"\0",
    "words": lambda k, n: b"".join(word(other(k + i, n)) for i in range(8)),
    "lengths": lambda k, n: unit(8 * b"\xea", word(UNIT)),
    "zeros": lambda k, n: bytes(UNIT),
    "random": lambda k, n: random.Random(k).randbytes(UNIT),
}
LINES = {
    "definitions": "d{k} := ${k:04X}\n nop\n", "names": "l{k}: lda l{j}\n", "jumps": "l{k}: jmp l0\n",
    "lows": "l{k}: lda #<l{j}\n ldx #>l{j}\n", "branches": "l{k}: bne l{k}\n", "bytes": "l{k}: .byte 1,2,3\n",
    "strings": 'l{k}: .byte "AB<&>"\n', "addresses": "l{k}: .addr l{j}\n", "comments": "; a comment\nl{k}:\n",
    "empty lines": "\n\n", "segments": ' .segment "s{k}"\n nop\n', "room": " .res 3\n",
    "inner names": "x{k} := * + 1\n lda #0\n sta x{j}\n", "CPUs": ' .setcpu "6502"\n nop\n',
    "same values": "v{k} := 4\n .byte v{j}\n", "one value": "v{k} := 4\n lda v0\n",
}
KINDS = "Code ByteTable WordTable DByteTable DWordTable AddrTable RtsTable TextTable Skip".split()
LABEL = 'LABEL {{ ADDR {a}; NAME "n{k}"; }};'
GROUPS = {
    "": "", "LABEL": LABEL,
    "LABEL with SIZE": 'LABEL {{ ADDR {a}; NAME "n{k}"; SIZE 9; }};',
    "LABEL in LABEL": 'LABEL {{ ADDR {inner}; NAME "n{k}"; SIZE {nested}; }};',
    "SEGMENT": 'SEGMENT {{ START {a}; END {end}; NAME "s{k}"; }};', "include": "",
    **{kind: f"RANGE {{{{ START {{middle}}; SIZE 8; TYPE {kind}; }}}};" for kind in KINDS},
    "HALVES": LABEL + "\n#: HALVES {{ LOW {low}; HIGH {high}; }};",
    "HALVES far": LABEL + "\n#: HALVES {{ LOW {low}; HIGH {far}; }};",
    "HALVES with SIZE": "#: HALVES {{ LOW {a}; HIGH {middle}; SIZE 8; }};", "NUMBER": "#: NUMBER {{ ADDR {low}; }};",
    "NUMBER and HALVES": LABEL + "\n#: NUMBER {{ ADDR {a}; }};\n#: HALVES {{ LOW {low}; HIGH {high}; }};",
    "DIFFERENCE": LABEL + "RANGE {{ START {middle}; SIZE 2; TYPE WordTable; }};\n"
                          "#: DIFFERENCE {{ ADDR {middle}; FROM {a}; TO {next}; }};",
    "ENTRY": "#: ENTRY {{ ADDR {a}; }};",
    "BASE": LABEL + "\n#: BASE {{ ADDR {a}; FROM {next}; }};", "AFTER": "#: AFTER {{ START {after}; END {after}; }};",
    "INLINE": "#: INLINE {{ ADDR {a}; }};", "INLINE with SIZE": "#: INLINE {{ ADDR {a}; SIZE 2; }};",
}
READS_IMAGES = ("da65", "trace65")
READS_LISTINGS = ("as65", "name65", "html65", "move65")


def information(folder, kind, n):
    """An information file, with the include file that it names."""
    text = f"GLOBAL {{ STARTADDR {START}; }};\n"
    if kind == "include":
        text += 'ASMINC { FILE "names.inc"; };\n'
        with open(folder + "/names.inc", "w") as file:
            file.write("".join(f"i{k} = {place(k)}\n" for k in range(n)))
    for k in range(n):
        at = place(k)
        text += GROUPS[kind].format(
            k=k, a=at, low=at + 1, high=at + 3, middle=at + 8, end=at + UNIT - 1, next=at + UNIT, far=other(k, n) + 3,
            inner=START + k, nested=2 * (n - k), after=place(n) + k) + "\n"
    return text


def taken(command, folder, in_seconds):
    """How many millions of instructions a command takes, or seconds of a processor, and its status."""
    if in_seconds:
        run = subprocess.Popen(command, cwd=folder, stdout=subprocess.DEVNULL, stderr=subprocess.DEVNULL)
        _, status, used = os.wait4(run.pid, 0)
        return used.ru_utime + used.ru_stime, os.waitstatus_to_exitcode(status)
    words = ["valgrind", "--tool=callgrind", "--callgrind-out-file=/dev/null", *command]
    ran = subprocess.run(words, cwd=folder, stdout=subprocess.DEVNULL, stderr=subprocess.PIPE)
    return int(re.search(rb"Collected : (\d+)", ran.stderr)[1]) / 10**6, ran.returncode


def measured(case):
    """What a case takes with n, 2n and 4n."""
    folder, n, in_seconds, program, kind, group = case
    made, there = [], os.path.abspath(folder)
    for number in n, 2 * n, 4 * n:
        with tempfile.TemporaryDirectory() as here:
            with open(here + "/a.info", "w") as file:
                file.write(information(here, group, number))
            with open(here + "/a.in", "wb") as file:
                if kind in IMAGES:
                    file.write(b"".join(IMAGES[kind](k, number) for k in range(number)))
                else:
                    count = 3 * number
                    file.write("".join(LINES[kind].format(k=k, j=k * 7919 % count) for k in range(count)).encode())
            if program in READS_LISTINGS and kind in IMAGES:
                words = [there + "/da65", "-i", "a.info", "-o", "a.s", "a.in"]
                if subprocess.run(words, cwd=here, stderr=subprocess.DEVNULL).returncode:
                    return case, 3 * [(0, 1)], ""
                os.replace(here + "/a.s", here + "/a.in")
            steps = ["--steps", "100"] if program == "move65" else []
            words = ["timeout", "600", f"{there}/{program}", *steps, "-i", "a.info", "a.in"]
            made.append(taken(words, here, True) if in_seconds else taken(words[2:], here, False))
    counts = [count for count, _ in made]
    grows = counts[2] > 2.3 * counts[1] and counts[2] > (0.2 if in_seconds else 10)
    return case, made, "GROWS" if grows else ""


def main():
    parser = argparse.ArgumentParser()
    parser.add_argument("folder")
    parser.add_argument("words", nargs="*")
    parser.add_argument("-n", type=int, default=400)
    parser.add_argument("-j", type=int, default=4)
    parser.add_argument("--seconds", action="store_true")
    given = parser.parse_args()
    cases = [(given.folder, given.n, given.seconds, program, kind, group)
             for program in READS_IMAGES + READS_LISTINGS
             for kind, group in itertools.product([*IMAGES, *(LINES if program in READS_LISTINGS else ())], GROUPS)
             if all(piece in f"{program} {kind} {group}" for piece in given.words)]
    random.shuffle(cases)
    with multiprocessing.pool.ThreadPool(given.j) as pool:
        for (*_, program, kind, group), made, said in pool.imap_unordered(measured, cases):
            figures = " ".join(f"{count:9.2f}" for count, _ in made)
            print(f"{said:6} {program:8} {kind:14} {group:18} {figures}  status {made[-1][1]}", flush=True)


if __name__ == "__main__":
    main()
