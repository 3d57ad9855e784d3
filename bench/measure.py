#!/usr/bin/env python3
"""What runs of the program cost: a table of rows, each the ratio of one run to another, and a bar.

    python3 bench/measure.py PROGRAM [WORD..] [--base OLD] [--runs N] [--seeds S..]

PROGRAM is the built `pronom_sig`. Each row of ROWS, near the end, is a request, a base, and a bar: the greatest
ratio of the one to the other. A base is the same request with half the input (`half`), another subcommand with the
same table (`find`, `conflicts`), a table of 1,000 formats like a registry's with the same file (`registry`), or
another program: `yara`, `grep`, or `dd`, which only reads. With `--base` it is the same request to the program OLD,
and the bar is 1.1; the row is not held either if the two print different lines. With words only those rows run that
have one of them in their name, or have it as their base.

Both runs take turns, so many times (5). A line has the row, the least processor seconds (user and system) of a
whole run, the base and its least seconds, the ratio, the bar, and `ok` or `over`. Only ratios may be compared with
those of another time or machine. The table is shown for each seed (1); the same seed makes the same input anywhere,
but for the files of this machine. Rows whose base or database is not installed are left out, by a line. The status
is 1 if a row is not held.

YARA's compiled rules say less than the table: what follows an unbounded gap may occur anywhere.
"""
import argparse
import os
import random
import re
import resource
import subprocess
import sys
import tempfile
from collections import namedtuple

sys.dont_write_bytecode = True

import tables

KIB, MIB = 1 << 10, 1 << 20
LONGEST = 120  # seconds of a run: one that has not ended by then counts as so long, and of PROGRAM is over its bar
TOP = os.path.join(os.path.dirname(os.path.abspath(__file__)), "..")
DATABASE = "/usr/share/mime/packages/freedesktop.org.xml"
REAL = "find /usr/lib /usr/share /usr/bin -type f -print0 | LC_ALL=C sort -z | xargs -0 cat | head -c 256000000"
TEXT = [b"the ", b"and ", b"format ", b"of ", b"file ", b"header\n", b"0123456789 "]
MARKS = ["mime-version: 1.0", "content-type: text", "received: from"]
NOT_41 = [byte for byte in range(256) if byte != 0x41]

# Sequences that begin at many offsets and come to nothing: how many in a table, the position, and the expression,
# in which <n> stands for n bytes other than 41.
HOSTILE = {
    "fixed": (4000, "Variable,,,41<7>"),
    "any-first": (4000, "Variable,,,??<7>"),
    "open-first": (4000, "Variable,,,*<8>"),
    "range": (4000, "BOF,0,65000,41<7>"),
    "behind-open": (4000, "Variable,,,41*<6>"),
    "spaced": (4000, "Variable,,,41??<1>??<1>"),
    "seven-41": (4000, "Variable,,,41414141414141<2>"),
    "class-first": (4000, "Variable,,,[41:5A]414141414141<2>"),
    "gap": (4000, "Variable,,,41{0-9}<1>??<1>"),
    "mid-gap": (100, "Variable,,,41{0-300}<1>??<1>"),
    "long-gap": (100, "Variable,,,41{0-60000}<4>"),
    "dense": (100, "Variable,,," + "41" * 200 + "??<1>"),
    "long": (1, "Variable,,,*" + "41" * 4094 + "<1>"),
    "30 stars": (1, "BOF,0,," + "*" * 30 + "<1>"),
    "30 words": (1, "BOF,0,," + "41*" * 30 + "<1>"),
    "30 gaps": (1, "BOF,0,," + "{0-2000}" * 30 + "<1>"),
    "30 gaps, words": (1, "BOF,0,," + "41{0-2000}" * 30 + "<1>"),
    "30 lists": (1, "BOF,0,,*" + "(41|4141|414141)" * 30 + "<1>"),
    "30 brackets": (1, "BOF,0,,*" + "[!4242]" * 30 + "<1>"),
    "end": (100, "EOF,0,60000,41<1>"),
    "end-spaced": (100, "EOF,0,65000,41??<1>??<1>"),
    "deep": (5, "Variable,,," + "41{0-9}42*" * 740 + "<1>"),
}

# The arguments of a run, and what a base needs: the two files of the table, what is matched, and words for `grep`.
Request = namedtuple("Request", "arguments table matched words", defaults=("", ()))


class Room:
    """The folder with the input of one seed. Each file is made when a row first asks for it."""

    def __init__(self, folder, program, seed):
        self.folder, self.program, self.seed, self.asked = folder, program, seed, []

    def chance(self, name):
        return random.Random(f"{self.seed} {name}")

    def file(self, name, make):
        path = os.path.join(self.folder, name)
        if not os.path.exists(path):
            os.makedirs(os.path.dirname(path), exist_ok=True)
            data = make()
            with open(path, "wb") as file:
                file.write(data if isinstance(data, bytes) else data.encode())
        return path

    def table(self, name, rows, pairs=(), each=4):
        """The files of a table with a signature for each row, so many to a format."""
        text = "".join(f"fmt/{n // each + 1},{n + 1},{row}\n" for n, row in enumerate(rows))
        over = "".join(f"fmt/{h},fmt/{l}\n" for h, l in pairs)
        return [self.file(f"{name}/signatures.csv", lambda: tables.HEADER + text),
                self.file(f"{name}/priorities.csv", lambda: "higher,lower\n" + over)]

    def letters(self, letters, size):
        """A file of some of these letters, or of random bytes where there are none."""
        chosen = letters.encode() or range(256)
        return self.file(f"{letters}-{size}", lambda: bytes(self.chance("letters").choices(chosen, k=size)))


def match(table, matched, words=()):
    folder = ["--recursive"] if os.path.isdir(matched) else []
    return Request(["match", *table, *folder, matched], table, matched, words)


# ---- tables and files like those of a registry, and files of this machine

def registry(room, formats):
    """The files of a table without priorities, and the bytes with which its signatures begin."""
    made, folder = tables.Made(), os.path.join(room.folder, f"registry-{formats}")
    found = tables.registry(room.chance("registry"), formats, made)
    os.makedirs(folder, exist_ok=True)
    made.write(folder)
    fronts = [bytes(byte or 0 for byte in it.front) for signatures in found for it in signatures or ()]
    return [os.path.join(folder, f"{it}.csv") for it in ("signatures", "priorities")], fronts


def content(chance, size, fronts):
    """Random bytes, words of text and zeros in turn, with some fronts among them; each MiB is like the first."""
    block = bytearray(chance.choice(fronts))
    while len(block) < min(size, MIB):
        block += chance.choice([chance.randbytes(4096), b"".join(chance.choices(TEXT, k=800)), bytes(1024)])
        block += chance.choice(fronts)[:chance.choice([0, 0, 0, 0, 3, 12])]
    return (bytes(block) * (size // len(block) + 1))[:size]


def one_file(room, formats, size):
    table, fronts = registry(room, formats)
    return match(table, room.file(f"file-{formats}-{size}", lambda: content(room.chance("file"), size, fronts)))


def many_files(room, size, count):
    (table, fronts), chance = registry(room, 1000), room.chance("files")
    paths = [room.file(f"files-{size}-{count}/{n}", lambda: content(chance, size, fronts)) for n in range(count)]
    return match(table, os.path.dirname(paths[0]))


def real(room):
    return room.file("real", lambda: subprocess.run(["sh", "-c", REAL], capture_output=True).stdout)


def common(room):
    folder = os.path.join(TOP, "examples", "common")
    return match([os.path.join(folder, f"{it}.csv") for it in ("signatures", "priorities")], real(room))


def either_case(text):
    return "".join(f"({ord(it.upper()):02X}|{ord(it):02X})" if it.isalpha() else f"{ord(it):02X}" for it in text)


def words(room, beginnings, count):
    """Pairs of a page's words in either case, anywhere, in which so many words come first."""
    with open(os.path.join(TOP, "docs", "FORMATS.md"), encoding="utf-8") as page:
        known, chance = sorted(set(re.findall("[a-z]{6,}", page.read()))), room.chance("words")
    first = chance.sample(known, beginnings)
    found = [chance.choice(first) + chance.choice(known) for _ in range(count)]
    table = room.table(f"words-{beginnings}-{count}", [f"Variable,,,{either_case(it)}" for it in found])
    return match(table, real(room), found)


def marks(room):
    """Two lines of a mail, at most 1,024 bytes apart."""
    rows = [f"Variable,,,0A{either_case(one)}{{0-1024}}0A{either_case(two)}" for one in MARKS for two in MARKS]
    return match(room.table("marks", rows), real(room))


# ---- tables that grow, and hostile ones

def many_rows(room, size, count):
    rows = [f"BOF,{n % 512},,{n // 256:02X}{n % 256:02X}??4142434445464748494A" for n in range(count)]
    return match(room.table(f"rows-{count}", rows), room.letters("A", size))


def ranked(room, reach, formats):
    """Formats that match every file, each over so many of the next, with the last pairs first."""
    pairs = [(h, l) for h in range(formats, 0, -1) for l in range(min(h + reach, formats), h, -1)]
    table = room.table(f"ranked-{reach}-{formats}", ["Variable,,,*"] * formats, pairs, each=1)
    return match(table, room.letters("A", 0))


def hostile(room, name, letters, size):
    (count, row), chance = HOSTILE[name], room.chance(name)
    rows = [re.sub("<(.)>", lambda it: "".join(f"{byte:02X}" for byte in chance.choices(NOT_41, k=int(it[1]))), row)
            for _ in range(count)]
    return match(room.table(name, rows), room.letters(letters, size))


# ---- subcommands that read no file but the table's

def ask(room, subcommand, kind, size=0):
    """A subcommand with its options, over a table of `tables.py`, or that of the desktop's MIME database."""
    folder = os.path.join(room.folder, f"{kind}-{size}")
    certificate, *table = (os.path.join(folder, it) for it in ("certificate", "signatures.csv", "priorities.csv"))
    if not os.path.exists(folder):
        if kind == "mime":
            open(DATABASE, "rb").close()
            quietly(sys.executable, os.path.join(TOP, "tools", "from_shared_mime_info.py"), DATABASE, folder)
        else:
            os.makedirs(folder)
            tables.make(kind, size, folder, room.seed)
    if subcommand == "find":
        return Request(["find", "--out", certificate + ".found", *table], table)
    if subcommand == "check":
        if not os.path.exists(certificate):
            quietly(room.program, "find", "--out", certificate, *table)
        return Request(["check", *table, certificate], table)
    return Request([*subcommand.split(), *(table[:1] if "--no-priorities" in subcommand else table)], table)


def quietly(*command):
    subprocess.run(command, check=True, stdout=subprocess.DEVNULL)


# ---- bases

def command_of(base, room, request, make, arguments):
    """The command of a row's base."""
    if base == "half":
        return [room.program, *make(room, *arguments[:-1], arguments[-1] // 2).arguments]
    if base == "registry":
        return [room.program, *match(registry(room, 1000)[0], request.matched).arguments]
    if base in ("find", "conflicts"):
        return [room.program, *ask(room, base, *arguments[1:]).arguments]
    if base == "dd":
        return ["dd", f"if={request.matched}", "of=/dev/null", "bs=256K", "status=none"]
    if base == "grep":
        listed = room.file(request.table[0] + ".words", lambda: "\n".join(request.words))
        return ["grep", "-c", "-a", "-i", "-F", "-f", listed, request.matched]
    rules = request.table[0] + ".rules"
    quietly("yarac", "-w", room.file(rules + ".text", lambda: yara_rules(request.table[0])), rules)
    return ["yara", "-p", "1", "-r", "-C", rules, request.matched]


def yara_rules(signatures):
    """A rule for each signature of a file without brackets and alternatives."""
    strings, conditions = {}, {}
    with open(signatures, encoding="ascii") as file:
        rows = [line.split(",") for line in file.read().splitlines()[1:]]
    for _, number, position, _, greatest, expression in rows:
        for at, part in enumerate(expression.split("*")):
            items, most = re.findall(r"[0-9A-F]{2}|\?\?|\{[0-9-]+\}", part), int(greatest or 0)
            name = f"$s{len(strings.setdefault(number, []))}"
            strings[number].append(f"{name} = {{ {' '.join(items).replace('{', '[').replace('}', ']')} }}")
            least = "0" if position == "BOF" else f"filesize-{len(items) + most}"
            where = f" in ({least}..{least}+{most})" if most else f" at {least}"
            conditions.setdefault(number, []).append(name if at or position == "Variable" else name + where)
    return "".join(f"rule s{it} {{ strings: {' '.join(strings[it])} condition: {' and '.join(conditions[it])} }}\n"
                   for it in strings)


# ---- the table: each row's name, base and bar, and what makes the request, whose last argument `half` halves

ROWS = [
    ("1,000 formats, 1 KiB", "yara", 1.0, one_file, 1000, KIB),
    *((f"{count:,} formats, 10 MiB", "yara", 0.25, one_file, count, 10 * MIB) for count in (50, 250, 1000)),
    ("1,000 formats, 256 MiB", "yara", 0.25, one_file, 1000, 256 * MIB),
    ("1,000 formats, 2,000 files of 16 KiB", "yara", 0.35, many_files, 16 * KIB, 2000),
    ("1,000 formats, 10,000 files of 1 KiB", "yara", 0.5, many_files, KIB, 10_000),
    ("examples/common, files of the machine", "dd", 2, common),
    ("lines of a mail, files of the machine", "dd", 8, marks),
    *((f"words in either case: {count}", "grep", bar, words, 100, count)
      for count, bar in [(1, 2), (5, 0.6), (20, 0.6), (100, 1.5)]),
    ("words in either case: 100, 12 beginnings", "grep", 8, words, 12, 100),
    ("growth: 256 MiB", "half", 2.6, one_file, 1000, 256 * MIB),
    *((f"growth: 4,000 signatures, {size >> 10} KiB", "half", 2.6, many_rows, size, 4000) for size in (0, MIB)),
    ("growth: 1,000 formats in a chain", "half", 2.6, ranked, 1, 1000),
    ("growth: 1,000 formats, over all later ones", "half", 9, ranked, 1000, 1000),
    *((f"hostile: {name}, {letters or 'random'}", "half", 2.6, hostile, name, letters, 256 * KIB)
      for name in HOSTILE for letters in (["AB"] if name == "deep" else ["A", ""])),
    *((f"slow: {name}, {letters or 'random'}", "registry", bar, hostile, name, letters, 256 * KIB)
      for name, letters, bar in [
          ("behind-open", "A", 40), ("behind-open", "", 40), ("spaced", "A", 40), ("spaced", "", 350),
          ("gap", "A", 1500), ("gap", "", 900), ("dense", "A", 800), ("long", "A", 300)]),
    *((f"find: {kind}, {size:,}", "half", bar, ask, "find", kind, size)
      for kind, size, bar in [("decided", 1000, 9), ("hard", 50, 5), ("alternatives", 220, 5)]),
    *((f"check: {kind}, {size:,}", "find", 1.1, ask, "check", kind, size)
      for kind, size in [("decided", 1000), ("mixed", 200), ("hard", 50), ("alternatives", 220)]),
    ("check: junk, 10,000", "half", 5, ask, "check", "junk", 10_000),
    ("conflicts: mixed, 200", "find", 1.5, ask, "conflicts", "mixed", 200),
    *((f"{subcommand}: MIME", "conflicts", bar, ask, subcommand, "mime")
      for subcommand, bar in [("conflicts --class", 1.6), ("conflicts --no-priorities", 1), ("dead", 0.4)]),
]


def run(command):
    """The processor seconds of a run, and what it printed: nothing if it did not end in time."""
    before = resource.getrusage(resource.RUSAGE_CHILDREN)
    try:
        done = subprocess.run(command, capture_output=True, timeout=LONGEST, env={**os.environ, "LC_ALL": "C"})
    except subprocess.TimeoutExpired:
        return LONGEST, None
    after = resource.getrusage(resource.RUSAGE_CHILDREN)
    if done.returncode not in (0, 1):
        sys.exit(f"{' '.join(command)[:200]}: status {done.returncode}: {done.stderr.decode()[:200]}")
    return after.ru_utime + after.ru_stime - before.ru_utime - before.ru_stime, done.stdout


def is_held(row, room, old, runs):
    """Measures a row, and prints its line. With OLD no request is measured twice."""
    name, base, bar, make, *arguments = row
    request = make(room, *arguments)
    if old and request.arguments in room.asked:
        return True
    room.asked.append(request.arguments)
    against = [old, *request.arguments] if old else command_of(base, room, request, make, arguments)
    base, bar = ("old", 1.1) if old else (base, bar)
    turns = [[run([room.program, *request.arguments]), run(against)] for _ in range(runs)]
    (took, said), (base_took, base_said) = (min(its, key=lambda it: it[0]) for its in zip(*turns))
    ratio, differ = took / max(base_took, 1e-6), old and said != base_said and None not in (said, base_said)
    verdict = "DIFFERENT LINES" if differ else "over" if ratio > bar or said is None else "ok"
    print(f"{name:43} {took:8.4f} {base:9} {base_took:8.4f} {ratio:8.2f} {bar:6} {verdict}", flush=True)
    return verdict == "ok"


def main():
    parser = argparse.ArgumentParser(description=__doc__, formatter_class=argparse.RawDescriptionHelpFormatter)
    parser.add_argument("program")
    parser.add_argument("words", nargs="*", metavar="WORD")
    parser.add_argument("--base", metavar="OLD")
    parser.add_argument("--runs", type=int, default=5)
    parser.add_argument("--seeds", type=int, nargs="+", default=[1])
    asked = parser.parse_intermixed_args()
    program, old, over = os.path.abspath(asked.program), asked.base and os.path.abspath(asked.base), 0
    for path in [program, old or program]:
        if not os.access(path, os.X_OK):
            sys.exit(f"no program {path}")
    for seed in asked.seeds:
        print(f"{f'seed {seed}':43} {'seconds':>8} {'base':9} {'seconds':>8} {'ratio':>8} {'bar':>6}")
        with tempfile.TemporaryDirectory() as folder:
            room = Room(folder, program, seed)
            for row in ROWS:
                try:
                    if not asked.words or any(it in row[0] or it == row[1] for it in asked.words):
                        over += not is_held(row, room, old, asked.runs)
                except FileNotFoundError as fault:
                    print(f"{row[0]:43} left out: no {fault.filename}", flush=True)
    return 1 if over else 0


if __name__ == "__main__":
    sys.exit(main())
