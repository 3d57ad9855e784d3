#!/usr/bin/env python3
"""Hostile certificates, tables, files and words, against the built program.

    python3 bench/hostile.py PROGRAM [SECONDS] [SEED]

First come certificates that were made by hand, each with the line that it must get; then cases from a
fixed seed, until SECONDS (60) are over: certificates, tables and files that are changed, cut, joined and
grown, and command lines that are mixed up. Each case starts the program anew. It finds an end by a
signal, a run without end, a status above 3, a fault that is not one line on standard error with nothing
on standard output, other output that the page on formats does not know, and refusals of tables, verdicts, formats left and results
of a search that differ from those of `plain_load.py`, `plain_check.py`, `page_check.py` and `plain_find.py`.

It prints counts. At the first failure it says what failed and where its files are, and ends with 1.
"""
import csv
import functools
import io
import os
import random
import re
import shutil
import subprocess
import sys
import tempfile
import time

sys.dont_write_bytecode = True
sys.path.insert(0, os.path.dirname(os.path.abspath(__file__)))

import page_check
import plain_check
import plain_classes
import plain_find
import plain_load
from compare import changes, guessed, random_rows
from tables import HEADER

TABLE_FILES = ("signatures.csv", "priorities.csv")
EXAMPLES = os.path.join(os.path.dirname(os.path.abspath(__file__)), "..", "examples")
PAIRS = "higher,lower\n"
LONGEST = 60  # seconds that a run may take
PUID = r"(x-)?fmt/[1-9]\d{0,8}"
COUNTS = r"pairs \d+ decided \d+ ambiguous"
ALIVE = rf"alive {PUID} [1-9]\d* \d+( [0-9a-f]+)?\n"
FATES = r"\d+ alive \d+ dead"
CLASS = "|".join(plain_classes.CLASSES)
OF_CLASSES = "".join(rf" {it} \d+" for it in plain_classes.CLASSES)
PAIR = rf"{PUID} {PUID} [1-9]\d* [1-9]\d*"
PAIR_LINE = rf"(ambiguous {PAIR} \d+( tried)?( ({CLASS}))?( ([0-9a-f][0-9a-f])+)?|unknown {PAIR})\n"
OF_FORMAT = rf"{PUID} \d+{OF_CLASSES} unknown \d+\n"
# What each subcommand may print, by its status.
SAID = {
    "match": {0: rf"({PUID} [1-9]\d*\n)*"},
    "show": {0: rf"{HEADER}(.*\n)*\n{PAIRS}({PUID},{PUID}\n)*"},
    "lint": {0: r"no fault\n(warning: [^\n]+\n)*"},
    "witness": {0: rf"ambiguous {PUID} {PUID}\n", 1: r"not ambiguous\n"},
    "check": {0: r"accepted\n", 1: r"refused C([1-9]|1[0-2]) [^\n]+\n"},
    "conflicts": {0: rf"({OF_FORMAT})*{COUNTS} 0 unknown 0({OF_CLASSES})?\n",
                  1: rf"(({PAIR_LINE})+|({OF_FORMAT})+){COUNTS} \d+ unknown \d+({OF_CLASSES})?\n"},
    "dead": {0: rf"({ALIVE})*formats {FATES} 0 unknown 0 signatures {FATES} 0 unknown 0\n",
             1: rf"((dead|unknown) {PUID}( [1-9]\d*)?\n|{ALIVE})+formats {FATES} \d+ unknown \d+ signatures {FATES} \d+ unknown \d+\n"},
    "find": {0: rf"(decided|witness {PUID} {PUID})\n([0-9a-f]*\n)?", 1: r"gave up [1-9]\d* [1-9]\d*\n"},
}
# What stands on standard error beside an answer.
TOLD = {("find", 1): r"(over 64 signatures outrank [1-9]\d* or [1-9]\d*: see conflicts|more than [1-9]\d* rows)\n"}
UNNAMED = "only: not in the table\n"
FAULTS = {
    2: rf"{UNNAMED}|" r"signatures: L2 header\n|priorities: L2 header\n|(signatures|priorities) row [1-9]\d*: L([3-9]|1[0-57]) [^\n]+\n",
    3: r"cannot open [^\n]*\n|read failed\n",
}


# ---- certificates made by hand

TWO = (HEADER + "fmt/1,1,BOF,0,,4142\nfmt/2,2,BOF,0,,4143\n", PAIRS)
BLOCKED = (HEADER + "fmt/1,1,BOF,0,,41??\nfmt/2,2,BOF,0,,??42\nfmt/3,3,BOF,0,,4142\n", PAIRS + "fmt/3,fmt/1\nfmt/3,fmt/2\n")
ONE_PAIR, THREE_PAIRS = "50534143 01 00000001 ", "50534143 01 00000003 "
OF_TWO = ONE_PAIR + "01 0000 00000002 00000000 00010001"
ROWS = "0000000001 0001000102 0002000204 0003000308 "
OF_BLOCKED = THREE_PAIRS + "01 0001 00000002 00000004 " + ROWS + "00 00"
EMPTY_SETS = "01 0001 00000002 00000003 0000000000 0001000100 0002000200 00 00"
TABLE = "pair 0 table 0"

BY_HAND = [
    # the two certificates that the others are made of
    (TWO, OF_TWO, "accepted"),
    (BLOCKED, OF_BLOCKED, "accepted"),
    # row counts whose product with the width is past 32 bits, or a small number of them
    (TWO, ONE_PAIR + "01 0000 40000000 00000000 00010001", "refused C12 truncated"),
    (TWO, ONE_PAIR + "01 0000 80000001 00000000 00010001", "refused C12 truncated"),
    (BLOCKED, THREE_PAIRS + "01 0001 00000002 33333334 " + ROWS + "00 00", "refused C12 truncated"),
    (BLOCKED, THREE_PAIRS + "01 0001 00000002 FFFFFFFF " + ROWS + "00 00", "refused C12 truncated"),
    # fewer rows than there are: the rest is judged as what follows
    (TWO, ONE_PAIR + "01 0000 00000000 00000000 00010001", f"refused C8 no start {TABLE}"),
    (BLOCKED, THREE_PAIRS + "01 0001 00000002 00000001 " + ROWS + "00 00", f"refused C10 not closed {TABLE} row 0 byte 41"),
    # blockers: no signature, twice the same, falling, over neither, more than there are
    (BLOCKED, THREE_PAIRS + "01 0001 FFFFFFFF 00000004 " + ROWS + "00 00", f"refused C5 blockers {TABLE}"),
    (BLOCKED, THREE_PAIRS + "01 0001 00000003 00000004 " + ROWS + "00 00", f"refused C5 blockers {TABLE}"),
    (BLOCKED, THREE_PAIRS + "01 0002 00000002 00000002 00000004 " + ROWS, f"refused C5 blockers {TABLE}"),
    (BLOCKED, THREE_PAIRS + "01 0002 00000002 00000001 00000004 " + ROWS, f"refused C5 blockers {TABLE}"),
    (BLOCKED, THREE_PAIRS + "01 0001 00000000 00000004 " + ROWS + "00 00", f"refused C5 blockers {TABLE}"),
    (BLOCKED, THREE_PAIRS + "01 0040 00000002 00000004 " + ROWS + "00 00", f"refused C5 blockers {TABLE}"),
    (BLOCKED, THREE_PAIRS + "01 FFFF 00000002 00000004 " + ROWS + "00 00", f"refused C5 blockers {TABLE}"),
    (BLOCKED, THREE_PAIRS + "01 0040 00000002", "refused C12 truncated"),
    # kinds: no kind, and the wrong one of each pair
    (TWO, ONE_PAIR + "02 0000 00000002 00000000 00010001", "refused C4 kind pair 0"),
    (TWO, ONE_PAIR + "00", "refused C4 kind pair 0"),
    (BLOCKED, THREE_PAIRS + "00 00 00", "refused C4 kind pair 0"),
    (BLOCKED, THREE_PAIRS + "01 0001 00000002 00000004 " + ROWS + "01 00", "refused C4 kind pair 1"),
    (BLOCKED, THREE_PAIRS + "01 0001 00000002 00000004 " + ROWS + "00 FF", "refused C4 kind pair 2"),
    # counts of pairs
    (TWO, "50534143 01 FFFFFFFF", "refused C3 pair count"),
    (TWO, "50534143 02 00000000", "refused C3 pair count"),
    (BLOCKED, OF_TWO, "refused C3 pair count"),
    # two faults: the first in the order of judging is told
    (TWO, "50534144 03 00000002", "refused C1 magic"),
    (TWO, "50534143 03 000000", "refused C2 version"),
    (TWO, ONE_PAIR + "01 0000 00000003 00010001 00000000 00040000", f"refused C6 row form {TABLE} row 2"),
    (TWO, ONE_PAIR + "01 0000 00000002 00020002 00010001", f"refused C7 row order {TABLE} row 1"),
    (TWO, ONE_PAIR + "01 0000 00000001 00020002", f"refused C8 no start {TABLE}"),
    (TWO, ONE_PAIR + "01 0000 00000002 00000000 00020002", f"refused C9 bad {TABLE} row 1"),
    (TWO, ONE_PAIR + "01 0000 00000001 00000000 00", f"refused C10 not closed {TABLE} row 0 byte 41"),
    # rows of other forms
    (TWO, ONE_PAIR + "01 0000 00000002 00000000 0000FFFF", f"refused C6 row form {TABLE} row 1"),
    (BLOCKED, THREE_PAIRS + "01 0001 00000002 00000004 0000000001 0001000102 0002000204 0003000318 00 00", f"refused C6 row form {TABLE} row 3"),
    # sets that are too small cover the start, and do not block
    (BLOCKED, THREE_PAIRS.replace(" 01 ", " 02 ") + EMPTY_SETS, f"refused C9 bad {TABLE} row 2"),
    (BLOCKED, THREE_PAIRS + EMPTY_SETS, f"refused C8 no start {TABLE}"),
    # two certificates, less than a field, nothing
    (BLOCKED, OF_BLOCKED + OF_BLOCKED, "refused C11 trailing"),
    (TWO, OF_TWO + "00" * 4096, "refused C11 trailing"),
    (TWO, "50534143", "refused C12 truncated"),
    (TWO, "505341", "refused C12 truncated"),
    (TWO, "41424344", "refused C1 magic"),
    (TWO, "", "refused C12 truncated"),
]


# ---- what cases are made of

# Pieces that mean something in a table, in a certificate, or on the command line.
WORDS = [b"*", b"??", b"{1}", b"{0-1}", b"{3-*}", b"{0-65535}", b"{65536}", b"{65534}", b"{2-1}", b"{0}", b"[41:5A]",
         b"[!41]", b"[4142:4241]", b"[!0000:FFFE]", b"[!00:FF]", b"[42:41]", b"[41:4142]", b"(41|4142)", b"(41|[43:44]45)",
         b"(41)", b"41", b"4", b"G", b",", b",,", b"\n", b"\r", b"\r\n", b"\"", b"\"\"", b"|", b"0", b"1", b"65535", b"65536",
         b"BOF", b"EOF", b"Variable", b"bof", b"fmt/1", b"fmt/2", b"x-fmt/1", b"fmt/0", b"fmt/9999999999", b"fmt/1,fmt/2\n",
         b"fmt/2,fmt/1\n", b"fmt/1,fmt/1\n", b"fmt/1,1,BOF,0,,41\n", b"fmt/9,9,Variable,,,4142\n", b"\xef\xbb\xbf", b"\0", b"\xff", b" ", b"#"]
# Items of expressions, some of them faulty.
ITEMS = [b"*", b"??", b"41", b"4a", b"{1}", b"{0-1}", b"{3-*}", b"{0-2}", b"{0-400}", b"[41:5A]", b"[!41]", b"[4142:4241]", b"[!41:42]",
         b"[!0000:FFFE]", b"(41|4142)", b"(41|[43:44]45|[!42])", b"{65535}", b"{65536}", b"{0}", b"{2-1}", b"[42:41]", b"[!00:FF]",
         b"[41:4142]", b"[!010203040506070809]", b"(41)", b"{01}", b"[41]", b"4", b"( 41|42)"]
NUMBERS = [bytes(4), b"\0\0\0\1", b"\0\0\0\2", b"\xff" * 4, b"\x7f\xff\xff\xff", b"\x80\0\0\0", b"\0\1", b"\0\x40", b"\0\x41",
           b"\xff\xff", b"\0", b"\1", b"\2", b"PSAC"]


def piece(chance, data):
    """Some part of the bytes."""
    length = min(len(data), chance.choice([1, 1, 2, 4, 5, 8, 16, 64]))
    at = chance.randrange(len(data) - length + 1)
    return data[at:at + length]


def changed(chance, data, words, others):
    """The bytes with one change: a byte, a bit, a cut, a part out, twice, often, a word in, joined with others."""
    at, part, kind = chance.randrange(len(data) + 1), piece(chance, data), chance.randrange(10)
    if kind == 0:
        return data[:at] + bytes([chance.randrange(256)]) + data[at + 1:]
    if kind == 1 and at < len(data):
        return data[:at] + bytes([data[at] ^ 1 << chance.randrange(8)]) + data[at + 1:]
    if kind == 2:
        return data[:at] if chance.random() < 0.5 else data[at:]
    if kind == 3:
        return data[:at] + data[at + len(part):]
    if kind == 4:
        return data[:at] + part + data[at:]
    if kind == 5:
        return data[:at] + part * chance.choice([2, 3, 9, 65, 300]) + data[at:]
    if kind == 6:
        return data[:at] + chance.choice(others) + data[at:]
    if kind == 7:
        word = chance.choice(words)
        return data[:at] + word + data[at + len(word):]
    return data[:at] + chance.choice(words) + data[at:]


def many(chance, data, words, others):
    """One to four changes."""
    for _ in range(chance.choice([1, 1, 1, 2, 4])):
        data = changed(chance, data, words, others)
    return data


def changed_items(chance, text):
    """The expression with one item put in, put in the place of another, or taken out."""
    items = re.findall(rb"\*|\?\?|\{[^}]*\}|\[[^\]]*\]|\([^)]*\)|..|.", text)
    at = chance.randrange(len(items) + 1)
    new = [] if chance.random() < 0.2 else [chance.choice(ITEMS)]
    return b"".join(items[:at] + new + items[at + chance.randrange(2):])


def changed_row(chance, text, others):
    """The table file with one change within one of its rows, so that many tables load still."""
    lines = text.split(b"\n")
    at = chance.randrange(1, len(lines)) if len(lines) > 2 else 0
    fields, kind = lines[at].split(b","), chance.randrange(8)
    if kind < 4 and len(fields) == 6:
        fields[5] = changed_items(chance, fields[5])
    elif kind == 4:
        return b"\n".join(lines[:at] + [lines[at]] * chance.choice([2, 7, 8, 9]) + lines[at + 1:])
    elif kind == 5:
        other = chance.choice(lines[1:]).split(b",")
        fields[0] = other[chance.randrange(len(other))]
    else:
        place = chance.randrange(len(fields))
        fields[place] = changed(chance, fields[place], WORDS, others)
    return b"\n".join(lines[:at] + [b",".join(fields)] + lines[at + 1:])


class Seed:
    """A table that loads, and certificates for it or of its form."""

    def __init__(self, signatures, priorities):
        self.signatures, self.priorities = signatures.encode(), priorities.encode()
        rows, pairs = ([line.split(",") for line in text.splitlines()[1:]] for text in (signatures, priorities))
        self.table = plain_check.table_of(rows, pairs)
        found = [plain_find.find(self.table, 300, version) for version in (1, 2)]
        self.certificates = [data for said, data in found if said == "decided"] or [guessed(self.table)]


def random_seed(chance):
    rows, pairs = random_rows(chance)
    return Seed(HEADER + "".join(",".join(row) + "\n" for row in rows), PAIRS + "".join(",".join(pair) + "\n" for pair in pairs))


def example(name, signatures="signatures.csv", priorities="priorities.csv"):
    def text(file):
        with open(os.path.join(EXAMPLES, name, file)) as f:
            return f.read()
    return Seed(text(signatures), text(priorities))


def common():
    """The two files of the large example, as bytes."""
    for file in TABLE_FILES:
        with open(os.path.join(EXAMPLES, "common", file), "rb") as f:
            yield f.read()


def samples():
    folder = os.path.join(EXAMPLES, "common", "samples")
    for name in sorted(os.listdir(folder)):
        with open(os.path.join(folder, name), "rb") as f:
            yield f.read()


# ---- runs

class Failed(Exception):
    """What the program did and must not do."""


class Runs:
    def __init__(self, program, folder):
        self.program, self.folder, self.counts, self.runs, self.slowest = program, folder, {}, 0, (0, "")
        self.refusal = None

    def put(self, name, data):
        with open(os.path.join(self.folder, name), "wb") as f:
            f.write(data)

    def put_table(self, signatures, priorities):
        """Writes the table that the next runs are of; the plain judge says whether it loads."""
        self.put("signatures.csv", signatures)
        self.put("priorities.csv", priorities)
        self.refusal = refusal(signatures, priorities)

    def read(self, name):
        with open(os.path.join(self.folder, name), "rb") as f:
            return f.read()

    def clear(self, name):
        if os.path.exists(os.path.join(self.folder, name)):
            os.remove(os.path.join(self.folder, name))

    def run(self, *words):
        """The status, the output and the error output, once they are found to be of a specified form."""
        begin = time.monotonic()
        try:
            done = subprocess.run([self.program, *words], cwd=self.folder, capture_output=True, timeout=LONGEST)
        except subprocess.TimeoutExpired:
            raise Failed(f"{words}: no end in {LONGEST} seconds")
        self.runs += 1
        self.slowest = max(self.slowest, (time.monotonic() - begin, " ".join(map(str, words))))
        answer = done.returncode, done.stdout.decode("latin-1"), done.stderr.decode("latin-1")
        broken = broken_rule(words, *answer)
        if broken:
            raise Failed(f"{words}: {broken}: {answer}")
        told = "" if (words[0], answer[0]) in TOLD or ("--only" in words and answer[2] == UNNAMED) else answer[2]
        if TABLE_FILES[0] in words and told != (self.refusal + "\n" if self.refusal else ""):
            raise Failed(f"{words}: {answer}, and the plain judge of tables says {self.refusal}")
        return answer

    def count(self, kind, said):
        self.counts[kind, said] = self.counts.get((kind, said), 0) + 1


@functools.lru_cache(256)
def refusal(signatures, priorities):
    return plain_load.refusal(signatures, priorities)


def broken_rule(words, status, out, err):
    """The rule that an answer breaks, or None."""
    if status < 0:
        return f"ended by the signal {-status}"
    if status > 3:
        return "a status that is not specified"
    said = SAID.get(words[0], {}).get(status) if words else None
    if said and re.fullmatch(said, out) and re.fullmatch(TOLD.get((words[0], status), ""), err):
        return None
    if out != "":
        return "an output that is not specified"
    if status in FAULTS and re.fullmatch(FAULTS[status], err):
        return None
    return "a fault that is not one line of a specified form"


def named(answer):
    """What an answer is counted as."""
    status, out, err = answer
    words = (out or err).split()
    if status in (2, 3):
        return re.sub(r" row \d+", "", err).split(" at ")[0].strip() if "L" in err else " ".join(words[:2])
    return " ".join(words[:2]) if words and words[0] in ("refused", "not", "gave") else (words or ["nothing"])[0].split("/")[0]


# ---- cases

def is_plain(signatures):
    """Whether the plain programs can be asked of the table: it is small, and so are its gaps."""
    return len(signatures) < 3000 and not re.search(rb"\d{4}", re.sub(rb"[0-9A-Fa-f]{2}(?=[0-9A-Fa-f:|)\]\n])", b"", signatures))


def judged(runs, kind, signatures, priorities, certificate):
    """`check`; where the table loads, the plain checkers have the same verdict."""
    runs.put("certificate", certificate)
    answer = runs.run("check", *TABLE_FILES, "certificate")
    runs.count(kind, named(answer))
    if answer[0] < 2 and is_plain(signatures) and len(certificate) < 20_000:
        paths = [os.path.join(runs.folder, name) for name in TABLE_FILES]
        plain = plain_check.check(plain_check.read_table(*paths), certificate)
        page = page_check.verdict(*(data.removeprefix(b"\xef\xbb\xbf") for data in (signatures, priorities)), certificate)
        if not answer[1] == plain + "\n" == page + "\n":
            raise Failed(f"check says {answer[1]!r}, the plain checkers {plain!r} and {page!r}")
        runs.count("verdicts of three checkers that agree", "")


def told_of(answers, progress, summary):
    """What standard error has of files: `answers` are the number of lines and of bytes, or the message, of each."""
    told, counts, read = "\r0 files" * progress, [0, 0, 0, 0], 0
    for done, (lines, size) in enumerate(answers, 1):
        report = f"\r{done} files" * progress
        if isinstance(lines, str):
            told += "\n" * progress + lines + report
            counts[3] += 1
        else:
            told += report if done < 100 or done % 100 == 0 else ""
            counts[(2, 0)[lines] if lines < 2 else 1] += 1
            read += size
    told += "\n" * progress
    if summary:
        told += "files {} identified {} several {} none {} failed {} bytes {}\n".format(sum(counts), *counts, read)
    return told


def listed(runs, kind, chance, file):
    """Of files whose names stand in a list, the records are those of each alone, and the others have a message."""
    odd, deep = 'a,"b"\nc', "folder/deep/a"
    os.makedirs(os.path.join(runs.folder, "folder/deep"), exist_ok=True)
    for name, data in (("file", file), (odd, file[1:]), (deep, file[2:])):
        runs.put(name, data)
    names = [chance.choice(["file", odd, "folder", "none", "", "\udcff"]) for _ in range(chance.randrange(6))]
    runs.put("names", "".join(name + "\0" for name in names).encode("utf-8", "surrogateescape"))
    alone = {name: runs.run("match", *TABLE_FILES, name) for name in ("file", odd, deep)}
    recursive, progress, summary, by_input = (chance.random() < 0.5 for _ in range(4))
    words = ["match", "--csv", "-0", "--files-from", "-" if by_input else "names", *TABLE_FILES]
    words += ["--recursive"] * recursive + ["--progress"] * progress + ["--summary"] * summary
    with open(os.path.join(runs.folder, "names"), "rb") as given:
        done = subprocess.run([runs.program, *words], cwd=runs.folder, stdin=given, capture_output=True, timeout=LONGEST)
    runs.runs += 1
    runs.count(kind, f"status {done.returncode}")
    out, err = (it.decode("utf-8", "surrogateescape") for it in (done.stdout, done.stderr))
    if alone["file"][0] != 0:
        wanted = alone["file"]
    else:
        rows, answers = [["file", "puid", "signature", "name"]], []
        for name in [deep if name == "folder" and recursive else name for name in names]:
            if name in alone:
                lines = alone[name][1].splitlines()
                rows += [[name, *line.split(), ""] for line in lines] or [[name, "", "", ""]]
                answers.append((len(lines), os.path.getsize(os.path.join(runs.folder, name))))
            else:
                answers.append(("folder: is a folder\n" if name == "folder" else f"cannot open {name}\n", 0))
        status = 3 if any(isinstance(it[0], str) for it in answers) else 0
        out, wanted = list(csv.reader(io.StringIO(out, newline=""))), (status, rows, told_of(answers, progress, summary))
    if (done.returncode, out, err) != wanted:
        raise Failed(f"{words} of {names}: {(done.returncode, out, err)}, and each alone {alone}")


def matched(runs, kind, signatures, file, wants_plain=True):
    """`match`, `match --all` and `witness` agree, and with the plain formats left."""
    runs.put("file", file)
    left = runs.run("match", *TABLE_FILES, "file")
    every = runs.run("match", "--all", *TABLE_FILES, "file")
    asked = runs.run("witness", *TABLE_FILES, "file")
    runs.count(kind, named(left))
    if left[0] > 1:
        if not left == every == asked:
            raise Failed(f"three faults of one table: {left} {every} {asked}")
        return
    lines = left[1].splitlines()
    wanted = "ambiguous " + " ".join(line.split()[0] for line in lines[:2]) if len(lines) > 1 else "not ambiguous"
    if asked[1] != wanted + "\n" or not set(lines) <= set(every[1].splitlines()) or bool(every[1]) != bool(lines):
        raise Failed(f"match, match --all and witness differ: {left} {every} {asked}")
    if wants_plain and is_plain(signatures) and len(file) < 300:
        table = plain_check.read_table(*(os.path.join(runs.folder, name) for name in TABLE_FILES))
        plain = [table.puids[i] for i in plain_find.left(table, file)]
        if [line.split()[0] for line in lines] != plain:
            raise Failed(f"match leaves {lines}, the plain formats left are {plain}")
        runs.count("formats left that agree with the plain ones", "")


def searched(runs, kind, signatures, budget):
    """`find`; what it writes is a closed certificate, or a file that leaves the two formats."""
    runs.clear("out")
    answer = runs.run("find", "--budget", str(budget), "--out", "out", *TABLE_FILES)
    runs.count(kind, named(answer))
    if answer[0] > 0:
        if os.path.exists(os.path.join(runs.folder, "out")):
            raise Failed(f"find wrote OUT with {answer}")
        reasons = f"over 64 signatures outrank {' or '.join(answer[1].split()[2:])}: see conflicts\n", f"more than {budget} rows\n"
        if answer[0] == 1 and answer[2] not in reasons:
            raise Failed(f"find tells of other signatures, or of another budget: {answer}")
        return
    if answer[1] == "decided\n":
        if runs.run("check", *TABLE_FILES, "out")[1] != "accepted\n":
            raise Failed("check refuses what find wrote")
        if is_plain(signatures):
            judged(runs, "certificates that find wrote", signatures, runs.read("priorities.csv"), runs.read("out"))
        return
    lines = runs.run("match", *TABLE_FILES, "out")[1].splitlines()
    if not set(answer[1].split()[1:]) <= {line.split()[0] for line in lines}:
        raise Failed(f"find says {answer[1]!r}, and match leaves {lines}")


def settled(runs, chance, kind, budget):
    """`conflicts`; the file of a line leaves its two formats, no line stands where `find` says decided, and some where it has a file; with other flags it prints what its lines say."""
    words = ["conflicts", "--budget", str(budget)]
    answer = runs.run(*words, "--class", "--hex", *TABLE_FILES)
    runs.count(kind, named(answer))
    if answer[0] > 1:
        # the fault of the table comes before that of the format
        if runs.run(*words, "--only", "fmt/999", *TABLE_FILES) != answer:
            raise Failed(f"conflicts --only has another fault than {answer}")
        return
    *texts, last = answer[1].splitlines()
    found = [plain_classes.read(text) for text in texts]
    if None in found:
        raise Failed(f"conflicts --class has a line of another form: {answer}")
    table, lines = plain_check.read_table(*(os.path.join(runs.folder, name) for name in TABLE_FILES)), [line for line, _ in found]
    formats = range(len(table.puids))
    unrelated = [(table.puids[i], table.puids[j]) for i in formats for j in formats if i < j and not table.related(i, j)]
    if last != plain_classes.last_line(len(unrelated), lines) or not {line.formats for line in lines} <= set(unrelated):
        raise Failed(f"the lines are of other pairs than those of the table, or counted otherwise: {answer}")
    for line, file in [it for it in found if it[0].kind == "ambiguous"][:5]:
        runs.put("file", file)
        left = {it.split()[0] for it in runs.run("match", *TABLE_FILES, "file")[1].splitlines()}
        if len(file) != line.length or not (line.is_tried or len(file) < budget) or not set(line.formats) <= left:
            raise Failed(f"conflicts says {line} {file} within {budget} rows, and match leaves {left}")
    viewed(runs, chance, words, unrelated, lines, table.puids)
    runs.clear("out")
    found = runs.run("find", "--budget", str(budget), "--out", "out", *TABLE_FILES)
    # where `find` gives up, `conflicts` may settle all pairs: by different bytes at one offset, or by a dead signature
    if found[0] == 0 and (answer[0] == 0) != (found[1] == "decided\n"):
        raise Failed(f"find and conflicts differ: {found} {answer}")


def viewed(runs, chance, words, unrelated, lines, puids):
    """`conflicts` with other flags prints what these lines say, and refuses a format that is not in the table."""
    only = chance.choice([*puids, "fmt/999", "fmt/01", "x", ""])
    if only not in puids:
        said, wanted = runs.run(*words, "--only", only, *TABLE_FILES), (2, "", UNNAMED)
        runs.count("conflicts --only with no format of the table", "")
    else:
        flags, printed, status = chance.choice(list(plain_classes.views(puids, unrelated, lines, only)))
        said, wanted = runs.run(*words, *flags, *TABLE_FILES), (status, "".join(line + "\n" for line in printed), "")
        runs.count("conflicts by its own lines", " ".join(it for it in flags if it.startswith("--")) or "no flag")
    if said != wanted:
        raise Failed(f"conflicts says {said}, and by its own lines {wanted}")


def lived(runs, kind, signatures, budget):
    """`dead`; the file of a line leaves its format and none that is called dead, and lines and counts are those of the table."""
    answer = runs.run("dead", "--hex", "--budget", str(budget), *TABLE_FILES)
    runs.count(kind, named(answer))
    if answer[0] > 1:
        return
    *lines, last = [line.split() for line in answer[1].splitlines()]
    if is_plain(signatures):
        table = plain_check.read_table(*(os.path.join(runs.folder, name) for name in TABLE_FILES))
        if not are_lives(table, lines, last) or (answer[0] == 0) != all(words[0] == "alive" for words in lines):
            raise Failed(f"dead has other lines, other counts or another status: {answer}")
        runs.count("lines of dead that are those of the table", "")
    dead = {words[1] for words in lines if words[0] == "dead" and len(words) == 2}
    for words in [words for words in lines if words[0] == "alive"][:5]:
        file = bytes.fromhex("".join(words[4:]))
        runs.put("file", file)
        left = {line.split()[0] for line in runs.run("match", *TABLE_FILES, "file")[1].splitlines()}
        if len(file) != int(words[3]) or len(file) >= budget or words[1] not in left or left & dead:
            raise Failed(f"dead says {words} and {dead}, and match leaves {left}")


def are_lives(table, lines, last):
    """Whether lines of `dead --hex` stand for each format of the table, or for each of its signatures, in order, and are counted."""
    fates = {tuple(words[1:min(len(words), 3)]): words[0] for words in lines}
    order, of_formats, of_signatures = [], [], []
    for format, puid in enumerate(table.puids):
        keys = [(puid, str(table.signatures[it].number)) for it in table.signatures_of(format)]
        if (puid,) in fates:
            order.append((puid,))
            of_formats.append(fates[puid,])
        else:
            order += keys
            of_formats.append("alive" if "alive" in [fates.get(key) for key in keys] else "none")
            of_signatures += [fates.get(key) for key in keys]
    kinds = ("alive", "dead", "unknown")
    counts = [int(word) for word in last[1::2]]
    return (list(fates) == order and len(lines) == len(order)
            and counts[:4] == [len(table.puids), *(of_formats.count(kind) for kind in kinds)]
            and counts[4] == len(table.signatures) == sum(counts[5:]) and counts[5] == of_signatures.count("alive")
            and all(least <= count for least, count in zip((of_signatures.count(kind) for kind in kinds), counts[5:])))


def shown(runs, kind):
    """`show`, and what it shows is a table that is shown as itself."""
    answer = runs.run("show", *TABLE_FILES)
    runs.count(kind, named(answer))
    if answer[0] == 0:
        halves = answer[1].split("\n\n")
        runs.put("shown.csv", halves[0].encode() + b"\n")
        runs.put("shown_pairs.csv", halves[1].encode())
        if runs.run("show", "shown.csv", "shown_pairs.csv") != answer:
            raise Failed("what is shown is shown otherwise")


LINTED = re.compile(r"(signatures|priorities) line [1-9]\d*( row [1-9]\d*)?: (L([2-9]|1[0-57]) [^\n:]+): [a-z_]+ \"[^\n]*\"( at \d+)?: expected [^\n]+\n")


def linted(runs, kind):
    """`lint`: `no fault` of a table that loads, and else lines of faults, the first of which `show` answers."""
    runs.runs += 1
    done = subprocess.run([runs.program, "lint", *TABLE_FILES], cwd=runs.folder, capture_output=True, timeout=LONGEST)
    status, out, err = done.returncode, done.stdout.decode("latin-1"), done.stderr.decode("latin-1")
    runs.count(kind, f"lint: status {status}")
    lines = out.splitlines(True)
    if not runs.refusal:
        if (status, err) != (0, "") or not re.fullmatch(SAID["lint"][0], out):
            raise Failed(f"lint: {(status, out, err)} of a table that loads")
        return
    found = [LINTED.fullmatch(line) for line in lines]
    if (status, err) != (2, "") or not found or not all(found):
        raise Failed(f"lint: {(status, out, err)}, and the plain judge of tables says {runs.refusal}")
    if f"{found[0][1]}{found[0][2] or ''}: {found[0][3]}" != runs.refusal:
        raise Failed(f"lint: {lines[0]}, and the plain judge of tables says {runs.refusal}")


def words_case(runs, chance):
    """A command line that is mixed up. A usage fault has some lines, and each other answer its form."""
    words = [chance.choice(["match", "show", "lint", "check", "witness", "find", "conflicts", "dead", "--all", "--with-names", "--csv", "--names", "--files-from", "-0", "--out", "--budget",
                            "--hex", "--progress", "--summary", "--class", "--only", "--no-priorities", "fmt/1", "0", "1", "4294967296", "-1", "--", "-", "", "none", "signatures.csv", "priorities.csv", "certificate",
                            "--al", "match=1", "/", "n\u00e4me", "a\x1bb"]) for _ in range(chance.randrange(7))]
    words = [word.encode() if chance.random() < 0.9 else word.encode() + b"\xff" for word in words]
    runs.clear("out")
    done = subprocess.run([runs.program, *words], cwd=runs.folder, stdin=subprocess.DEVNULL, capture_output=True, timeout=LONGEST)
    runs.runs += 1
    runs.count("command lines", f"status {done.returncode}")
    err = re.sub(rb"\A(\r\d+ of \d+ (products|pairs|formats))+\n|\r\d+ files\n?", b"", done.stderr) if b"--progress" in words else done.stderr
    if b"match" in words and b"--summary" in words:
        err = re.sub(rb"files \d+ identified \d+ several \d+ none \d+ failed \d+ bytes \d+\n\Z", b"", err)
    if words[:1] == [b"find"] and done.returncode == 1:
        err = re.sub(rf"\A{TOLD['find', 1]}\Z".encode(), b"", err)
    is_fault = done.returncode in (2, 3) and done.stdout == b"" and err.endswith(b"\n")
    is_line = err.count(b"\n") == 1 or err.startswith(b"error: ") or err.startswith(b"Usage")
    if words[:1] == [b"lint"] and (done.returncode, err) == (2, b"") and LINTED.match(done.stdout.decode("latin-1")):
        return
    if not (is_fault and is_line or done.returncode in (0, 1) and done.stdout != b"" and err == b""):
        if not (done.returncode == 0 and b"match" in words):
            raise Failed(f"{words}: {done.returncode} {done.stdout} {done.stderr}")


class Cases:
    """One case after the other, all from one seed."""

    def __init__(self, runs, chance):
        self.runs, self.chance = runs, chance
        self.seeds = [Seed(*TWO), Seed(*BLOCKED), Seed(HEADER, PAIRS), example("first"), example("one_blocker"), example("seven_formats"),
                      example("seven_formats", "loose.csv", "none.csv")] + [random_seed(chance) for _ in range(40)]
        self.texts = [seed.signatures for seed in self.seeds] + [seed.priorities for seed in self.seeds]
        self.certificates = [data for seed in self.seeds for data in seed.certificates if len(data) < 4000]
        self.files = list(samples()) + [b"", b"A", b"AB", b"ABC", b"AAAABBBB", b"\0" * 300]

    def changed_table(self, seed):
        """The table with a change in one of its files; with most, the changed file loads still."""
        chance, files = self.chance, [seed.signatures, seed.priorities]
        which = chance.choice([0, 0, 0, 1])
        if chance.random() < 0.75:
            files[which] = changed_row(chance, files[which], [b"41", b"*"])
        else:
            files[which] = many(chance, files[which], WORDS, self.texts)
        if chance.random() < 0.02:
            files[which] = b"\xef\xbb\xbf" + files[which]
        return files

    def file(self):
        """A file: letters that the tables ask for, or a sample that was changed."""
        chance = self.chance
        if chance.random() < 0.5:
            return bytes(chance.choice(b"ABCD\0") for _ in range(chance.randrange(12)))
        return many(chance, chance.choice(self.files), WORDS, self.files)

    def certificate(self):
        seed = self.chance.choice(self.seeds)
        self.runs.put_table(seed.signatures, seed.priorities)
        data = self.chance.choice(seed.certificates)
        if self.chance.random() < 0.4:
            data = list(changes(self.chance, data, 1))[1]
        else:
            data = many(self.chance, data, NUMBERS, self.certificates)
        judged(self.runs, "certificates", seed.signatures, seed.priorities, data)

    def table(self):
        chance, seed = self.chance, self.chance.choice(self.seeds)
        signatures, priorities = self.changed_table(seed)
        self.runs.put_table(signatures, priorities)
        kind = chance.randrange(6)
        if kind == 0:
            matched(self.runs, "tables, match", signatures, self.file())
        elif kind == 1:
            shown(self.runs, "tables, show")
            linted(self.runs, "tables, lint")
        elif kind == 2:
            judged(self.runs, "tables, check", signatures, priorities, chance.choice(seed.certificates))
        elif kind == 3:
            searched(self.runs, "tables, find", signatures, chance.choice([1, 2, 10, 300]))
        elif kind == 4:
            settled(self.runs, chance, "tables, conflicts", chance.choice([1, 2, 10, 300]))
        else:
            lived(self.runs, "tables, dead", signatures, chance.choice([1, 2, 10, 300]))

    def matching(self):
        seed = self.chance.choice(self.seeds)
        self.runs.put_table(seed.signatures, seed.priorities)
        if self.chance.random() < 0.3:
            listed(self.runs, "lists of names", self.chance, self.file())
        else:
            matched(self.runs, "files", seed.signatures, self.file())

    def search(self):
        seed = random_seed(self.chance)
        self.runs.put_table(seed.signatures, seed.priorities)
        searched(self.runs, "searches", seed.signatures, self.chance.choice([1, 3, 10, 50, 300, 2000]))
        settled(self.runs, self.chance, "searches of all pairs", self.chance.choice([1, 3, 10, 50, 300, 2000]))
        lived(self.runs, "searches of all formats", seed.signatures, self.chance.choice([1, 3, 10, 50, 300, 2000]))

    def words(self):
        words_case(self.runs, self.chance)

    def large(self):
        """A large table, a large file, or a large certificate; the plain programs are not asked."""
        chance, seed, kind = self.chance, self.chance.choice(self.seeds), self.chance.randrange(5)
        self.runs.put_table(seed.signatures, seed.priorities)
        if kind == 0:
            matched(self.runs, "large files", seed.signatures, piece(chance, chance.choice(self.files) or b"A") * 20_000, False)
        elif kind == 1:
            grown = piece(chance, chance.choice(seed.certificates)) * chance.choice([100, 5000, 50_000])
            data = chance.choice(seed.certificates)
            at = chance.randrange(len(data) + 1)
            judged(self.runs, "large certificates", seed.signatures, seed.priorities, data[:at] + grown + data[at:])
        elif kind == 2:
            most, count = chance.choice([(1100, 900), (900, 3900), (900, 4100), (9000, 1500)])
            rows = "".join(f"fmt/{chance.randrange(1, most)},{n},BOF,{chance.randrange(9)},,{chance.randrange(256):02X}\n" for n in range(1, count))
            self.runs.put_table(HEADER.encode() + rows.encode(), b"higher,lower\n")
            matched(self.runs, "large tables", rows.encode(), self.file(), False)
        elif kind == 3:
            signatures, priorities = common()
            signatures = changed_row(chance, signatures, [b"41", b"*"])
            self.runs.put_table(signatures, priorities)
            matched(self.runs, "common formats, changed, match", signatures, self.file(), False)
            searched(self.runs, "common formats, changed, find", signatures, 300)
        else:
            item = chance.choice(["{0-2000}", "*41", "(41|42|4343)", "[4142:5152]", "??", "41{0-50}"])
            place = chance.choice(["Variable,,", "EOF,0,60000", "BOF,0,"])
            row = f"fmt/1,1,{place},{item * chance.randrange(1, 40)}\n"
            self.runs.put_table(HEADER.encode() + row.encode(), b"higher,lower\n")
            matched(self.runs, "long expressions", row.encode(), self.file() * 50, False)

    def next(self):
        kinds = [self.certificate] * 50 + [self.table] * 28 + [self.matching] * 10 + [self.search] * 3 + [self.words] * 5 + [self.large]
        self.chance.choice(kinds)()


def by_hand(runs):
    for (signatures, priorities), text, line in BY_HAND:
        runs.put_table(signatures.encode(), priorities.encode())
        judged(runs, "certificates made by hand", signatures.encode(), priorities.encode(), bytes.fromhex(text))
        said = runs.run("check", *TABLE_FILES, "certificate")[1]
        if said != line + "\n":
            raise Failed(f"{text}: {said!r}, and by hand {line!r}")


def main():
    if len(sys.argv) not in (2, 3, 4):
        sys.exit(__doc__)
    program = os.path.abspath(sys.argv[1])
    seconds, seed = (int(word) for word in (sys.argv[2:] + ["60", "1"][len(sys.argv) - 2:]))
    # files in memory, where the system has such: most of the time would go into making them
    within = "/dev/shm" if os.access("/dev/shm", os.W_OK) else None
    begin, folder = time.monotonic(), tempfile.mkdtemp(prefix="hostile-", dir=within)
    runs, done = Runs(program, folder), 0
    try:
        by_hand(runs)
        cases = Cases(runs, random.Random(seed))
        while time.monotonic() - begin < seconds:
            cases.next()
            done += 1
    except Exception as failure:
        print(f"hostile: case {done} of seed {seed}, files in {folder}: {failure}", file=sys.stderr)
        if not isinstance(failure, Failed):
            raise
        sys.exit(1)
    shutil.rmtree(folder)
    for (kind, said), count in sorted(runs.counts.items()):
        print(f"  {count:6} {kind}{': ' if said else ''}{said}")
    print(f"hostile: {len(BY_HAND)} certificates made by hand and {done} cases of seed {seed}, {runs.runs} runs, none fails; "
          f"the slowest took {runs.slowest[0]:.2f} s: {runs.slowest[1]}")


if __name__ == "__main__":
    main()
