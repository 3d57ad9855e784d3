#!/usr/bin/env python3
"""Each growth, each read, each write and each opening refused in turn, over the built program and the built tests.

    python3 bench/refusals.py PROGRAM [TESTS]

PROGRAM is the built `pronom_sig`, which takes its memory by `malloc` and `realloc` of the C library and
does its reads and writes by `read` and `write`. A small library that is loaded before it (made here with
`cc`) counts these calls and refuses one of them, or that one and all later: the first, the second, and so
on, until a run meets no refusal. What each command must answer with ample memory was worked out by hand.

- Growths: the answer is the one with ample memory, or status 3, the line `out of memory` on standard
  error and nothing on standard output; `find` then makes no OUT. Of `conflicts` and `dead` whole lines from the
  front may stand, and not the last one.
- Reads, whole and in pieces of one byte: status 3 and `read failed`, with nothing on standard output.
- Openings: status 3 and `cannot open NAME`, with the name that was refused.
- Writes, whole and in pieces of one byte: status 3 and `write failed`, behind nothing more on standard
  output than the front of the answer; where the write was to OUT, nothing.
- Pieces of one byte alone change nothing.
- With `--progress` a front of the reports, ended by a line feed, may stand before the line of a fault.
- `match` of two files: what fails before them is told as above. Later, one refusal leaves the lines of the
  one file and the fault line of the other (`NAME: out of memory`, `NAME: read failed`, `cannot open NAME`) with
  status 3; with all later growths refused as well, each file from the first fault on has its line. What
  is made for many files lacks memory without a fault. Each of these ends has to come, and a failed write ends the run.

TESTS is the program of tests of `refused_tests` that the gate built. Each of its tests makes one library call,
and opens a file of a special name before and behind it: only growths between the two are counted and refused. So what a test sets up has its memory, and every run has to pass: the call answers its want
of memory or what it answers with ample memory, and the next such call is right. By its name a test
`.._lacks_memory_or_is_right` must have growths to refuse, and a test `.._takes_no_memory..` none.

It prints how many of each there were, and ends with 1 if an answer is another one.
"""
import os
import shutil
import struct
import subprocess
import sys
import tempfile

sys.dont_write_bytecode = True
sys.path.insert(0, os.path.dirname(os.path.abspath(__file__)))

import plain_find
from hostile import BLOCKED, OF_BLOCKED, OF_TWO, ONE_PAIR, TWO
from plain_check import read_table
from tables import HEADER

LIBRARY = r"""
#define _GNU_SOURCE
#include <errno.h>
#include <fcntl.h>
#include <stdarg.h>
#include <stdlib.h>
#include <string.h>
#include <sys/mman.h>
#include <sys/syscall.h>
#include <unistd.h>

extern void *__libc_malloc(size_t);
extern void *__libc_calloc(size_t, size_t);
extern void *__libc_realloc(void *, size_t);

enum { GROWTH, READ, WRITE, OPEN, KINDS, BEGINS, ENDS };

/* How many calls of each kind there were, how many were refused, and how often each mark was met. */
static long *tally;
static int kind;
static long place;
static int goes_on, in_pieces;
/* Whether calls are counted: with marks, only behind the opening of the first and before that of the second. */
static int marked, outside;

/* REFUSE is: a kind, a place from 1 on or 0 for none, whether all later ones too, whether in pieces, and
   whether between the marks alone. */
__attribute__((constructor)) static void begin(void) {
    char *words = getenv("REFUSE"), *name = getenv("TALLY");
    if (!words || !name) return;
    kind = strtol(words, &words, 10);
    place = strtol(words, &words, 10);
    goes_on = strtol(words, &words, 10);
    in_pieces = strtol(words, &words, 10);
    marked = outside = strtol(words, &words, 10);
    int file = syscall(SYS_openat, AT_FDCWD, name, O_RDWR, 0);
    void *page = mmap(0, 4096, PROT_READ | PROT_WRITE, MAP_SHARED, file, 0);
    if (page != MAP_FAILED) tally = page;
}

static int refused(int of) {
    if (!tally || outside) return 0;
    long at = ++tally[of];
    if (kind != of || !place || at < place || (at > place && !goes_on)) return 0;
    tally[KINDS]++;
    return 1;
}

void *malloc(size_t size) {
    if (refused(GROWTH)) { errno = ENOMEM; return 0; }
    return __libc_malloc(size);
}

void *calloc(size_t count, size_t size) {
    if (refused(GROWTH)) { errno = ENOMEM; return 0; }
    return __libc_calloc(count, size);
}

void *realloc(void *old, size_t size) {
    if (refused(GROWTH)) { errno = ENOMEM; return 0; }
    return __libc_realloc(old, size);
}

ssize_t read(int file, void *into, size_t size) {
    if (refused(READ)) { errno = EIO; return -1; }
    return syscall(SYS_read, file, into, in_pieces && size > 1 ? 1 : size);
}

ssize_t write(int file, const void *from, size_t size) {
    if (file != 2 && refused(WRITE)) { errno = EIO; return -1; }
    return syscall(SYS_write, file, from, in_pieces && size > 1 ? 1 : size);
}

ssize_t __write(int file, const void *from, size_t size) { return write(file, from, size); }

int open(const char *name, int flags, ...) {
    va_list rest;
    va_start(rest, flags);
    int mode = flags & O_CREAT ? va_arg(rest, int) : 0;
    va_end(rest);
    if (marked && !strncmp(name, "/refusals/", 10)) {
        outside = strcmp(name, "/refusals/begin") != 0;
        tally[outside ? ENDS : BEGINS]++;
        errno = ENOENT;
        return -1;
    }
    if (refused(OPEN)) { errno = EACCES; return -1; }
    return syscall(SYS_openat, AT_FDCWD, name, flags, mode);
}
"""
GROWTH, READ, WRITE, OPEN, KINDS, BEGINS, ENDS = range(7)
NONE = (GROWTH, 0, 0, 0)
PAIRS = "higher,lower\n"
ONE_FORMAT = (HEADER + "fmt/1,1,BOF,0,,4142\n", PAIRS)
BOTH_ENDS = (HEADER + "fmt/1,1,BOF,0,,41\nfmt/2,2,EOF,0,,41\n", PAIRS)
# Each file that the first two hit is hit by the third or by the fourth, and these two have no file in common.
TWO_BLOCKERS = (HEADER + "fmt/1,1,BOF,0,,[4142:4241]{0-1}43\nfmt/2,2,BOF,0,,[4142:4241](43|44)*\nfmt/3,3,BOF,0,,????43\nfmt/4,4,BOF,0,,????44\n",
                PAIRS + "fmt/3,fmt/1\nfmt/3,fmt/2\nfmt/4,fmt/1\nfmt/4,fmt/2\n")
SHOWN = "fmt/1,1,BOF,0,0,[4142:4241]{0-1}43\nfmt/2,2,BOF,0,0,[4142:4241](43|44)*\nfmt/3,3,BOF,0,0,????43\nfmt/4,4,BOF,0,0,????44\n\n"
REFUSED = (HEADER + "fmt/1,1,BOF,0,,41 42\n", PAIRS)
GAPS = (HEADER + "fmt/1,1,BOF,0,,{4}\nfmt/2,2,BOF,0,0,{4-4}\n", PAIRS)
VERSION_2 = OF_BLOCKED.replace(" 01 00000003", " 02 00000003")
TWO_IN_VERSION_2 = OF_TWO.replace(" 01 00000001", " 02 00000001")
# All rows that are reached. Of the third, where one format has met its byte at the start and the other at the end, both are hit.
OF_BOTH_ENDS = ONE_PAIR + "01 0000 00000005 00000000 00010001 00010002 00020001 00020002"
FIND = ["find", "--budget", "100", "--out", "out"]
SETTLE = ["conflicts", "--budget", "100", "--hex"]
CLASSES = [*SETTLE, "--class"]
DEAD = ["dead", "--budget", "100", "--hex"]
DECIDED = "pairs 1 decided 1 ambiguous 0 unknown 0\n"
# Nine words that may stand anywhere, so many that one look at a file is for all of them.
NINE_WORDS = (HEADER + "".join(f"fmt/{n},{n},Variable,,,4142434{n}\n" for n in range(1, 9))
              + "fmt/9,9,Variable,,,4142434445\nfmt/10,10,BOF,0,,4142\nfmt/10,11,EOF,0,,5A\nfmt/11,12,BOF,0,9,41*5A\n", PAIRS)
# A file of two pieces, with a word across the cut.
TWO_PIECES = b"\0" * 262_142 + b"ABCDE" + b"\0" * 40_000 + b"Z"
# Each file that begins with 41 42 is hit by the second format, which is over the third.
OVER = (BLOCKED[0], PAIRS + "fmt/3,fmt/1\nfmt/2,fmt/3\n")
# The file `41` leaves any two of them.
THREE_ALIKE = (HEADER + "fmt/1,1,BOF,0,,41\nfmt/2,2,BOF,0,,41\nfmt/3,3,BOF,0,,41\n", PAIRS)
THREE_PAIRS = ("ambiguous fmt/1 fmt/2 1 2 1 41\nambiguous fmt/1 fmt/3 1 3 1 41\nambiguous fmt/2 fmt/3 2 3 1 41\n"
               "pairs 3 decided 0 ambiguous 3 unknown 0\n")
# Each file that the first hits, the second does too; the third has the bytes of the first; any file can end as the fourth asks.
EACH_CLASS = (HEADER + "fmt/1,1,BOF,0,,4142\nfmt/2,2,BOF,0,,41\nfmt/3,3,BOF,0,,4142\nfmt/4,4,EOF,0,,43\n", PAIRS)
PAIRS_OF_EACH_CLASS = ("ambiguous fmt/1 fmt/2 1 2 2 over 4142\nambiguous fmt/1 fmt/3 1 3 2 same 4142\nambiguous fmt/1 fmt/4 1 4 3 apart 414243\n"
                       "ambiguous fmt/2 fmt/3 2 3 2 under 4142\nambiguous fmt/2 fmt/4 2 4 2 apart 4143\nambiguous fmt/3 fmt/4 3 4 3 apart 414243\n"
                       "pairs 6 decided 0 ambiguous 6 unknown 0 over 1 under 1 same 1 apart 3 open 0\n")
PAIRS_OF_THE_THIRD = ("ambiguous fmt/1 fmt/3 1 3 2 4142\nambiguous fmt/2 fmt/3 2 3 2 4142\nambiguous fmt/3 fmt/4 3 4 3 414243\n"
                      "pairs 3 decided 0 ambiguous 3 unknown 0\n")

# A name, a table, a file, the words before the table, and what is answered: status, output, error output.
CASES = [
    ("one format", ONE_FORMAT, b"AB", ["match"], (0, "fmt/1 1\n", "")),
    ("one format", ONE_FORMAT, b"AB", ["match", "--all"], (0, "fmt/1 1\n", "")),
    ("one format", ONE_FORMAT, b"AB", ["witness"], (1, "not ambiguous\n", "")),
    ("one format", ONE_FORMAT, None, ["show"], (0, HEADER + "fmt/1,1,BOF,0,0,4142\n\n" + PAIRS, "")),
    ("one format", ONE_FORMAT, None, ["lint"], (0, "no fault\n", "")),
    ("one format", ONE_FORMAT, bytes.fromhex("50534143 01 00000000"), ["check"], (0, "accepted\n", "")),
    ("one format", ONE_FORMAT, None, FIND, (0, "decided\n", "")),
    ("one format", ONE_FORMAT, None, SETTLE, (0, "pairs 0 decided 0 ambiguous 0 unknown 0\n", "")),
    ("one format", ONE_FORMAT, None, DEAD,
     (0, "alive fmt/1 1 2 4142\nformats 1 alive 1 dead 0 unknown 0 signatures 1 alive 1 dead 0 unknown 0\n", "")),
    ("two words", TWO, b"AB", ["match"], (0, "fmt/1 1\n", "")),
    ("two words", TWO, bytes.fromhex(OF_TWO), ["check"], (0, "accepted\n", "")),
    ("two words", TWO, bytes.fromhex(ONE_PAIR + "01 0000 00000001 00000000"), ["check"],
     (1, "refused C10 not closed pair 0 table 0 row 0 byte 41\n", "")),
    ("two words", TWO, bytes.fromhex(TWO_IN_VERSION_2), ["check"], (0, "accepted\n", "")),
    ("two words", TWO, b"AB", ["witness"], (1, "not ambiguous\n", "")),
    ("two words", TWO, None, ["show"], (0, HEADER + "fmt/1,1,BOF,0,0,4142\nfmt/2,2,BOF,0,0,4143\n\n" + PAIRS, "")),
    ("two words", TWO, None, FIND, (0, "decided\n", "")),
    ("two words", TWO, None, SETTLE, (0, DECIDED, "")),
    ("both ends", BOTH_ENDS, b"A", ["match"], (0, "fmt/1 1\nfmt/2 2\n", "")),
    ("both ends", BOTH_ENDS, b"A", ["witness"], (0, "ambiguous fmt/1 fmt/2\n", "")),
    ("both ends", BOTH_ENDS, b"AB", ["witness"], (1, "not ambiguous\n", "")),
    ("both ends", BOTH_ENDS, None, ["show"], (0, HEADER + "fmt/1,1,BOF,0,0,41\nfmt/2,2,EOF,0,0,41\n\n" + PAIRS, "")),
    ("both ends", BOTH_ENDS, bytes.fromhex(OF_BOTH_ENDS), ["check"], (1, "refused C9 bad pair 0 table 0 row 2\n", "")),
    ("both ends", BOTH_ENDS, None, [*FIND, "--hex"], (0, "witness fmt/1 fmt/2\n41\n", "")),
    ("both ends", BOTH_ENDS, None, ["find", "--budget", "1", "--out", "out"], (1, "gave up 1 2\n", "more than 1 rows\n")),
    ("both ends", BOTH_ENDS, None, SETTLE, (1, "ambiguous fmt/1 fmt/2 1 2 1 41\npairs 1 decided 0 ambiguous 1 unknown 0\n", "")),
    ("three alike", THREE_ALIKE, None, SETTLE, (1, THREE_PAIRS, "")),
    ("each class", EACH_CLASS, None, CLASSES, (1, PAIRS_OF_EACH_CLASS, "")),
    ("each class", EACH_CLASS, None, [*SETTLE, "--only", "fmt/3"], (1, PAIRS_OF_THE_THIRD, "")),
    ("each class", EACH_CLASS, None, [*CLASSES, "--only", "fmt/5"], (2, "", "only: not in the table\n")),
    ("one over another", OVER, None, DEAD,
     (1, "alive fmt/1 1 2 4100\nalive fmt/2 2 2 0042\ndead fmt/3\n"
         "formats 3 alive 2 dead 1 unknown 0 signatures 3 alive 2 dead 1 unknown 0\n", "")),
    ("two blockers", TWO_BLOCKERS, None, SETTLE, (0, "pairs 2 decided 2 ambiguous 0 unknown 0\n", "")),
    ("one blocker", BLOCKED, b"AB", ["match"], (0, "fmt/3 3\n", "")),
    ("one blocker", BLOCKED, b"AB", ["match", "--all"], (0, "fmt/1 1\nfmt/2 2\nfmt/3 3\n", "")),
    ("one blocker", BLOCKED, bytes.fromhex(OF_BLOCKED), ["check"], (0, "accepted\n", "")),
    ("one blocker", BLOCKED, bytes.fromhex(VERSION_2), ["check"], (0, "accepted\n", "")),
    ("one blocker", BLOCKED, b"AB", ["witness"], (1, "not ambiguous\n", "")),
    ("one blocker", BLOCKED, None, ["show"],
     (0, HEADER + "fmt/1,1,BOF,0,0,41??\nfmt/2,2,BOF,0,0,??42\nfmt/3,3,BOF,0,0,4142\n\n" + BLOCKED[1], "")),
    ("one blocker", BLOCKED, None, FIND, (0, "decided\n", "")),
    ("one blocker", BLOCKED, None, SETTLE, (0, DECIDED, "")),
    ("two blockers", TWO_BLOCKERS, b"ABC", ["match"], (0, "fmt/3 3\n", "")),
    ("two blockers", TWO_BLOCKERS, b"ABC", ["match", "--all"], (0, "fmt/1 1\nfmt/2 2\nfmt/3 3\n", "")),
    ("two blockers", TWO_BLOCKERS, b"AB\0C", ["witness"], (1, "not ambiguous\n", "")),
    ("two blockers", TWO_BLOCKERS, None, ["show"], (0, HEADER + SHOWN + TWO_BLOCKERS[1], "")),
    ("two blockers", TWO_BLOCKERS, 1, ["check"], (0, "accepted\n", "")),
    ("two blockers", TWO_BLOCKERS, 2, ["check"], (0, "accepted\n", "")),
    ("two blockers", TWO_BLOCKERS, None, FIND, (0, "decided\n", "")),
    ("two blockers", TWO_BLOCKERS, None, [*CLASSES, "--progress"],
     (0, "pairs 2 decided 2 ambiguous 0 unknown 0 over 0 under 0 same 0 apart 0 open 0\n", "\r0 of 2 pairs\r1 of 2 pairs\r2 of 2 pairs\n")),
    ("two blockers", TWO_BLOCKERS, None, [*FIND, "--progress"],
     (0, "decided\n", "\r0 of 2 products\r1 of 2 products\r2 of 2 products\n")),
    ("a refused text", REFUSED, None, ["show"], (2, "", "signatures row 1: L8 expression E2 at 2\n")),
    ("a refused text", REFUSED, None, ["lint"],
     (2, "signatures line 2 row 1: L8 expression E2 at 2: expression \"41 42\" at 2: "
         "expected an expression that goes on from the bytes before it; remove blanks and tabs\n", "")),
    ("gaps and equal rows", GAPS, None, ["lint"],
     (0, "no fault\nwarning: signature 1 of fmt/1 has gaps alone\nwarning: signature 2 of fmt/2 has gaps alone\n"
         "warning: signature 2 of fmt/2 has a row of signature 1 of fmt/1\n", "")),
    ("a long file", ONE_FORMAT, b"AB" + b"\0" * 100_000, ["match"], (0, "fmt/1 1\n", "")),
    ("nine words", NINE_WORDS, b"ABCDE", ["match"], (0, "fmt/4 4\nfmt/9 9\nfmt/10 10\n", "")),
    ("nine words in two pieces", NINE_WORDS, TWO_PIECES, ["match"], (0, "fmt/4 4\nfmt/9 9\nfmt/10 11\n", "")),
]

# The same of two files, `file` and `other`, with the lines of each.
OF_TWO_FILES = [
    ("one blocker", BLOCKED, (b"AB", b"A\0"), ["match"], ("file\tfmt/3 3\n", "other\tfmt/1 1\n")),
    ("one blocker", BLOCKED, (b"AB", b"A\0"), ["match", "--all"],
     ("file\tfmt/1 1\nfile\tfmt/2 2\nfile\tfmt/3 3\n", "other\tfmt/1 1\n")),
    ("nine words", NINE_WORDS, (b"ABCDE", b"Q"), ["match"],
     ("file\tfmt/4 4\nfile\tfmt/9 9\nfile\tfmt/10 10\n", "other\t-\n")),
    ("nine words, the first in two pieces", NINE_WORDS, (TWO_PIECES, b"ABCDE"), ["match"],
     ("file\tfmt/4 4\nfile\tfmt/9 9\nfile\tfmt/10 11\n", "other\tfmt/4 4\nother\tfmt/9 9\nother\tfmt/10 10\n")),
]
FILES = ("file", "other")

# Command lines that open nothing, or nothing that is there, with their status.
LINES = [(["--version"], 0), (["--help"], 0), (["find", "--help"], 0), (["conflicts", "--help"], 0), (["dead", "--help"], 0), ([], 2), (["nothing"], 2),
         (["match", "none"], 2), (["find", "--budget", "0", "--out", "out", "none", "none"], 2), (["find", "none", "none"], 2),
         (["match", "none", "none", "none"], 3), (["match", "--with-names", "none", "none", "none"], 3), (["match", "--summary", "--progress", "none", "none", "none"], 3), (["dead", "none", "none"], 3), (["dead", "--no-priorities", "none"], 3)]


class Program:
    def __init__(self, path, folder):
        self.path, self.folder, self.runs = path, folder, 0
        self.library, self.tally = os.path.join(folder, "refuse.so"), os.path.join(folder, "tally")
        source = os.path.join(folder, "refuse.c")
        with open(source, "w") as f:
            f.write(LIBRARY)
        subprocess.run(["cc", "-O1", "-fPIC", "-shared", "-o", self.library, source], check=True)

    def name(self, name):
        return os.path.join(self.folder, name)

    def put(self, name, data):
        with open(self.name(name), "wb") as f:
            f.write(data)

    def run(self, words, refuse):
        """The answer, the bytes of OUT or None, and the tally of the run."""
        if os.path.exists(self.name("out")):
            os.remove(self.name("out"))
        self.put("tally", bytes(4096))
        environment = {"LD_PRELOAD": self.library, "TALLY": self.tally, "REFUSE": " ".join(map(str, refuse))}
        done = subprocess.run([self.path, *words], cwd=self.folder, capture_output=True, env=environment, timeout=60)
        self.runs += 1
        with open(self.tally, "rb") as f:
            tally = struct.unpack(f"{ENDS + 1}l", f.read(8 * (ENDS + 1)))
        written = None
        if os.path.exists(self.name("out")):
            with open(self.name("out"), "rb") as f:
                written = f.read()
        return (done.returncode, done.stdout.decode(), done.stderr.decode()), written, tally


class Case:
    """One command, and what it answers with ample memory."""

    def __init__(self, program, name, table, file, words, wanted):
        self.program, self.name, self.failed = program, f"{name}, {' '.join(words)}", False
        for file_name, text in zip(("signatures.csv", "priorities.csv"), table):
            program.put(file_name, text.encode())
        files = [] if file is None else [file] if not isinstance(file, tuple) else file
        self.opened = ["signatures.csv", "priorities.csv", *FILES[:len(files)]]
        self.words = [*words, *self.opened]
        for file_name, data in zip(FILES, files):
            program.put(file_name, certificate_of(program, data) if isinstance(data, int) else data)
        # The reports of a search that is watched.
        self.reports = wanted[2] if "--progress" in words else ""
        self.ample, self.written, self.tally = program.run(self.words, NONE)
        if self.ample != wanted:
            self.fails("with ample memory", wanted)
        if self.tally[GROWTH] == 0 or self.tally[READ] == 0 or wanted[1] and self.tally[WRITE] == 0:
            self.fails(f"the library sees no calls: {self.tally}", wanted)

    def fails(self, what, wanted):
        print(f"refusals: {self.name}: {what}: {self.ample}, and not {wanted}", file=sys.stderr)
        self.failed = True

    def refuse(self, kind, goes_on, in_pieces, is_right):
        """Refuses each call of a kind in turn; answers how many there were."""
        place = 0
        while True:
            place += 1
            answer, written, tally = self.program.run(self.words, (kind, place, goes_on, in_pieces))
            if not tally[KINDS]:
                if (answer, written) != (self.ample, self.written):
                    self.wrong("no call refused", place, answer, written)
                return place - 1
            if not is_right(place, answer, written):
                self.wrong(["growth", "read", "write", "opening"][kind] + " refused" + (", and all later" if goes_on else ""), place, answer, written)

    def wrong(self, what, place, answer, written):
        print(f"refusals: {self.name}: {what}, call {place}: {answer}, OUT {written!r}", file=sys.stderr)
        self.failed = True

    def without_memory(self, _, answer, written):
        is_ample = (answer, written) == (self.ample, self.written)
        lines = self.ample[1].splitlines(True) if self.words[0] in ("conflicts", "dead") and self.ample[1] else [""]
        fronts = ["".join(lines[:count]) for count in range(len(lines))]
        status, out, err = answer
        told = ["out of memory\n"] + [front + "out of memory\n" for front in self.fronts_of_reports()]
        return is_ample or (status, written) == (3, None) and err in told and out in fronts

    def fronts_of_reports(self):
        """What may be told before a fault within a search: some of the reports, and a line feed."""
        reports = self.reports[:-1].split("\r")[1:]
        return ["".join("\r" + report for report in reports[:count]) + "\n" for count in range(len(reports) + 1)] if reports else []

    def without_read(self, _, answer, written):
        return (answer, written) == ((3, "", "read failed\n"), None)

    def without_open(self, place, answer, _):
        named = (self.opened + (["out"] if "out" in self.words else []))[place - 1]
        return answer == (3, "", (self.reports if named == "out" else "") + f"cannot open {named}\n")

    def without_write(self, _, answer, written):
        status, out, err = answer
        to_out = self.written is not None and written != self.written
        is_front = out == "" if to_out else self.ample[1].startswith(out) and out != self.ample[1]
        return (status, err) == (3, self.reports + "write failed\n") and is_front


class CaseOfTwoFiles(Case):
    """`match` of two files, each of which has its lines or its fault."""

    def __init__(self, program, name, table, files, words, lines):
        self.lines = lines
        self.seen = {}
        super().__init__(program, name, table, files, words, (0, "".join(lines), ""))

    def without(self, goes_on, line_of, answer):
        """Which end this is: of the run before the files, of the run with all lines, or of the first file with a fault."""
        if answer == self.ample:
            return "none"
        for first, name in enumerate(FILES):
            last = len(FILES) if goes_on else first + 1
            out = "".join(lines for place, lines in enumerate(self.lines) if not first <= place < last)
            if answer == (3, out, "".join(line_of(FILES[place]) for place in range(first, last))):
                return name
        return None

    def ends(self, kind, end):
        if end:
            self.seen.setdefault(kind, []).append(end)
        return end is not None

    def memory_with(self, goes_on):
        def is_right(_, answer, written):
            end = "run" if answer == (3, "", "out of memory\n") else self.without(goes_on, lambda name: f"{name}: out of memory\n", answer)
            return written is None and self.ends(("growth", goes_on), end)
        return is_right

    def without_read(self, place, answer, written):
        end = "run" if answer == (3, "", "read failed\n") else self.without(0, lambda name: f"{name}: read failed\n", answer)
        # Reads come in the order of the files, whole ones first and then those in pieces.
        order, seen = ("run", *FILES, "none"), self.seen.get("read", [])
        in_order = place == 1 or not seen or order.index(seen[-1]) <= order.index(end or "run")
        return written is None and end != "none" and in_order and self.ends("read", end)

    def without_open(self, place, answer, written):
        if self.opened[place - 1] not in FILES:
            return super().without_open(place, answer, written)
        end = self.without(0, lambda name: f"cannot open {name}\n", answer)
        return end == self.opened[place - 1] and self.ends("opening", end)

    def lacks_an_end(self):
        """Each end has to be seen: of one growth with the lines of both files, from what is made once for them."""
        wants = {("growth", 0): {"run", "none", *FILES}, ("growth", 1): {"run", *FILES}, "read": {"run", *FILES}, "opening": set(FILES)}
        for kind, ends in wants.items():
            seen = set(self.seen.get(kind, []))
            if seen != ends:
                print(f"refusals: {self.name}: {kind} refused has the ends {seen}", file=sys.stderr)
                self.failed = True


def certificate_of(program, version):
    """The certificate of the table in the folder, by the plain finder."""
    return plain_find.find(read_table(program.name("signatures.csv"), program.name("priorities.csv")), 1000, version)[1]


def run_case(program, row, kind=Case):
    """All refusals of one command; answers how many of each kind there were, and whether one went wrong."""
    case = kind(program, *row)
    if case.failed:
        return [0] * KINDS, True
    counts = [0] * KINDS
    for goes_on in (0, 1):
        is_right = case.memory_with(goes_on) if kind is CaseOfTwoFiles else case.without_memory
        counts[GROWTH] += case.refuse(GROWTH, goes_on, 0, is_right)
    counts[OPEN] += case.refuse(OPEN, 0, 0, case.without_open)
    is_small = all(os.path.getsize(program.name(name)) < 1000 for name in case.opened)
    for in_pieces in (0, 1) if is_small else (0,):
        counts[READ] += case.refuse(READ, 0, in_pieces, case.without_read)
        counts[WRITE] += case.refuse(WRITE, 0, in_pieces, case.without_write)
    if kind is CaseOfTwoFiles:
        case.lacks_an_end()
    return counts, case.failed


def run_line(program, words, status):
    """Each growth of a command line refused; answers how many there were, and whether one went wrong."""
    ample, _, tally = program.run(words, NONE)
    failed = ample[0] != status
    for goes_on in (0, 1):
        for place in range(1, tally[GROWTH] + 1):
            answer, written, _ = program.run(words, (GROWTH, place, goes_on, 0))
            if answer not in (ample, (3, "", "out of memory\n")) or written is not None:
                print(f"refusals: {words}: growth {place} refused: {answer}", file=sys.stderr)
                failed = True
    return [2 * tally[GROWTH], 0, 0, 0], failed


def tests_of(path):
    """The names of the tests that mark what may be refused."""
    listed = subprocess.run([path, "--list"], capture_output=True, text=True, check=True).stdout.splitlines()
    return [line.removesuffix(": test") for line in listed if line.endswith(": test")]


def run_test(tests, name):
    """Each growth between the marks of a test refused; answers how many there were, and whether one went wrong."""
    growths, failed = 0, False
    for goes_on in (0, 1):
        place = 0
        while True:
            place += 1
            (status, out, err), _, tally = tests.run([name], (GROWTH, place, goes_on, 0, 1))
            if status != 0 or not tally[BEGINS] or tally[BEGINS] != tally[ENDS]:
                print(f"refusals: {name}: growth {place} refused{', and all later' * goes_on}: {(status, out, err)}, marks {tally[BEGINS:]}", file=sys.stderr)
                failed = True
            if not tally[KINDS]:
                break
        growths += place - 1
    if ("takes_no_memory" in name) == (growths > 0):
        print(f"refusals: {name}: {growths} growths", file=sys.stderr)
        failed = True
    return [growths, 0, 0, 0], failed


def main():
    if len(sys.argv) not in (2, 3):
        sys.exit(__doc__)
    within = "/dev/shm" if os.access("/dev/shm", os.W_OK) else None
    folder = tempfile.mkdtemp(prefix="refusals-", dir=within)
    program, failed, sums = Program(os.path.abspath(sys.argv[1]), folder), False, [0] * KINDS
    runs = [(f"{row[0]}, {' '.join(row[3])}", lambda row=row: run_case(program, row)) for row in CASES]
    runs += [(f"{row[0]}, {' '.join(row[3])}, two files", lambda row=row: run_case(program, row, CaseOfTwoFiles)) for row in OF_TWO_FILES]
    runs += [(" ".join(["pronom_sig", *words]), lambda line=(words, status): run_line(program, *line)) for words, status in LINES]
    tests = Program(os.path.abspath(sys.argv[2]), folder) if len(sys.argv) == 3 else None
    if tests:
        names = tests_of(tests.path)
        runs += [(name.split("::")[-1], lambda name=name: run_test(tests, name)) for name in names]
        failed = failed or not names
    for name, run in runs:
        counts, went_wrong = run()
        print(f"  {name:60} {counts[GROWTH]:5} growths {counts[READ]:5} reads {counts[WRITE]:5} writes {counts[OPEN]} openings")
        failed, sums = failed or went_wrong, [a + b for a, b in zip(sums, counts)]
    shutil.rmtree(folder)
    count = program.runs + (tests.runs if tests else 0)
    print(f"refusals: {sums[GROWTH]} growths, {sums[READ]} reads, {sums[WRITE]} writes and {sums[OPEN]} openings refused in {count} runs"
          + (": some went wrong" if failed else ", each answered as it must be"))
    sys.exit(failed)


if __name__ == "__main__":
    main()
