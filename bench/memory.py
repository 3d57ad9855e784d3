#!/usr/bin/env python3
"""The checker's memory rule, by refused growths.

    python3 bench/memory.py PROGRAM

PROGRAM is the built `pronom_sig`, which takes its memory by `malloc` and `realloc` of the C library. Beside
what it was lent, `check` needs the automata of one product and two rows. So over a certificate of
many tables it needs no more than over one of a single table, where all products have the same form; and
over a table of many rows no more than over one of few. A small library that is loaded before the program
(made here with `cc`) counts the bytes that live: from the end of the last file on, when the table and the
certificate are there, it refuses each growth past a limit.

- The limit of a small certificate is looked for: the least with which `check` answers `accepted`. One byte
  less, and it answers `out of memory`, so growths are refused.
- With this limit `check` must accept the large certificate, too. A checker that keeps something for each
  table, or for each row, answers `out of memory` there.

It prints each limit, and ends with 1 if an answer is another one.
"""
import os
import subprocess
import sys
import tempfile

sys.dont_write_bytecode = True

import plain_find
import tables
from plain_check import read_table

LIBRARY = r"""
#define _GNU_SOURCE
#include <errno.h>
#include <stdlib.h>
#include <string.h>
#include <sys/syscall.h>
#include <unistd.h>

extern void *__libc_malloc(size_t);
extern void *__libc_calloc(size_t, size_t);
extern void *__libc_realloc(void *, size_t);
extern void __libc_free(void *);

/* The bytes that live; those at the end of the third file that was read; how many may be added to them. */
static size_t live, lent, limit = -1;
static int ended;

__attribute__((constructor)) static void begin(void) {
    char *words = getenv("LIMIT");
    if (words) limit = strtoul(words, 0, 10);
}

static int refused(size_t more) {
    if (!lent || live + more <= lent || live + more - lent <= limit) return 0;
    errno = ENOMEM;
    return 1;
}

/* Before each piece of memory stands how many bytes were asked for. */
enum { HEAD = 16 };

static size_t length_of(void *at) { return *(size_t *)((char *)at - HEAD); }

static void *counted(char *made, size_t size) {
    if (!made) return 0;
    *(size_t *)made = size;
    live += size;
    return made + HEAD;
}

void *malloc(size_t size) { return refused(size) ? 0 : counted(__libc_malloc(size + HEAD), size); }

void *calloc(size_t count, size_t size) {
    return refused(count * size) ? 0 : counted(__libc_calloc(1, count * size + HEAD), count * size);
}

void free(void *at) {
    if (!at) return;
    live -= length_of(at);
    __libc_free((char *)at - HEAD);
}

void *realloc(void *old, size_t size) {
    if (!old) return malloc(size);
    size_t was = length_of(old);
    if (size > was && refused(size - was)) return 0;
    void *made = __libc_realloc((char *)old - HEAD, size + HEAD);
    if (made) live -= was;
    return counted(made, size);
}

ssize_t read(int file, void *into, size_t size) {
    ssize_t got = syscall(SYS_read, file, into, size);
    if (!got && ++ended == 3) lent = live;
    return got;
}
"""
ACCEPTED, NO_MEMORY = (0, "accepted"), (3, "out of memory")
# Two sequences of each place, and the bytes that tell one signature from another.
SHAPE = ["BOF,0,,4142{9}%02X%02X(50|5152)", "EOF,0,4,%02X%02X[60:6F]*62"]
HEADER = tables.HEADER


class Checked:
    """The program, and the folder with the table and the certificates that it checks."""

    def __init__(self, program, folder):
        self.program, self.folder = program, folder
        source, self.library = os.path.join(folder, "limit.c"), os.path.join(folder, "limit.so")
        with open(source, "w") as f:
            f.write(LIBRARY)
        subprocess.run(["cc", "-O1", "-fPIC", "-shared", "-o", self.library, source], check=True)

    def put(self, name, data):
        with open(os.path.join(self.folder, name), "wb") as f:
            f.write(data)

    def answer(self, certificate, limit):
        """What `check` says where so many bytes may be added to those of the files."""
        self.put("certificate", certificate)
        words = [self.program, "check", "signatures.csv", "priorities.csv", "certificate"]
        environment = {"LD_PRELOAD": self.library, "LIMIT": str(limit)}
        run = subprocess.run(words, cwd=self.folder, capture_output=True, env=environment)
        return run.returncode, (run.stdout + run.stderr).decode().strip()

    def least(self, certificate):
        """The least limit with which it accepts the certificate."""
        low, high = 0, 1 << 24
        while low < high:
            middle = (low + high) // 2
            answer = self.answer(certificate, middle)
            assert answer in (ACCEPTED, NO_MEMORY), answer
            low, high = (low, middle) if answer == ACCEPTED else (middle + 1, high)
        return low

    def hold(self, name, least, certificate):
        """Whether the limit is enough for the certificate."""
        answer = self.answer(certificate, least)
        print(f"  {name}, {len(certificate)} bytes: {answer[1]} with {least} bytes beside the files")
        return answer == ACCEPTED


def table_of(checked, count):
    """Two formats with so many signatures of one shape each, and the certificates of both versions."""
    rows = [(n // count + 1, n + 1, line % (n // 16 + 0x30, n % 16 + 0x30)) for n in range(2 * count) for line in SHAPE]
    checked.put("signatures.csv", (HEADER + "".join(f"fmt/{f},{n},{line}\n" for f, n, line in rows)).encode())
    checked.put("priorities.csv", b"higher,lower\n")
    table = read_table(*(os.path.join(checked.folder, name) for name in ["signatures.csv", "priorities.csv"]))
    return [plain_find.find(table, 100_000, version) for version in (1, 2)]


def main():
    if len(sys.argv) != 2:
        sys.exit(__doc__)
    with tempfile.TemporaryDirectory() as folder:
        checked, held = Checked(os.path.abspath(sys.argv[1]), folder), True
        least = []
        for (answer, certificate), version in zip(table_of(checked, 1), (1, 2)):
            assert answer == "decided", answer
            least.append(checked.least(certificate))
            held = checked.hold(f"one table, version {version}", least[-1], certificate) and held
        for (answer, certificate), version in zip(table_of(checked, 8), (1, 2)):
            assert answer == "decided", answer
            held = checked.hold(f"64 tables, version {version}", least[version - 1], certificate) and held
        tables.make("junk", 10, folder)
        few = checked.least(tables.certificate_of_junk(10))
        for count in (10, 2500):
            held = checked.hold(f"{count} rows of junk", few, tables.certificate_of_junk(count)) and held
    print("memory: " + ("no limit was passed" if held else "some limit was passed"))
    sys.exit(not held)


if __name__ == "__main__":
    main()
