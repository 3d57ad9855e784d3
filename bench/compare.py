#!/usr/bin/env python3
"""Compares the program with the plain checker and the plain finder on random tables.

    python3 bench/compare.py PROGRAM [--tables N] [--seed S]

PROGRAM is the built `pronom_sig`. Each random table of three or four formats goes to `find` and to
the plain finder; certificates of both versions and changed ones go to `check`, to the plain checker
and to the one that was written from `docs/CERTIFICATES.md` alone, and a few files to `witness`. Subcommands that the program lacks are left out. Any
difference is printed, with the folder that holds its files, and ends the script with status 1.
"""
import argparse
import os
import random
import subprocess
import sys
import tempfile

sys.dont_write_bytecode = True

import page_check
import plain_check
import plain_find
from tables import HEADER
from test_plain import random_sequence

BUDGET = 500


def random_rows(chance):
    """Rows of a signature file and of a priority file without a cycle."""
    formats = chance.randrange(3, 5)
    signatures, number = [], 0
    for n in range(1, formats + 1):
        for _ in range(chance.choice([1, 1, 1, 2])):
            number += 1
            for _ in range(chance.choice([1, 1, 2])):
                (position, least, greatest, text), _ = random_sequence(chance)
                if chance.random() < 0.7:
                    position, least, greatest = "BOF", "0", "0"
                    text = chance.choice(["41", "42", "43", "4142", "4143"]) + text
                signatures.append((f"fmt/{n}", str(number), position, least, greatest, text))
    pairs = [(f"fmt/{h}", f"fmt/{l}") for l in range(1, formats + 1) for h in range(l + 1, formats + 1)
             if chance.random() < 0.5]
    return signatures, pairs


def write_table(folder, signatures, pairs):
    with open(os.path.join(folder, "signatures.csv"), "w") as f:
        f.write(HEADER + "".join(",".join(row) + "\n" for row in signatures))
    with open(os.path.join(folder, "priorities.csv"), "w") as f:
        f.write("higher,lower\n" + "".join(",".join(pair) + "\n" for pair in pairs))


def changes(chance, certificate, count):
    """The certificate and changed ones: a byte, a bit, a cut, an end, a part left out, doubled or moved."""
    yield certificate
    for _ in range(count):
        data = bytearray(certificate)
        kind, at = chance.randrange(7), chance.randrange(len(data))
        length = chance.choice([1, 2, 4, 5, 6, 8, 10])
        if kind == 0:
            data[at] = chance.randrange(256)
        elif kind == 1:
            data[at] ^= 1 << chance.randrange(8)
        elif kind == 2:
            del data[at:]
        elif kind == 3:
            data += bytes(chance.randrange(1, 5))
        elif kind == 4:
            del data[at:at + length]
        elif kind == 5:
            data[at:at] = data[at:at + length]
        else:
            data[4] = 3 - data[4] if data[4] in (1, 2) else 1
        yield bytes(data)


class Comparison:
    def __init__(self, program, folder):
        self.program, self.folder, self.compared, self.answers = program, folder, 0, {}
        helped = subprocess.run([program, "--help"], capture_output=True, text=True).stdout
        self.subcommands = {words[0] for words in map(str.split, helped.splitlines()) if words}

    def run(self, *words):
        done = subprocess.run([self.program, *words], cwd=self.folder, capture_output=True, text=True)
        return done.stdout, done.returncode

    def same(self, what, found, wanted):
        self.compared += 1
        kind = f"{what}: {' '.join(wanted[0].split()[:2])}"
        self.answers[kind] = self.answers.get(kind, 0) + 1
        if found != wanted:
            kept = tempfile.mkdtemp(prefix="differs-")
            subprocess.run(["cp", "-r", self.folder + "/.", kept])
            sys.exit(f"{what} in {kept}: the program says {found}, the plain one {wanted}")

    def path(self, name):
        return os.path.join(self.folder, name)

    def put(self, name, data):
        with open(self.path(name), "wb") as f:
            f.write(data)

    def read(self, name):
        with open(self.path(name), "rb") as f:
            return f.read()

    def table(self, chance):
        write_table(self.folder, *random_rows(chance))
        table = plain_check.read_table(self.path("signatures.csv"), self.path("priorities.csv"))
        answer, data = plain_find.find(table, BUDGET)
        if "find" in self.subcommands:
            self.found(table, answer, data)
        if "check" in self.subcommands:
            for version in (1, 2):
                self.judged(chance, table, plain_find.find(table, BUDGET, version)[1] if answer == "decided" else guessed(table))
        if "witness" in self.subcommands:
            for _ in range(5):
                self.witnessed(table, bytes(chance.choice(b"ABCD") for _ in range(chance.randrange(8))))

    def found(self, table, answer, data):
        line, status = self.run("find", "--budget", str(BUDGET), "--out", "out", "signatures.csv", "priorities.csv")
        self.same("find", (line, status), (answer + "\n", 1 if data is None else 0))
        if data is None:
            return
        with open(self.path("out"), "rb") as f:
            written = f.read()
        if answer == "decided":
            self.same("what find wrote", (plain_check.check(table, written), 0), ("accepted", 0))
        else:
            self.same("length of a witness", (f"{len(written)} bytes", 0), (f"{len(data)} bytes", 0))
            self.witnessed(table, written)

    def judged(self, chance, table, certificate):
        tables = [self.read(name) for name in ("signatures.csv", "priorities.csv")]
        for changed in changes(chance, certificate, 20):
            self.put("certificate", changed)
            verdict = plain_check.check(table, changed)
            self.same("check", self.run("check", "signatures.csv", "priorities.csv", "certificate"),
                      (verdict + "\n", 0 if verdict == "accepted" else 1))
            self.same("check by the page", (page_check.verdict(*tables, changed), 0), (verdict, 0))

    def witnessed(self, table, file):
        self.put("file", file)
        line = plain_find.witness_line(table, file)
        self.same("witness", self.run("witness", "signatures.csv", "priorities.csv", "file"),
                  (line + "\n", 0 if line.startswith("ambiguous") else 1))


def guessed(table):
    """The layout of a certificate whose tables hold the start row alone."""
    formats = len(table.puids)
    pairs = [(i, j) for i in range(formats) for j in range(i + 1, formats)]
    out = [b"PSAC\x02", len(pairs).to_bytes(4, "big")]
    for i, j in pairs:
        out.append(bytes([0 if table.related(i, j) else 1]))
        if not table.related(i, j):
            for s in table.signatures_of(i):
                for t in table.signatures_of(j):
                    product = plain_check.Product(table, s, t, [])
                    out.append(plain_find.table_bytes(product, [], [product.start()], 2))
    return b"".join(out)


def main():
    words = argparse.ArgumentParser(description=__doc__, formatter_class=argparse.RawDescriptionHelpFormatter)
    words.add_argument("program")
    words.add_argument("--tables", type=int, default=200)
    words.add_argument("--seed", type=int, default=1)
    given = words.parse_args()
    chance = random.Random(given.seed)
    with tempfile.TemporaryDirectory() as folder:
        comparison = Comparison(os.path.abspath(given.program), folder)
        for _ in range(given.tables):
            comparison.table(chance)
        print(f"{comparison.compared} answers are the same")
        for kind, count in sorted(comparison.answers.items()):
            print(f"  {count:6} {kind}")


if __name__ == "__main__":
    main()
