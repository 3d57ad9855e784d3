#!/usr/bin/env python3
"""Makes the tables that the costs of the finder and the checker are measured on.

    python3 bench/tables.py KIND N FOLDER [--seed S]

KIND is one of these, and N the number of formats (of alternatives, of rows, for the last two):

    decided        like a registry: most signatures begin with bytes of their own, some families share
                   a front, a tenth is loose, and each pair that some file can hit is ranked
    ambiguous      the same with the rank of one pair left out
    hard           one front for all, then a gap, a word anywhere and a word at the end: unrelated
                   pairs part at the last bytes alone, after thousands of rows
    mixed          decided, and unrelated pairs that a third format above both settles, some of these
                   with gaps
    alternatives   two formats, each N equal alternatives, those again, and a byte of its own: its
                   rows have the same N * N successors each. Its certificate is written too
    junk           three formats, and an accepted certificate of version 2 with N rows that are never
                   reached and stand before the one row that covers their successors

It writes signatures.csv and priorities.csv to FOLDER. The same seed makes the same table anywhere.
"""
import argparse
import itertools
import os
import random

HEADER = "puid,signature,position,offset,max_offset,expression\n"


class Made:
    """A table as it grows: rows of signatures by format, and the ranked pairs."""

    def __init__(self):
        self.formats, self.number, self.over = [], 0, []

    def add_format(self, *signatures):
        """Each signature is a list of (position, least, greatest, expression). Answers the format."""
        numbered = []
        for sequences in signatures:
            self.number += 1
            numbered.append((self.number, sequences))
        self.formats.append(numbered)
        return len(self.formats)

    def rank(self, higher, lower):
        self.over.append((higher, lower))

    def write(self, folder):
        with open(os.path.join(folder, "signatures.csv"), "w") as f:
            f.write(HEADER)
            for n, signatures in enumerate(self.formats, 1):
                for number, sequences in signatures:
                    for position, least, greatest, expression in sequences:
                        f.write(f"fmt/{n},{number},{position},{least},{greatest},{expression}\n")
        with open(os.path.join(folder, "priorities.csv"), "w") as f:
            f.write("higher,lower\n")
            f.writelines(f"fmt/{h},fmt/{l}\n" for h, l in self.over)


def spelled(data):
    return bytes(data).hex().upper()


def some_bytes(chance, n):
    return [chance.randrange(256) for _ in range(n)]


def words(chance, n):
    """So many bytes of a small alphabet, as of text."""
    return [chance.choice(b"ETAOINSHRDLU") for _ in range(n)]


# ---- signatures of a registry

class Strict:
    """A signature with fixed bytes at fixed offsets, None where any byte may stand."""

    def __init__(self, front, rest):
        self.front, self.rest = front, rest

    def parts_from(self, other):
        """Whether no file can hit both."""
        return any(a is not None and b is not None and a != b for a, b in zip(self.front, other.front))

    def sequences(self):
        text = "".join("??" if byte is None else f"{byte:02X}" for byte in self.front)
        first = [("BOF", 0, 0, packed(text) + self.rest[0])]
        return first + self.rest[1]


def packed(text):
    """The text with long runs of ?? written as one gap."""
    out, at = "", 0
    while at < len(text):
        run = 0
        while text[at + 2 * run:at + 2 * run + 2] == "??":
            run += 1
        out += text[at:at + 2] if run == 0 else "{%d}" % run if run > 1 else "??"
        at += 2 * max(run, 1)
    return out


def tail(chance):
    """What stands behind the front: nothing, a word somewhere, or a word at the end."""
    kind = chance.randrange(10)
    if kind < 6:
        return "", []
    if kind < 8:
        return "*" + spelled(words(chance, 4)), []
    return "", [("EOF", 0, chance.choice(["", 2, 16]), spelled(words(chance, 3)))]


def strict(chance, families):
    kind = chance.randrange(100)
    if kind < 70:
        return Strict(some_bytes(chance, chance.randrange(3, 9)), tail(chance))
    front = chance.choice(families)
    if kind < 90:
        return Strict(front + some_bytes(chance, chance.randrange(2, 6)), tail(chance))
    between = [None] * chance.choice([4, 26, 120, 370])
    return Strict(front + between + some_bytes(chance, 8), tail(chance))


def loose(chance):
    word = spelled(words(chance, chance.randrange(4, 8)))
    kind = chance.randrange(3)
    if kind == 0:
        return [("Variable", "", "", word)]
    if kind == 1:
        return [("EOF", 0, chance.choice([0, 8]), word)]
    return [("BOF", 0, chance.choice([64, 512]), word)]


def registry(chance, count, made):
    """So many formats; each is ranked over the later ones that it does not part from."""
    families = [some_bytes(chance, 4) for _ in range(max(2, count // 20))]
    fronts = []
    for _ in range(count):
        if chance.randrange(100) < 10:
            made.add_format(loose(chance))
            fronts.append(None)
            continue
        signatures = [strict(chance, families) for _ in range(2 if chance.randrange(100) < 28 else 1)]
        made.add_format(*[s.sequences() for s in signatures])
        fronts.append(signatures)
    return fronts


def rank_what_meets(fronts, made):
    for (i, ours), (j, theirs) in itertools.combinations(enumerate(fronts, 1), 2):
        if ours is None or theirs is None:
            # the strict one is above a loose one
            made.rank(*((j, i) if ours is None and theirs is not None else (i, j)))
        elif not all(a.parts_from(b) for a in ours for b in theirs):
            made.rank(i, j)


def decided(chance, count):
    made = Made()
    rank_what_meets(registry(chance, count, made), made)
    return made


def ambiguous(chance, count):
    """The pair whose rank is left out is hit by one file, and no format is over both."""
    made = Made()
    fronts = registry(chance, count - 2, made)
    rank_what_meets(fronts, made)
    first = made.add_format([("BOF", 0, 0, "F0F1F2F3F4*414243")])
    second = made.add_format([("BOF", 0, 0, "F0F1F2F3F4*444546")])
    own = Strict([0xF0, 0xF1, 0xF2, 0xF3, 0xF4], ("", []))
    for n, theirs in enumerate(fronts, 1):
        if theirs is None:
            made.rank(first, n)
            made.rank(second, n)
        elif not all(own.parts_from(t) for t in theirs):
            made.rank(n, first)
            made.rank(n, second)
    return made


# ---- the hard and the mixed

def hard(chance, count):
    made = Made()
    for n in range(count):
        least = chance.randrange(0, 8)
        greatest = least + chance.choice([4, 8, 24, 80, 144])
        word = spelled(words(chance, 2)) + f"{n // 16:02X}"
        end = spelled(words(chance, 2)) + f"{n % 256:02X}{n // 256:02X}"
        first = "CAFEBABE{%d-%d}%s*%s" % (least, greatest, spelled(words(chance, 2)), word)
        made.add_format([("BOF", 0, 0, first), ("EOF", 0, 0, end)])
    return made


def mixed(chance, count):
    made = Made()
    fronts = registry(chance, count - 3 * (count // 20), made)
    rank_what_meets(fronts, made)
    for n in range(count // 20):
        front = [0xEE, 0xDD, n // 256, n % 256]
        end = spelled(words(chance, 3)) + f"{n:02X}"
        gap = chance.choice(["", "", "{4}", "{0-6}", "*"])
        middle = spelled(words(chance, 2))
        begins = made.add_format([("BOF", 0, 0, spelled(front) + gap + middle)])
        ends = made.add_format([("BOF", 0, 0, spelled(front)), ("EOF", 0, 0, end)])
        both = made.add_format([("BOF", 0, 0, spelled(front) + gap + middle), ("EOF", 0, 0, end)])
        made.rank(both, begins)
        made.rank(both, ends)
        for other, theirs in enumerate(fronts, 1):
            for ours in (begins, ends, both):
                if theirs is None:
                    made.rank(ours, other)
                elif not all(Strict(front, ("", [])).parts_from(t) for t in theirs):
                    made.rank(other, ours)
    return made


def alternatives(_chance, count):
    made, equal = Made(), "(" + "|".join(["41"] * count) + ")"
    for byte in ("42", "43"):
        made.add_format([("BOF", 0, 0, equal + equal + byte)])
    return made


def certificate_of_alternatives(count):
    """Every row that is reached: the start, and all pairs of equal alternatives at either place."""
    rows = [bytes(4)]
    for first in (1, count + 1):
        of_place = range(first, first + count)
        rows += [s.to_bytes(2, "big") + t.to_bytes(2, "big") for s in of_place for t in of_place]
    head = b"PSAC" + bytes([1]) + (1).to_bytes(4, "big") + bytes([1]) + (0).to_bytes(2, "big")
    return head + len(rows).to_bytes(4, "big") + b"".join(rows)


def junk(_chance, _count):
    made = Made()
    first = made.add_format([("EOF", 0, 0, "41")])
    second = made.add_format([("EOF", 0, 0, "43")])
    above = made.add_format([("Variable", "", "", "41{40}42")])
    made.rank(above, first)
    made.rank(above, second)
    return made


def certificate_of_junk(count):
    """The sets of the junk hold state 0 and some far ones, so their bytes are below those of {1}."""
    chance, far = random.Random(count), set()
    while len(far) < count:
        far.add(chance.randrange(1, 1 << 37) << 8)

    def row(s, t, states):
        return s.to_bytes(2, "big") + t.to_bytes(2, "big") + states.to_bytes(6, "little")
    rows = [row(0, 0, 1)] + sorted(row(1, 1, 1 | states) for states in far)
    rows += [row(1, 1, 1 << 1), row(1, 2, 1 << 1), row(2, 1, 1 << 1 | 1 << 2)]
    head = b"PSAC" + bytes([2]) + (3).to_bytes(4, "big") + bytes([1]) + (1).to_bytes(2, "big") + (2).to_bytes(4, "big")
    return head + len(rows).to_bytes(4, "big") + b"".join(rows) + bytes(2)


KINDS = {"decided": decided, "ambiguous": ambiguous, "hard": hard, "mixed": mixed, "alternatives": alternatives, "junk": junk}
CERTIFICATES = {"alternatives": certificate_of_alternatives, "junk": certificate_of_junk}


def make(kind, count, folder, seed=1):
    KINDS[kind](random.Random(f"{kind} {count} {seed}"), count).write(folder)
    if kind in CERTIFICATES:
        with open(os.path.join(folder, "certificate"), "wb") as f:
            f.write(CERTIFICATES[kind](count))


def main():
    words_ = argparse.ArgumentParser(description=__doc__, formatter_class=argparse.RawDescriptionHelpFormatter)
    words_.add_argument("kind", choices=KINDS)
    words_.add_argument("count", type=int)
    words_.add_argument("folder")
    words_.add_argument("--seed", type=int, default=1)
    given = words_.parse_args()
    os.makedirs(given.folder, exist_ok=True)
    make(given.kind, given.count, given.folder, given.seed)


if __name__ == "__main__":
    main()
