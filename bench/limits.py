#!/usr/bin/env python3
"""The built program at its limits: for each an accepted case, and the refused one just beyond.

    python3 bench/limits.py PROGRAM

Every answer was worked out by hand from `docs/FORMATS.md` and `docs/CERTIFICATES.md`: the status, all bytes of
both outputs, and all bytes of the files that a run writes. The pages do not have the lines of usage errors: these
are those of `command_tests`, and of the definition `fault_text`. Every run has a stack of 100 KiB, so no table,
expression, file or certificate here makes a deep call. It shows

- 1,000 formats, 4,000 signatures of 8 sequences, 65,535 slots, 8,192 bytes of one expression, as items `*`, as
  alternatives of one list, as other items: loaded, shown, matched, searched, and their certificates checked;
- 64 outranking signatures, and 65; the least and the greatest budget, offset, and number;
- reads, writes and certificates of some MiB; files that were longer before they were written, and no others;
- the words: ten files, names with a blank at an end, a word that is no UTF-8;
- how CSV is read.

It prints a line for each failure and one of counts, and ends with 1 if anything failed.
"""
import os
import resource
import subprocess
import sys
import tempfile
import time
from dataclasses import dataclass, field

sys.dont_write_bytecode = True
sys.path.insert(0, os.path.dirname(os.path.abspath(__file__)))

import page_check

STACK = 100 << 10  # bytes
LONGEST = 60  # seconds that a run may take
HEADER = b"puid,signature,position,offset,max_offset,expression\n"
PAIRS = b"higher,lower\n"
BLOCK = 1 << 18  # bytes of a file that `match` reads at once
BYTES = 8192  # of an expression
SLOTS = 65535  # of a sequence
FORMATS, SIGNATURES, SEQUENCES = 1000, 4000, 8
BUDGET = (1 << 32) - 1
CLASSES = "over under same apart open".split()
MIB = 1 << 20


@dataclass
class Case:
    """A run: its words, the files that are there before, and what it must print and leave.

    An error that ends in '..' stands for all that begin so.
    """

    name: str
    words: list
    files: dict
    out: bytes = b""
    status: int = 0
    err: bytes = b""
    made: dict = field(default_factory=dict)
    is_paged: bool = False  # whether `page_check.py` judges the certificate `o`, too


def table(*rows, pairs=()):
    """The two files, of rows and of pairs as they stand there."""
    text = "".join(row + "\n" for row in rows), "".join(f"{pair}\n" for pair in pairs)
    return {"s": HEADER + text[0].encode(), "p": PAIRS + text[1].encode()}


def bof(n, expression, offset="0", most=""):
    """The row of a format with one signature of the same number."""
    return f"fmt/{n},{n},BOF,{offset},{most},{expression}"


def eof(n, expression):
    return f"fmt/{n},{n},EOF,0,,{expression}"


def anywhere(n, expression):
    return f"fmt/{n},{n},Variable,,,{expression}"


# ---- certificates by hand

def number(value, length):
    return value.to_bytes(length, "big")


def states(*values):
    return b"".join(number(value, 2) for value in values)


def members(states_of_set, slots):
    """A set of states of a sequence with so many slots."""
    return sum(1 << state for state in states_of_set).to_bytes((slots + 8) // 8, "little")


def product(rows, blockers=()):
    """A table of a certificate, of its rows in any order."""
    head = number(len(blockers), 2) + b"".join(number(it, 4) for it in blockers) + number(len(rows), 4)
    return head + b"".join(sorted(rows))


def certificate(entries):
    """Of version 2: each entry has the tables of a pair, or nothing where one format outranks the other."""
    return b"PSAC\2" + number(len(entries), 4) + b"".join(b"\1" + it if it else b"\0" for it in entries)


APART = product([states(0, 0)])  # two sequences that no first byte begins together


# ---- what several commands say of one table

def counts(decided, ambiguous=0, unknown=0):
    """The last line of `conflicts`."""
    return b"pairs %d decided %d ambiguous %d unknown %d\n" % (decided + ambiguous + unknown, decided, ambiguous, unknown)


def fates(formats, dead=0, unknown=0):
    """The last line of `dead`, of formats with one signature each."""
    line = f"{formats} alive {formats - dead - unknown} dead {dead} unknown {unknown}"
    return f"formats {line} signatures {line}\n".encode()


def lines(numbers):
    """What `match` prints of one file where formats with one signature of the same number match."""
    return b"".join(b"fmt/%d %d\n" % (n, n) for n in numbers)


def shown(files, name, signatures, priorities=PAIRS):
    """`show`, and `show` of what it printed."""
    for said, these in ((name, files), (f"{name}, once more", {"s": signatures, "p": priorities})):
        yield Case(f"{said}: show", ["show", "s", "p"], these, signatures + b"\n" + priorities)


def refused(name, files, line):
    return Case(f"{name}: refused", ["show", "s", "p"], files, status=2, err=line.encode() + b"\n")


def decided(name, files, entries, is_paged=False):
    """A decided table: `find` writes this certificate, `check` accepts it, and `conflicts` has no line.

    Every successor in it is there itself, so it is one of version 1, too.
    """
    made = certificate(entries)
    yield Case(f"{name}: find", ["find", "--out", "o", "s", "p"], files, b"decided\n", made={"o": made}, is_paged=is_paged)
    yield Case(f"{name}: check", ["check", "s", "p", "o"], files | {"o": made}, b"accepted\n")
    yield Case(f"{name}: check of version 1", ["check", "s", "p", "o"], files | {"o": b"PSAC\1" + made[5:]}, b"accepted\n")
    yield Case(f"{name}: check of a byte less", ["check", "s", "p", "o"], files | {"o": made[:-1]}, b"refused C12 truncated\n", 1)
    yield Case(f"{name}: conflicts", ["conflicts", "s", "p"], files, counts(sum(1 for it in entries if it)))


def ambiguous(name, files, witness):
    """A table of two formats, and the one shortest file that gets both."""
    digits = witness.hex().encode()
    line = b"ambiguous fmt/1 fmt/2 1 2 %d %s\n" % (len(witness), digits)
    both = b"witness fmt/1 fmt/2\n" + digits + b"\n"
    yield Case(f"{name}: conflicts with a file", ["conflicts", "--hex", "s", "p"], files, line + counts(0, 1), 1)
    yield Case(f"{name}: find with a file", ["find", "--hex", "--out", "o", "s", "p"], files, both, made={"o": witness})
    yield Case(f"{name}: witness", ["witness", "s", "p", "f"], files | {"f": witness}, b"ambiguous fmt/1 fmt/2\n")
    yield Case(f"{name}: witness of a byte less", ["witness", "s", "p", "f"], files | {"f": witness[:-1]}, b"not ambiguous\n", 1)


# ---- expressions

def list_of(count):
    """A list of so many alternatives of one byte: first 43, then 41, with 44 in the middle, last 42."""
    parts = ["43"] + ["41"] * (count - 2) + ["42"]
    parts[count // 2] = "44"
    return "(" + "|".join(parts) + ")"


ALTERNATIVES = 2730  # the most of one byte in 8,192
ZEROS = bytes(BLOCK + 10)
STEPS = (b"A" + bytes(99)) * 2730  # longer than a block
EQUAL = b"\xaa" * 4096
# Expressions with files, and for each file where the expression stands: at its begin, anywhere, at its end.
SHAPES = [
    ("items *", "*" * BYTES, [(b"", (1, 2, 3)), (ZEROS, (1, 2, 3))]),
    ("items * and a byte", "*" * (BYTES - 2) + "41", [(ZEROS + b"A", (1, 2, 3)), (ZEROS, ()), (b"A" + ZEROS, (1, 2))]),
    ("bytes and *", "41*" * 2730 + "42",
     [(STEPS + b"B", (1, 2, 3)), (b"\0" + STEPS + b"B", (2, 3)), (STEPS[100:] + b"B", ()), (STEPS + b"B\0", (1, 2))]),
    ("a list", list_of(ALTERNATIVES),
     [(b"C", (1, 2, 3)), (b"D", (1, 2, 3)), (b"B", (1, 2, 3)), (b"E", ()), (ZEROS + b"B", (2, 3)), (b"B" + ZEROS, (1, 2)), (ZEROS, ())]),
    ("a list of pairs", "(" + "4242|" * 1637 + "4344)",
     [(b"CD", (1, 2, 3)), (b"C", ()), (b"CC", ()), (ZEROS[:BLOCK - 1] + b"CD", (2, 3))]),
    ("bytes", "aa" * 4096,
     [(EQUAL, (1, 2, 3)), (EQUAL[1:], ()), (ZEROS[:BLOCK - 5] + EQUAL, (2, 3)), (EQUAL + b"\0", (1, 2))]),
    ("any bytes", "??" * 4096, [(ZEROS[:4096], (1, 2, 3)), (ZEROS[:4095], ()), (ZEROS, (1, 2, 3))]),
    ("gaps", "{1-2}" * 1638 + "41",
     [(bytes(1638) + b"A", (1, 2, 3)), (bytes(3276) + b"A", (1, 2, 3)), (bytes(1637) + b"A", ()), (bytes(3277) + b"A", (2, 3)),
      (ZEROS + b"A", (2, 3))]),
]
# The shortest file with an expression, above, and another at its begin: the one, or its length. Then the class, if
# it can be told from few states.
SHORTEST = [
    ("items *", "41", b"A", "under"),
    ("items * and a byte", "42", b"BA", None),
    ("bytes and *", "41", b"A" * 2730 + b"B", None),
    ("a list", "42", b"B", "under"),
    ("a list of pairs", "43", b"CD", None),
    ("bytes", "AA", EQUAL, "over"),
    ("any bytes", "41", 4096, None),
    ("gaps", "00", 1639, None),
]


def shape_cases():
    for name, expression, matched in SHAPES:
        files = table(bof(1, expression), anywhere(2, expression), eof(3, expression))
        upper = expression.upper()
        canonical = table(bof(1, upper, most="0"), anywhere(2, upper), f"fmt/3,3,EOF,0,0,{upper}")
        yield from shown(files, name, canonical["s"])
        for k, (file, where) in enumerate(matched):
            yield Case(f"{name}: match of file {k}", ["match", "s", "p", "f"], files | {"f": file}, lines(where))
        if name in ("items *", "bytes", "any bytes"):  # of the others two copies have very many states
            yield Case(f"{name}: dead", ["dead", "s", "p"], table(bof(1, expression)), fates(1))
    expressions = {name: expression for name, expression, _ in SHAPES}
    for name, other, witness, kind in SHORTEST:
        files = table(bof(1, expressions[name]), bof(2, other))
        if isinstance(witness, int):
            yield Case(f"{name}: conflicts", ["conflicts", "s", "p"], files, b"ambiguous fmt/1 fmt/2 1 2 %d\n" % witness + counts(0, 1), 1)
        else:
            yield from ambiguous(name, files, witness)
        if kind:
            line = f"ambiguous fmt/1 fmt/2 1 2 {len(witness)} {kind}\n".encode()
            classes = "".join(f" {it} {int(it == kind)}" for it in CLASSES).encode()
            yield Case(f"{name}: conflicts by class", ["conflicts", "--class", "s", "p"], files, line + counts(0, 1)[:-1] + classes + b"\n", 1)


def over_two(one, expression):
    """Two equal formats and a third over both."""
    return table(bof(1, one), bof(2, one), bof(3, expression), pairs=["fmt/3,fmt/1", "fmt/3,fmt/2"])


def blocked_by_stars(count):
    """The certificate where so many items * outrank: they and the gap behind are all met from the first byte on."""
    slots = count + 1
    met = members(range(1, slots + 1), slots)
    return [product([states(0, 0) + members([0], slots), states(1, 1) + met, states(2, 2) + met], [2]), b"", b""]


def blocked_by_list(count):
    """The same of a list whose last alternative alone has the byte 42."""
    slots = count + 1
    rows = [states(k, k) + members([state], slots) for k, state in enumerate((0, count, slots))]
    return [product(rows, [2]), b"", b""]


def blocked_cases():
    for name, one, written, entries, least, most in [
        ("items * over two", "41", lambda n: "*" * n, blocked_by_stars, 5, BYTES),
        ("a list over two", "42", list_of, blocked_by_list, 5, ALTERNATIVES),
    ]:
        for count in (least, most):
            files = over_two(one, written(count))
            yield from decided(f"{name}, {count}", files, entries(count), is_paged=count == least)
            yield Case(f"{name}, {count}: dead", ["dead", "s", "p"], files, b"dead fmt/1\ndead fmt/2\n" + fates(3, 2), 1)
    stars = "*" * (BYTES - 2)
    yield from decided("items * apart", table(bof(1, "41" + stars), bof(2, "42" + stars)), [APART])
    yield from decided("lists apart", table(bof(1, list_of(ALTERNATIVES)), bof(2, list_of(ALTERNATIVES).replace("4", "5"))), [APART])
    together = [states(k, k) for k in range(4096)]
    yield from decided("bytes, but for the last", table(bof(1, "aa" * 4096), bof(2, "aa" * 4095 + "bb")), [product(together)])


def byte_cases():
    longer = [("items *", "*" * (BYTES + 1)), ("bytes", "41" * 4096 + "*"), ("a list", list_of(ALTERNATIVES) + "41"),
              ("no expression", "x" * (BYTES + 1))]
    for name, expression in longer:
        yield refused(f"{name}, a byte more", table(bof(1, expression)), "signatures row 1: L8 expression E1")
    yield refused("no expression, of 8,192 bytes", table(bof(1, "x" * BYTES)), "signatures row 1: L8 expression E2 at 0")


# ---- slots, offsets, numbers

# Rows of 65,535 slots, each with a file that it matches, one that it does not, and the row with a slot more.
WIDEST = [
    (bof(1, "41", most="65533"), bytes(65533) + b"A", bytes(65534) + b"A", bof(1, "41", most="65534")),
    (bof(1, "41", offset="65533"), bytes(65533) + b"A", bytes(65532) + b"A\0", bof(1, "41", offset="65534")),
    (bof(1, "41", offset="65533", most="65533"), bytes(65533) + b"A", bytes(65534) + b"A", bof(1, "4141", offset="65533", most="65533")),
    ("fmt/1,1,EOF,0,65533,41", b"A" + bytes(65533), b"A" + bytes(65534), "fmt/1,1,EOF,0,65534,41"),
    (bof(1, "{65533}41"), bytes(65533) + b"A", bytes(65532) + b"A\0", bof(1, "{65534}41")),
    (bof(1, "{65534}"), bytes(65534), bytes(65533), bof(1, "{65535}")),
    (bof(1, "{0-65533}41"), bytes(65533) + b"A", bytes(65534) + b"A", bof(1, "{0-65534}41")),
    (bof(1, "{65532-*}41"), bytes(65532) + b"A", bytes(65531) + b"A\0", bof(1, "{65533-*}41")),
    (anywhere(1, "42{65531}41"), b"\0B" + bytes(65531) + b"A\0", b"\0B" + bytes(65532) + b"A", anywhere(1, "42{65532}41")),
    (bof(1, "{65407}" + "41" * 127), bytes(65407) + b"A" * 127, bytes(65407) + b"A" * 126 + b"B", bof(1, "{65407}" + "41" * 128)),
]


def slot_cases():
    for k, (row, hit, miss, beyond) in enumerate(WIDEST):
        name = f"65,535 slots, row {k}"
        files = table(row)
        yield Case(f"{name}: match", ["match", "s", "p", "f", "g"], files | {"f": hit, "g": miss}, b"f\tfmt/1 1\ng\t-\n")
        yield refused(f"{name}, a slot more", table(beyond), "signatures row 1: L11 too many slots")
    steps = product([states(k, k) for k in range(SLOTS - 1)])
    apart = table(bof(1, "{65533}41"), bof(2, "{65533}42"))
    yield from decided("65,535 slots", apart, [steps])
    rows = [f"fmt/{n // 5 + 1},{n + 1},BOF,0,,{{65533}}{0x41 + n:02X}" for n in range(6)]
    yield from decided("65,535 slots in six signatures", table(*rows), [steps * 5])
    length = table(bof(1, "{65533}41"), bof(2, "??"))
    yield Case("65,535 slots: dead", ["dead", "s", "p"], length, fates(2))
    yield Case("65,535 slots: the shortest file", ["conflicts", "s", "p"], length, b"ambiguous fmt/1 fmt/2 1 2 65534\n" + counts(0, 1), 1)
    yield Case("65,535 slots: a budget of all states", ["conflicts", "--budget", "65534", "s", "p"], apart, counts(1))
    yield Case("65,535 slots: a budget of one less", ["conflicts", "--budget", "65533", "s", "p"], apart, b"unknown fmt/1 fmt/2 1 2\n" + counts(0, 0, 1), 1)


def row_fault(name, row, rule):
    return refused(name, table(row), f"signatures row 1: {rule}")


def number_cases():
    yield row_fault("offset 65,535", bof(1, "41", offset="65535"), "L11 too many slots")
    yield row_fault("offset 65,536", bof(1, "41", offset="65536"), "L7 offset")
    yield row_fault("maximum 65,535", bof(1, "41", most="65535"), "L11 too many slots")
    yield row_fault("maximum 65,536", bof(1, "41", most="65536"), "L7 offset")
    yield row_fault("maximum one below", bof(1, "41", offset="65533", most="65532"), "L7 offset")
    yield row_fault("gap 65,535", bof(1, "{65535}"), "L11 too many slots")
    yield row_fault("gap 65,536", bof(1, "41{65536}"), "L8 expression E3 at 2")
    yield row_fault("gap to 65,536", bof(1, "41{1-65536}"), "L8 expression E3 at 2")
    yield row_fault("gap of 0", bof(1, "41{0}"), "L8 expression E4 at 2")
    yield row_fault("gap falls by one", bof(1, "41{2-1}"), "L8 expression E5 at 2")
    yield row_fault("range of equal ends", bof(1, "41[42:42]"), "L8 expression E6 at 2")
    yield row_fault("bracket without a byte", bof(1, "41[!00:FF]"), "L8 expression E7 at 2")
    yield row_fault("end of nine bytes", bof(1, "41[!414243444546474849]"), "L8 expression E10 at 2")
    yield row_fault("PUID of ten digits", "fmt/1000000000,1,BOF,0,,41", "L4 puid")
    yield row_fault("signature of ten digits", "fmt/1,1000000000,BOF,0,,41", "L5 signature number")
    rows = ["fmt/999999999,999999998,BOF,0,,41", "x-fmt/999999999,999999999,BOF,0,,[!4142434445464748]"]
    nine = table(*rows, pairs=["x-fmt/999999999,fmt/999999999"])
    written = [row.replace("BOF,0,,", "BOF,0,0,") for row in rows]
    yield from shown(nine, "nine digits", table(*written)["s"], nine["p"])
    yield Case("nine digits: match", ["match", "s", "p", "f", "g"], nine | {"f": b"ABCDEFGH", "g": b"ABCDEFGI"},
               b"f\tfmt/999999999 999999998\ng\tx-fmt/999999999 999999999\n")
    yield Case("nine digits: only", ["conflicts", "--only", "fmt/999999999", "s", "p"], nine, counts(0))
    yield refused("a pair of ten digits", table(*rows, pairs=["x-fmt/999999999,fmt/1000000000"]), "priorities row 1: L4 puid")


# ---- formats and signatures

def full_rows():
    """Signatures with all their sequences, which take turns: the first of each, then the second, .."""
    return [f"fmt/{n // 4 + 1},{n + 1},BOF,{4 * k},,{n:04X}{k:02X}" for k in range(SEQUENCES) for n in range(SIGNATURES)]


def head_of(n, last=SEQUENCES - 1):
    """The file that the signature n has at its begin."""
    return b"".join(number(n, 2) + bytes([k, 0]) for k in range(SEQUENCES - 1)) + number(n, 2) + bytes([last])


def great_row(n, k, is_canonical):
    """A row of some two hundred bytes, as it is given and as it is shown."""
    if is_canonical:
        return f"fmt/{n // 4 + 1},{n + 1},BOF,{k},{k},{n:04X}{k:02X}{{3}}*[61:7A](6D|6E6F)" + "A5" * 70
    return f"fmt/{n // 4 + 1},{n + 1},BOF,{k},,{n:04x}{k:02x}{{3-3}}{{0-*}}[61:7a](6d|6e6f)" + "a5" * 70


def full_cases():
    rows = [great_row(n, k, False) for k in range(SEQUENCES) for n in range(SIGNATURES)]
    canonical = [great_row(n, k, True) for n in range(SIGNATURES) for k in range(SEQUENCES)]
    pairs = [f"fmt/{n + 1},fmt/{n}" for n in range(1, FORMATS)]
    files = table(*rows, pairs=pairs)
    yield from shown(files, "all signatures", table(*canonical)["s"], files["p"])
    yield refused("all signatures, a pair more", table(*rows, pairs=[*pairs, "fmt/1,fmt/1000"]), f"priorities row {FORMATS}: L17 cycle of priorities")
    yield refused("all signatures, a pair twice", table(*rows, pairs=[*pairs, pairs[0]]), f"priorities row {FORMATS}: L15 pair twice")
    rows = full_rows()
    files = table(*rows)
    for name, n in (("first", 0), ("last", SIGNATURES - 1)):
        found = b"f\tfmt/%d %d\ng\t-\n" % (n // 4 + 1, n + 1)
        yield Case(f"all signatures: match of the {name}", ["match", "s", "p", "f", "g"], files | {"f": head_of(n), "g": head_of(n, 8)}, found)
    behind = f"signatures row {SIGNATURES * SEQUENCES + 1}: "
    yield refused("a ninth sequence", table(*rows, "fmt/1000,4000,BOF,0,,41"), behind + "L10 too many sequences")
    yield refused("a signature more", table(*rows, "fmt/1000,4001,BOF,0,,41"), behind + "L12 too many formats")


def format_rows(count):
    """Formats of two bytes, of which the files are never the same."""
    return [bof(n + 1, f"{n:04X}") for n in range(count)]


def format_cases():
    files = table(*format_rows(FORMATS))
    first = [n >> 8 for n in range(FORMATS)]
    halfway = product([states(0, 0), states(1, 1)])
    entries = [halfway if first[i] == first[j] else APART for i in range(FORMATS) for j in range(i + 1, FORMATS)]
    yield from decided("all formats", files, entries)
    made = certificate(entries)
    yield Case("all formats: find with all bytes", ["find", "--hex", "--out", "o", "s", "p"], files, b"decided\n" + made.hex().encode() + b"\n", made={"o": made})
    yield Case("all formats: check of a byte more", ["check", "s", "p", "o"], files | {"o": made + b"\0"}, b"refused C11 trailing\n", 1)
    yield Case("all formats: dead", ["dead", "s", "p"], files, fates(FORMATS))
    yield Case("all formats: match", ["match", "s", "p", "f"], files | {"f": b"\x03\xe7"}, b"fmt/1000 1000\n")
    yield refused("a format more", table(*format_rows(FORMATS + 1)), f"signatures row {FORMATS + 1}: L12 too many formats")


# ---- outranking signatures

def ranges(count):
    """Brackets of one byte that have all 256 together, each its own: of four bytes, the last two of two if there are 65."""
    ends = [4 * k for k in range(64)] + [256]
    if count == 65:
        ends.insert(64, 254)
    return list(zip(ends, ends[1:]))


def outranked(count):
    rows = [bof(k + 3, f"41[{low:02X}:{high - 1:02X}]") for k, (low, high) in enumerate(ranges(count))]
    over = [f"fmt/{k + 3},fmt/{n}" for k in range(count) for n in (1, 2)]
    return table(bof(1, "41??"), bof(2, "41??"), *rows, pairs=over)


def blocked_by_all(count):
    """The certificate: of the third byte on, one of the blockers is there, and the others are nowhere."""
    one = lambda k, state: b"".join(members([state] if k == at else [], 3) for at in range(count))
    rows = [states(0, 0) + members([0], 3) * count, states(1, 1) + members([1], 3) * count]
    rows += [states(at, at) + one(k, at) for at in (2, 3) for k in range(count)]
    return product(rows, range(2, count + 2))


def blocker_cases():
    among = 64 * 63 // 2
    entries = [blocked_by_all(64)] + [b""] * 128 + [halfway_apart()] * among
    yield from decided("64 outranking", outranked(64), entries, is_paged=True)
    yield Case("64 outranking: dead", ["dead", "s", "p"], outranked(64), b"dead fmt/1\ndead fmt/2\n" + fates(66, 2), 1)
    beyond = certificate([blocked_by_all(65)] + [b""] * 130 + [halfway_apart()] * (65 * 64 // 2))
    yield Case("65 outranking: find", ["find", "--out", "o", "s", "p"], outranked(65) | {"o": b"kept"}, b"gave up 1 2\n", 1,
               b"over 64 signatures outrank 1 or 2: see conflicts\n", made={"o": b"kept"})
    yield Case("65 outranking: conflicts", ["conflicts", "s", "p"], outranked(65), b"unknown fmt/1 fmt/2 1 2\n" + counts(65 * 32, 0, 1), 1)
    yield Case("65 outranking: dead", ["dead", "s", "p"], outranked(65), b"unknown fmt/1\nunknown fmt/2\n" + fates(67, 0, 2), 1)
    yield Case("65 outranking: check", ["check", "s", "p", "o"], outranked(65) | {"o": beyond}, b"refused C5 blockers pair 0 table 0\n", 1)


def halfway_apart():
    """Two sequences that part at the second byte."""
    return product([states(0, 0), states(1, 1)])


# ---- budgets

NO_BUDGET = b"error: invalid value '%s' for '--budget <N>': %s is not in 1..=4294967295\n.."


def budget_cases():
    apart, halfway = table(bof(1, "41"), bof(2, "42")), table(bof(1, "4141"), bof(2, "41[42:43]"))
    for budget in (1, BUDGET):
        words = ["--budget", str(budget)]
        yield Case(f"budget {budget}: find", ["find", *words, "--out", "o", "s", "p"], apart, b"decided\n", made={"o": certificate([APART])})
        yield Case(f"budget {budget}: conflicts", ["conflicts", *words, "s", "p"], apart, counts(1))
        yield Case(f"budget {budget}: dead", ["dead", *words, "s", "p"], table(bof(1, "*")), fates(1))
    yield Case("budget 1: find gives up", ["find", "--budget", "1", "--out", "o", "s", "p"], halfway, b"gave up 1 2\n", 1, b"more than 1 rows\n")
    yield Case("budget 1: conflicts gives up", ["conflicts", "--budget", "1", "s", "p"], halfway, b"unknown fmt/1 fmt/2 1 2\n" + counts(0, 0, 1), 1)
    yield Case("budget 2: find", ["find", "--budget", "2", "--out", "o", "s", "p"], halfway, b"decided\n", made={"o": certificate([halfway_apart()])})
    for budget in (b"0", b"4294967296"):
        for command in (["find", "--out", "o"], ["conflicts"], ["dead"]):
            words = [*command, "--budget", budget, "s", "p"]
            yield Case(f"budget {budget.decode()}: {command[0]}", words, apart, status=2, err=NO_BUDGET % (budget, budget))


# ---- reads and writes

def device_cases():
    both = table(bof(1, "41"), eof(2, "42"))
    whole = b"A" + bytes(32 * MIB - 2)
    yield Case("32 MiB: witness", ["witness", "s", "p", "f"], both | {"f": whole + b"B"}, b"ambiguous fmt/1 fmt/2\n")
    yield Case("32 MiB: witness of another end", ["witness", "s", "p", "f"], both | {"f": whole + b"C"}, b"not ambiguous\n", 1)
    yield Case("32 MiB: match", ["match", "s", "p", "f"], both | {"f": whole + b"B"}, lines((1, 2)))
    apart, equal, longer = table(bof(1, "41"), bof(2, "42")), table(bof(1, "41"), bof(2, "4142")), b"x" * 1000
    yield Case("OUT that was longer", ["find", "--out", "o", "s", "p"], apart | {"o": longer}, b"decided\n", made={"o": certificate([APART])})
    yield Case("OUT that was longer, of a file", ["find", "--out", "o", "s", "p"], equal | {"o": longer}, b"witness fmt/1 fmt/2\n", made={"o": b"AB"})
    yield Case("OUT of a search that gives up", ["find", "--budget", "1", "--out", "o", "s", "p"], equal | {"o": longer},
               b"gave up 1 2\n", 1, b"more than 1 rows\n", {"o": longer})
    found = b"ambiguous fmt/1 fmt/2 1 2 2\n" + counts(0, 1)
    yield Case("priorities that were longer", ["conflicts", "--priorities", "o", "s", "p"], equal | {"o": longer}, found, 1,
               made={"o": PAIRS + b"fmt/2,fmt/1\n"})
    yield Case("a file of a pair that was longer", ["conflicts", "--files", "d", "s", "p"], equal | {"d/fmt_1-fmt_2.bin": longer}, found, 1,
               made={"d/fmt_1-fmt_2.bin": b"AB"})


# ---- words

NO_TEXT = b"error: invalid UTF-8 was detected in one or more arguments\n"


def word_cases():
    ten = table(*[bof(n, f"{n:02X}") for n in range(1, 11)])
    names = [f"file{n}" for n in (3, 1, 10, 2, 9, 5, 4, 8, 7, 6)]
    files = ten | {name: bytes([int(name[4:])]) for name in names}
    said = b"".join(b"%s\tfmt/%s %s\n" % (it.encode(), it[4:].encode(), it[4:].encode()) for it in names)
    yield Case("ten files", ["match", "s", "p", *names], files, said)
    blanks = {" a": b"\1", "a ": b"\2", " a ": b"\3", "a": b"\4", " ": b"\5"}
    for name, data in blanks.items():
        yield Case(f"the name '{name}'", ["match", "s", "p", name], ten | blanks, lines(data))
        yield Case(f"the name '{name}': out", ["find", "--out", name, "s", "p"], table(bof(1, "41"), bof(2, "42")) | blanks, b"decided\n",
                   made=blanks | {name: certificate([APART])})
    yield Case("a missing name with a blank", ["match", "s", "p", "b "], ten | {"b": b"\1"}, status=3, err=b"cannot open b \n")
    yield Case("a word that is no UTF-8", [b"\xff"], {}, status=2, err=NO_TEXT)
    yield Case("a name that is no UTF-8", ["match", "s", "p", b"\xff"], ten | {b"\xff": b"\1"}, status=2, err=NO_TEXT)


# ---- CSV

FIRST, SECOND = b"fmt/1,1,BOF,0,0,4142\n", b"fmt/2,2,EOF,0,0,43\n"
MARK = b"\xef\xbb\xbf"
COLUMNS = HEADER.rstrip(b"\n")
# The signature file, then the rows that it has, as `show` prints them.
READ = [
    ("LF", HEADER + FIRST + SECOND, FIRST + SECOND),
    ("no last end", (HEADER + FIRST + SECOND)[:-1], FIRST + SECOND),
    ("CR", (HEADER + FIRST + SECOND).replace(b"\n", b"\r"), FIRST + SECOND),
    ("CR LF", (HEADER + FIRST + SECOND).replace(b"\n", b"\r\n"), FIRST + SECOND),
    ("three ends", COLUMNS + b"\r" + FIRST[:-1] + b"\r\n" + SECOND, FIRST + SECOND),
    ("empty lines", b"\n\r\n\r" + HEADER + b"\n\n" + FIRST + b"\r\r" + SECOND + b"\r\n\r\n", FIRST + SECOND),
    ("byte order mark", MARK + HEADER + FIRST, FIRST),
    ("byte order mark before a quote", MARK + b'"puid"' + HEADER[4:] + FIRST, FIRST),
    ("quoted fields", b'"puid","signature","position","offset","max_offset","expression"\n"fmt/1","1","BOF","0","0","4142"\n', FIRST),
    ("quoted fields and CR LF", HEADER + b'"fmt/1","1","BOF","0","0","4142"\r\n"fmt/2","2","EOF","0","","43"\r\n', FIRST + SECOND),
    ("empty quoted field", HEADER + b'fmt/1,1,BOF,0,"",4142\n', FIRST),
    ("bytes behind a closing quote", HEADER + b'"fmt"/1,""1,"B"OF,0,,"41"42\n', FIRST),
    ("quote never closed", HEADER + b'fmt/1,1,BOF,0,,"4142', FIRST),
    ("header alone", HEADER, b""),
    ("header never closed", COLUMNS.replace(b"expression", b'"expression'), b""),
]
ROW_1, AT = b"fmt/1,1,BOF,0,,", "L8 expression E2 at "
# The signature file, and the refusal that tells what the fields were.
NOT_READ = [
    ("nothing", b"", "signatures: L2 header"),
    ("mark alone", MARK, "signatures: L2 header"),
    ("two marks", MARK * 2 + HEADER, "signatures: L2 header"),
    ("mark behind a line", b"\n" + MARK + HEADER, "signatures: L2 header"),
    ("mark at a row", HEADER + MARK + FIRST, "signatures row 1: L4 puid"),
    ("half a mark", MARK[:2] + HEADER, "signatures: L2 header"),
    ("comma in quotes", HEADER + ROW_1 + b'"4142,43"\n', f"signatures row 1: {AT}4"),
    ("LF in quotes", HEADER + ROW_1 + b'"4142\n43"\n', f"signatures row 1: {AT}4"),
    ("CR LF in quotes", HEADER + FIRST + b'"fmt/2",2,BOF,0,,"\r\n43"\n', f"signatures row 2: {AT}0"),
    ("doubled quote", HEADER + ROW_1 + b'"4142""43"\n', f"signatures row 1: {AT}4"),
    ("doubled quote first", HEADER + ROW_1 + b'"""4142"\n', f"signatures row 1: {AT}0"),
    ("doubled quote and a comma", HEADER + ROW_1 + b'"4142"",43"\n', f"signatures row 1: {AT}4"),
    ("quote in a field", HEADER + ROW_1 + b'41"42\n', f"signatures row 1: {AT}2"),
    ("quote in a field, and a comma", HEADER + b'fmt/1,1,BOF,0,0"1,41"\n', "signatures row 1: L7 offset"),
    ("quote behind a closing quote", HEADER + ROW_1 + b'"41"42"43\n', f"signatures row 1: {AT}4"),
    ("two quotes behind it", HEADER + ROW_1 + b'"41"42""\n', f"signatures row 1: {AT}4"),
    ("comma behind it", HEADER + b'fmt/1,1,BOF,0,"0"",",41\n', "signatures row 1: L7 offset"),
    ("never closed, with rows", HEADER + FIRST + b'fmt/2,2,BOF,0,,"43\n' + SECOND, f"signatures row 2: {AT}2"),
    ("a blank", HEADER + FIRST + b" \n" + SECOND, "signatures row 2: L3 fields"),
    ("two quotes alone", HEADER + FIRST + b'""\n', "signatures row 2: L3 fields"),
    ("comment", HEADER + b"# fmt\n" + FIRST, "signatures row 1: L3 fields"),
    ("blank before a field", HEADER + b"fmt/1, 1,BOF,0,0,4142\n", "signatures row 1: L5 signature number"),
    ("blank behind a field", HEADER + b"fmt/1,1,BOF ,0,0,4142\n", "signatures row 1: L6 position"),
    ("five fields", HEADER + b"fmt/1,1,BOF,0,4142\n", "signatures row 1: L3 fields"),
    ("seven fields", HEADER + b"fmt/1,1,BOF,0,0,4142,\n", "signatures row 1: L3 fields"),
    ("many fields", HEADER + FIRST + b"," * 100_000 + b"\n", "signatures row 2: L3 fields"),
    ("no UTF-8", HEADER + ROW_1 + b"41\xff\n", f"signatures row 1: {AT}2"),
    ("byte 00", HEADER + ROW_1 + b"4\0\n", f"signatures row 1: {AT}1"),
]
# The same of priority files, of which each has the one pair `fmt/2,fmt/1`.
READ_PAIRS = [
    ("quoted", b'"higher","lower"\r\n"fmt/2","fmt/1"'),
    ("mark and CR", MARK + b"higher,lower\r\rfmt/2,fmt/1\r"),
    ("bytes behind a closing quote", b'higher,"low"er\n"fmt/"2,"fmt/1'),
]
NOT_READ_PAIRS = [
    ("quote in a field", PAIRS + b'fmt/2,fmt/"1"\n', "priorities row 1: L4 puid"),
    ("two marks", MARK * 2 + PAIRS, "priorities: L2 header"),
    ("nothing", b"\n", "priorities: L2 header"),
    ("never closed", PAIRS + b'fmt/2,"fmt/1\n', "priorities row 1: L4 puid"),
    ("a blank", PAIRS + b"fmt/2,fmt/1\n ", "priorities row 2: L3 fields"),
]


def csv_cases():
    for name, signatures, rows in READ:
        yield Case(f"CSV, {name}", ["show", "s", "p"], {"s": signatures, "p": PAIRS}, HEADER + rows + b"\n" + PAIRS)
    for name, signatures, line in NOT_READ:
        yield refused(f"CSV, {name}", {"s": signatures, "p": PAIRS}, line)
    two, ranked = HEADER + FIRST + SECOND, PAIRS + b"fmt/2,fmt/1\n"
    for name, priorities in READ_PAIRS:
        yield Case(f"CSV of pairs, {name}", ["show", "s", "p"], {"s": two, "p": priorities}, two + b"\n" + ranked)
    for name, priorities, line in NOT_READ_PAIRS:
        yield refused(f"CSV of pairs, {name}", {"s": two, "p": priorities}, line)


# ---- runs

GROUPS = [shape_cases, blocked_cases, byte_cases, slot_cases, number_cases, full_cases, format_cases, blocker_cases,
          budget_cases, device_cases, word_cases, csv_cases]


def small_stack():
    resource.setrlimit(resource.RLIMIT_STACK, (STACK, STACK))


def put(folder, files):
    for name, data in files.items():
        path = os.path.join(os.fsencode(folder), os.fsencode(name))
        os.makedirs(os.path.dirname(path), exist_ok=True)
        with open(path, "wb") as f:
            f.write(data)


def names_of(files):
    return {os.fsencode(name) for name in files}


def names(folder):
    """All files of a folder and those below."""
    top = os.fsencode(folder)
    return {os.path.relpath(os.path.join(at, it), top) for at, _, files in os.walk(top) for it in files}


def got(folder, name):
    """The bytes of a file, or nothing where there is none."""
    try:
        with open(os.path.join(os.fsencode(folder), os.fsencode(name)), "rb") as f:
            return f.read()
    except OSError:
        return None


def differs(what, data, wanted):
    """What is wrong with some bytes, in one line."""
    if data == wanted:
        return None
    if data is None:
        return f"{what} is not there"
    same = os.path.commonprefix([data, wanted])
    at = len(same)
    return f"{what} has {len(data)} bytes for {len(wanted)}, other from {at} on: {data[at:at + 60]!r} for {wanted[at:at + 60]!r}"


def paged(folder):
    """What the checker that was written from the pages says of the certificate."""
    try:
        return page_check.verdict(*(got(folder, name) for name in "spo"))
    except Exception as fault:
        return repr(fault)


def failure(case, program):
    """What a run did and must not do, or nothing."""
    with tempfile.TemporaryDirectory() as folder:
        put(folder, case.files)
        try:
            done = subprocess.run([program, *case.words], cwd=folder, stdin=subprocess.DEVNULL, capture_output=True,
                                  timeout=LONGEST, preexec_fn=small_stack)
        except subprocess.TimeoutExpired:
            return f"no end in {LONGEST} seconds"
        found = [None if done.returncode == case.status else f"status {done.returncode} for {case.status}"]
        err = done.stderr[:len(case.err) - 2] + b".." if case.err.endswith(b"..") else done.stderr
        found += [differs("output", done.stdout, case.out), differs("error output", err, case.err)]
        found += [differs(f"the file {name!r}", got(folder, name), data) for name, data in case.made.items()]
        found += [f"the file {name!r} is made, too" for name in sorted(names(folder) - names_of(case.files | case.made))]
        found += [f"page_check.py says {paged(folder)}" if case.is_paged and paged(folder) != "accepted" else None]
        return "; ".join(it for it in found if it)


def main():
    if len(sys.argv) != 2:
        sys.exit(__doc__)
    program, begin, run, failed = os.path.abspath(sys.argv[1]), time.monotonic(), 0, 0
    for group in GROUPS:
        for case in group():
            run += 1
            said = failure(case, program)
            if said:
                failed += 1
                print(f"limits: {case.name}: {said}", flush=True)
    print(f"limits: {run} runs, {failed} failed, {time.monotonic() - begin:.0f} seconds")
    sys.exit(failed > 0)


if __name__ == "__main__":
    main()
