#!/usr/bin/env python3
"""A plain judge of tables: whether the two files load, or the line of the first rule that refuses them.

    python3 bench/plain_load.py SIGS PRIOS

It prints `loads`, with status 0, or the line, with status 2. It was written from the pages on formats
alone (`docs/FORMATS.md`), and shares no code
with the program: it is an oracle for tests, slow and short.
"""
import csv
import io
import re
import sys

SIGNATURES = "puid,signature,position,offset,max_offset,expression".split(",")
PRIORITIES = ["higher", "lower"]
PUID = re.compile(r"(x-)?fmt/[1-9][0-9]{0,8}")
NUMBER = re.compile(r"[1-9][0-9]{0,8}")
OFFSET = re.compile(r"0|[1-9][0-9]{0,4}")
HEX = "0123456789ABCDEFabcdef"
csv.field_size_limit(1 << 30)


class Refused(Exception):
    """The rule, as its line says it."""


# ---- the grammar of expressions, character by character

def digits(of, k, then):
    """What may follow k digits of a number: another digit while there are fewer than five."""
    more = {d: (of, k + 1) for d in "0123456789"} if 0 < k < 5 else {}
    return more | then


def pairs(of, then):
    """The states of pairs of digits: at least one pair, and behind each pair what may follow."""
    return {(of, "first"): {d: (of, "half") for d in HEX}, (of, "half"): {d: (of, "more") for d in HEX},
            (of, "more"): {d: (of, "half") for d in HEX} | then}


def bracket(of, back):
    """A bracket, which begins in (of, "open") and ends in a given state."""
    states = pairs((of, "range"), {":": ((of, "last"), "first")}) | pairs((of, "last"), {"]": back})
    states |= pairs((of, "not"), {":": ((of, "last"), "first"), "]": back})
    half = {d: ((of, "range"), "half") for d in HEX}
    return states | {(of, "open"): half | {"!": ((of, "not"), "first")}}


def grammar():
    """For each state the states behind it; a text may end in the state `top`."""
    states = {"begin": None, "top": None, "pair": {d: "top" for d in HEX}, "any": {"?": "top"}}
    begins = {d: "pair" for d in HEX} | {"?": "any", "*": "top", "{": "gap", "[": ("one", "open"), "(": ("list", 1, "begin")}
    states["begin"] = states["top"] = begins
    numbers = {d: "123456789".count(d) for d in "0123456789"}
    states["gap"] = {d: ("least", n) for d, n in numbers.items()}
    states["behind"] = {d: ("most", n) for d, n in numbers.items()} | {"*": "star"}
    states["star"] = {"}": "top"}
    for k in range(6):
        states["least", k] = digits("least", k, {"}": "top", "-": "behind"})
        states["most", k] = digits("most", k, {"}": "top"})
    states |= bracket("one", "top")
    for n in (1, 2):
        part = {d: ("list", n, "half") for d in HEX} | {"[": (("list", n), "open")}
        states["list", n, "begin"] = part
        states["list", n, "half"] = {d: ("list", n, "part") for d in HEX}
        states["list", n, "part"] = part | {"|": ("list", 2, "begin")} | ({")": "top"} if n == 2 else {})
        states |= bracket(("list", n), ("list", n, "part"))
    return states


GRAMMAR = grammar()


def judge_form(text):
    """E2: the characters before the first that no text of the grammar has there."""
    state = "begin"
    for place, character in enumerate(text):
        if character not in GRAMMAR[state]:
            raise Refused(f"L8 expression E2 at {place}")
        state = GRAMMAR[state][character]
    if state != "top":
        raise Refused(f"L8 expression E2 at {len(text)}")


# ---- what an expression in the grammar may still break, and its slots

def judge_gap(text):
    """The slots of a gap, its text without the braces."""
    least, _, most = text.partition("-")
    numbers = [int(n) for n in (least, most) if n not in ("", "*")]
    if max(numbers) > 65535:
        raise Refused("E3")
    if most == "*":
        return numbers[0] + 1
    if numbers[-1] == 0:
        raise Refused("E4")
    if numbers[0] > numbers[-1]:
        raise Refused("E5")
    return numbers[-1]


def judge_bracket(text):
    """The slots of a bracket, its text without the brackets."""
    ends = [bytes.fromhex(end) for end in text.lstrip("!").split(":")]
    a, b, excludes = ends[0], ends[-1], text[0] == "!"
    is_usual = len(a) == len(b) and len(a) <= 8
    if is_usual and len(ends) == 2 and not a < b:
        raise Refused("E6")
    if is_usual and excludes and len(ends) == 2 and a == bytes(len(a)) and b == b"\xff" * len(b):
        raise Refused("E7")
    if len(a) != len(b):
        raise Refused("E9")
    if len(a) > 8:
        raise Refused("E10")
    return 1 if len(a) == 1 else len(a) * rows_of(excludes, a, b)


def rows_of(excludes, a, b):
    """How many rows of classes a longer bracket unfolds into, those with an empty class left out."""
    below = lambda end, places: sum(end[j] > 0 for j in places)
    above = lambda end, places: sum(end[j] < 255 for j in places)
    n = len(a)
    if excludes:
        return below(a, range(n)) + above(b, range(n))
    k = next(j for j in range(n) if a[j] != b[j])
    return 2 + above(a, range(k + 1, n)) + (b[k] - a[k] > 1) + below(b, range(k + 1, n))


def slots_of(text):
    """The slots of an expression in the grammar, or the first gap or bracket that is refused."""
    slots = 0
    for found in re.finditer(r"\{([^}]*)\}|\[([^\]]*)\]|\*|\?\?|[0-9A-Fa-f]{2}", text):
        try:
            slots += judge_gap(found[1]) if found[1] else judge_bracket(found[2]) if found[2] else 1
        except Refused as fault:
            raise Refused(f"L8 expression {fault} at {found.start()}")
    return slots


# ---- tables

def records(data, header, file):
    """The rows behind the header. One byte order mark is taken off, as `csv` does."""
    data = data.removeprefix(b"\xef\xbb\xbf")
    found = [record for record in csv.reader(io.StringIO(data.decode("latin-1"), newline="")) if record]
    if not found or found[0] != header:
        raise Refused(f"{file}: L2 header")
    return found[1:]


class Table:
    def __init__(self):
        self.formats, self.owner, self.sequences, self.over = set(), {}, {}, {}

    def add_row(self, row):
        """A row of the signature file, by its rules in turn."""
        require(len(row) == 6, "L3 fields")
        puid, number, position, offset, most, text = row
        require(PUID.fullmatch(puid), "L4 puid")
        require(NUMBER.fullmatch(number), "L5 signature number")
        require(position in ("BOF", "EOF", "Variable"), "L6 position")
        place = place_slots(position, offset, most)
        require(len(text) <= 8192, "L8 expression E1")
        judge_form(text)
        slots = slots_of(text)
        require(self.owner.get(number, puid) == puid, "L9 signature of two formats")
        require(self.sequences.get(number, 0) < 8, "L10 too many sequences")
        require(place + slots <= 65535, "L11 too many slots")
        self.formats.add(puid)
        self.owner[number] = puid
        self.sequences[number] = self.sequences.get(number, 0) + 1
        require(len(self.formats) <= 1000 and len(self.owner) <= 4000, "L12 too many formats")

    def add_pair(self, row):
        """A row of the priority file, by its rules in turn."""
        require(len(row) == 2, "L3 fields")
        require(all(PUID.fullmatch(puid) for puid in row), "L4 puid")
        require(set(row) <= self.formats, "L13 unknown format")
        higher, lower = row
        require(higher != lower, "L14 format over itself")
        require(lower not in self.over.get(higher, ()), "L15 pair twice")
        require(not self.leads(lower, higher), "L17 cycle of priorities")
        self.over.setdefault(higher, set()).add(lower)

    def leads(self, first, last):
        """Whether pairs lead from one format down to another."""
        seen, todo = {first}, [first]
        while todo:
            for lower in self.over.get(todo.pop(), ()):
                if lower not in seen:
                    seen.add(lower)
                    todo.append(lower)
        return last in seen


def require(holds, rule):
    if not holds:
        raise Refused(rule)


def place_slots(position, offset, most):
    """The slots that a place adds."""
    if position == "Variable":
        require(offset == most == "", "L7 offset")
        return 2
    for number in [offset] + ([most] if most else []):
        require(OFFSET.fullmatch(number) and int(number) <= 65535, "L7 offset")
    require(not most or int(offset) <= int(most), "L7 offset")
    return int(most or offset) + 1


def refusal(signatures, priorities):
    """The line that refuses the files, given as bytes, or None where they load."""
    table = Table()
    try:
        for data, header, file, add in [(signatures, SIGNATURES, "signatures", table.add_row),
                                        (priorities, PRIORITIES, "priorities", table.add_pair)]:
            for number, row in enumerate(records(data, header, file), 1):
                try:
                    add(row)
                except Refused as rule:
                    raise Refused(f"{file} row {number}: {rule}")
    except Refused as line:
        return str(line)
    return None


def main():
    if len(sys.argv) != 3:
        sys.exit(__doc__)
    files = []
    for name in sys.argv[1:]:
        with open(name, "rb") as f:
            files.append(f.read())
    line = refusal(*files)
    print(line or "loads")
    sys.exit(2 if line else 0)


if __name__ == "__main__":
    main()
