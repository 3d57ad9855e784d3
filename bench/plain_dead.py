#!/usr/bin/env python3
"""Holds `dead` against brute force over small random tables.

    python3 bench/plain_dead.py PROGRAM [TABLES [SEED]]

Each table has up to five formats over two letters, with gaps, lists and exclusions, and random priorities.
All files of at most six bytes over these letters and a third byte are tried, by a matcher that knows no
automaton: it takes an expression item by item, from every offset. No expression of these tables tells the
third byte from those that are left out. Where one of these files hits a signature and leaves its format, the
program must find a file of the least such length; else it must find a longer file, or say that the signature
is dead. Each file that it prints is matched here too, and must leave the format. Lines, counts and status
must be those that follow.

It prints what was found, and ends with status 1 at the first difference. Without TABLES it takes 1,000, and
without SEED the seed 1.
"""
import collections
import itertools
import os
import random
import subprocess
import sys
import tempfile
import typing

sys.dont_write_bytecode = True

HEADER = "puid,signature,position,offset,max_offset,expression\n"
LETTERS, LONGEST = (0x41, 0x42, 0x43), 6
FILES = [bytes(it) for length in range(LONGEST + 1) for it in itertools.product(LETTERS, repeat=length)]


# An item is a set of bytes, a gap, or a list of alternatives, each a row of sets.


class Gap(typing.NamedTuple):
    least: int
    greatest: typing.Optional[int]  # None for no greatest length


def random_byte(chance):
    kind = chance.randrange(8)
    letter = chance.choice((0x41, 0x42))
    if kind == 0:
        return f"[!{letter:02X}]", frozenset(range(256)) - {letter}
    if kind == 1:
        return "[41:42]", frozenset((0x41, 0x42))
    return f"{letter:02X}", frozenset((letter,))


def random_item(chance):
    kind = chance.randrange(9)
    if kind == 0:
        return "*", Gap(0, None)
    if kind == 1:
        least = chance.randrange(3)
        greatest = least + chance.randrange(1, 3)
        return f"{{{least}-{greatest}}}", Gap(least, greatest)
    if kind == 2:
        return "??", frozenset(range(256))
    if kind == 3:
        rows = [[random_byte(chance) for _ in range(chance.randrange(1, 3))] for _ in range(2)]
        return "(" + "|".join("".join(text for text, _ in row) for row in rows) + ")", tuple(tuple(it for _, it in row) for row in rows)
    return random_byte(chance)


def random_sequences(chance):
    """The sequences of a signature, each with its text."""
    found = []
    for _ in range(chance.choice((1, 1, 1, 2))):
        items = [random_item(chance) for _ in range(chance.randrange(1, 4))]
        position = chance.choice(("BOF", "BOF", "EOF", "Variable"))
        least = 0 if position == "Variable" else chance.randrange(2)
        greatest = least + chance.randrange(2)
        offsets = "," if position == "Variable" else f"{least},{greatest}"
        text = f"{position},{offsets},{''.join(text for text, _ in items)}"
        found.append((text, (position, least, greatest, tuple(item for _, item in items))))
    return found


def random_table(chance):
    """The texts of both files, the signatures by their numbers in table order, and the pairs of priorities."""
    formats = chance.randrange(1, 6)
    rows, signatures, made = [], {}, []
    for puid in range(1, formats + 1):
        for _ in range(chance.choice((1, 1, 2))):
            # some have the sequences of another, so that files cannot tell them apart
            made.append(chance.choice(made) if made and chance.random() < 0.12 else random_sequences(chance))
            rows += [f"fmt/{puid},{len(made)},{text}\n" for text, _ in made[-1]]
            signatures[len(made)] = (puid, [sequence for _, sequence in made[-1]])
    pairs = [(a, b) for a in range(1, formats + 1) for b in range(a + 1, formats + 1) if chance.random() < 0.5]
    order = list(range(1, formats + 1))
    chance.shuffle(order)
    pairs = [(order[a - 1], order[b - 1]) for a, b in pairs]
    return HEADER + "".join(rows), "higher,lower\n" + "".join(f"fmt/{a},fmt/{b}\n" for a, b in pairs), signatures, set(pairs)


def ends(items, file, offset):
    """Where words of the items end that begin at the offset."""
    if not items:
        yield offset
        return
    item, later = items[0], items[1:]
    if isinstance(item, frozenset):
        if offset < len(file) and file[offset] in item:
            yield from ends(later, file, offset + 1)
    elif isinstance(item, Gap):
        least, greatest = item
        for length in range(least, len(file) - offset + 1 if greatest is None else greatest + 1):
            if offset + length <= len(file):
                yield from ends(later, file, offset + length)
    else:
        for row in item:
            yield from ends(row + later, file, offset)


def occurs(sequence, file):
    position, least, greatest, items = sequence
    for offset in range(len(file) + 1):
        if position == "BOF" and not least <= offset <= greatest:
            continue
        for end in ends(items, file, offset):
            if position != "EOF" or least <= len(file) - end <= greatest:
                return True
    return False


def matching(signatures, file):
    """The signatures that hit the file."""
    return {number for number, (_, sequences) in signatures.items() if all(occurs(it, file) for it in sequences)}


def is_left(puid, hits, signatures, pairs):
    """Whether a file that these signatures hit leaves the format, which one of them is of."""
    return not any((signatures[number][0], puid) in pairs for number in hits)


def shortest(signatures, pairs):
    """Of each signature the length of a shortest file that it hits and that leaves its format, if one of FILES is."""
    found = {}
    for file in FILES:
        hits = matching(signatures, file)
        for number in hits:
            if number not in found and is_left(signatures[number][0], hits, signatures, pairs):
                found[number] = len(file)
    return found


def formats_of(signatures):
    """The signatures of each format, both in table order."""
    found = {}
    for number, (puid, _) in signatures.items():
        found.setdefault(puid, []).append(number)
    return found


def said(lines, signatures):
    """What the lines say of each signature: a file, or None where it is dead; of a dead format, of all of its."""
    found = {}
    for words in lines:
        puid = int(words[1].removeprefix("fmt/"))
        if words[0] == "alive":
            found[int(words[2])] = bytes.fromhex("".join(words[4:]))
        elif words[0] == "dead":
            found.update((number, None) for number in ([int(words[2])] if len(words) > 2 else formats_of(signatures)[puid]))
    return found


def lines_of(found, signatures):
    """What `dead --hex` prints where this is so, with the last line."""
    lines, formats = [], formats_of(signatures)
    for puid, numbers in formats.items():
        if all(found[number] is None for number in numbers):
            lines.append(f"dead fmt/{puid}")
            continue
        for number in numbers:
            file = found[number]
            if file is None:
                lines.append(f"dead fmt/{puid} {number}")
            else:
                lines.append(f"alive fmt/{puid} {number} {len(file)} {file.hex()}".rstrip())
    counts = []
    for name, groups in (("formats", formats.values()), ("signatures", [[number] for number in signatures])):
        alive = sum(any(found[number] is not None for number in group) for group in groups)
        counts.append(f"{name} {len(groups)} alive {alive} dead {len(groups) - alive} unknown 0")
    return [*lines, " ".join(counts)]


def fault_of(signatures, pairs, run, counts):
    """The first thing that is wrong in an answer of `dead --hex`, or None."""
    done = run("dead", "--hex")
    fault = fault_in(signatures, pairs, done, counts)
    return fault and f"{fault}\n{done.stdout}{done.stderr}"


def fault_in(signatures, pairs, done, counts):
    lines = done.stdout.splitlines()
    found = said([line.split() for line in lines[:-1]], signatures)
    if found.keys() != signatures.keys():
        return "a signature without an answer"
    wanted = shortest(signatures, pairs)
    for number, (puid, _) in signatures.items():
        file, length = found[number], wanted.get(number)
        if file is None:
            is_right = length is None
        else:
            hits = matching(signatures, file)
            is_as_long = len(file) == length if length is not None else len(file) > LONGEST
            is_right = is_as_long and number in hits and is_left(puid, hits, signatures, pairs)
        if not is_right:
            return f"of signature {number} the program says {file}, and brute force {length}"
        counts["dead signatures" if file is None else "alive signatures" if length is not None else "signatures alive by a longer file"] += 1
    if lines != lines_of(found, signatures):
        return "other lines, or other counts"
    dead = [puid for puid, numbers in formats_of(signatures).items() if all(found[it] is None for it in numbers)]
    counts["dead formats"] += len(dead)
    status = 1 if None in found.values() else 0
    return None if (done.returncode, done.stderr) == (status, "") else f"status {done.returncode}, error output {done.stderr!r}"


def run_over_tables(page, name, tables, fault_of):
    """Judges so many random tables, by the words of the command line. Prints what was found, and answers the status.

    `fault_of` takes the signatures and the pairs of a table, a call that runs words of the program on it, and
    the counts to print; it answers the first thing that is wrong, or None."""
    if len(sys.argv) < 2:
        sys.exit(page)
    program = os.path.abspath(sys.argv[1])
    tables = int(sys.argv[2]) if len(sys.argv) > 2 else tables
    seed = int(sys.argv[3]) if len(sys.argv) > 3 else 1
    chance, counts = random.Random(seed), collections.Counter()
    with tempfile.TemporaryDirectory() as room:
        def run(*words):
            return subprocess.run([program, *words, "signatures.csv", "priorities.csv"], cwd=room, capture_output=True, text=True)

        for _ in range(tables):
            rows, priorities, signatures, pairs = random_table(chance)
            for file_name, text in (("signatures.csv", rows), ("priorities.csv", priorities)):
                with open(os.path.join(room, file_name), "w", encoding="ascii") as file:
                    file.write(text)
            fault = fault_of(signatures, pairs, run, counts)
            if fault:
                print(f"{name}: {fault}\n{rows}{priorities}")
                return 1
    print(f"{name}: {tables} tables of seed {seed} agree: " + ", ".join(f"{count} {kind}" for kind, count in sorted(counts.items())))
    return 0


if __name__ == "__main__":
    sys.exit(run_over_tables(__doc__, "plain_dead", 1000, fault_of))
