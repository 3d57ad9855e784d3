#!/usr/bin/env python3
"""Converts a signature file of DROID to tables.

    python3 tools/from_droid.py [--only FILE] SIGNATURE_FILE.xml OUT

It writes to the folder OUT, which is made if it is missing,

    signatures.csv   the signature file
    priorities.csv   the priority file
    names.csv        puid,name: the name of each format of the table, its version behind it
    not-taken.csv    puid,signature,reason: each format, signature and priority that is not in the tables

and prints counts. FILE has a PUID in each line: all other formats are left out, and stand in none of the four.
A table has at most 1,000 formats and 4,000 signatures, so of a greater file a part must be named.

Both spellings of a byte sequence are read, a `Sequence` attribute and compiled subsequences. What is read
how, and what means something else in DROID, stands in docs/REGISTRIES.md. Nothing is proved of a conversion.

Status 0; or 2 with one line on standard error, and then no file is written.
"""
import argparse
import csv
import io
import os
import re
import sys
from collections import Counter

sys.dont_write_bytecode = True

from droid_expressions import MOST_SLOTS, Choice, NoForm, emitted, gap, parsed
from safe_xml import Refused, plain, read, run

PUID = re.compile(r"(x-)?fmt/[1-9][0-9]{0,8}")
NUMBER = re.compile(r"[1-9][0-9]{0,8}")
COUNT = re.compile(r"[0-9]{1,9}")
MOST_FORMATS, MOST_SIGNATURES, MOST_SEQUENCES = 1000, 4000, 8
MOST_LIST = 1 << 20
POSITIONS = {"BOFoffset": "BOF", "EOFoffset": "EOF", "Variable": "Variable", "NOoffset": "Variable", "": "Variable"}
SHIFTS = ("DefaultShift", "Shift")  # how DROID searches, not what
FILES = {
    "signatures.csv": "puid,signature,position,offset,max_offset,expression",
    "priorities.csv": "higher,lower",
    "names.csv": "puid,name",
    "not-taken.csv": "puid,signature,reason",
}


# ---- byte sequences

def number(element, attribute, default=None):
    """An offset. Without a default it is None where the attribute is missing."""
    text = element.get(attribute, "").strip()
    if not text:
        return default
    if not COUNT.fullmatch(text):
        raise NoForm(f"{attribute} is no number: {plain(text, 20)}")
    return int(text)


def by_position(elements):
    """Elements by their Position: those of the first, of the second, and so on, with none missing."""
    places = {}
    for it in elements:
        places.setdefault(number(it, "Position"), []).append(it)
    if sorted(places, key=lambda it: it or 0) != list(range(1, len(places) + 1)):
        raise NoForm(f"the positions of its {elements[0].name} elements are not 1, 2, and so on")
    return [places[place] for place in range(1, len(places) + 1)]


def fragment(alternatives):
    """The gap between the fragments of one position and what they stand beside, and the fragments, as nodes."""
    found = []
    for it in alternatives:
        least = number(it, "MinOffset", 0)
        found.append((gap(least, number(it, "MaxOffset", least)), text_of(it)))
    if any(not nodes for _, nodes in found):
        raise NoForm("a fragment of no byte")
    return found


def beside(alternatives, is_left):
    """The nodes of the fragments of one position, with their gap at the side of the sequence."""
    found = fragment(alternatives)
    if all(it == found[0][0] for it, _ in found):
        between, inner = found[0][0], [Choice([nodes for _, nodes in found])]
        return inner + between if is_left else between + inner
    return [Choice([nodes + it if is_left else it + nodes for it, nodes in found])]


def subsequence(element):
    """The nodes of a compiled subsequence: left fragments, outermost first, the sequence, right fragments."""
    texts = element.all("Sequence")
    if len(texts) != 1:
        raise NoForm("a subsequence without its one Sequence")
    judge_content(element, ("Sequence", "LeftFragment", "RightFragment"))
    middle = text_of(texts[0])
    if not middle:
        raise NoForm("a subsequence of no byte")
    left = [beside(it, True) for it in reversed(by_position(element.all("LeftFragment")))]
    right = [beside(it, False) for it in by_position(element.all("RightFragment"))]
    return [node for nodes in (*left, middle, *right) for node in nodes]


def judge_content(element, known):
    """Refuses what may mean something that is not known here: other elements inside, and text beside elements."""
    for it in element.children:
        if it.name not in known:
            raise NoForm(f"an element that is not known: {plain(it.name, 40)}")
    if known and element.text.strip():
        raise NoForm(f"a text that is not known: {plain(element.text.strip(), 40)}")


def text_of(element):
    """The nodes of the text of an element that has nothing else."""
    judge_content(element, ())
    return parsed(element.text)


def compiled(position, elements):
    """The offsets and nodes of a sequence in compiled subsequences."""
    places = by_position(elements)
    if any(len(its) > 1 for its in places):
        raise NoForm("two subsequences of one position")
    parts = [its[0] for its in places]
    anchor = len(parts) - 1 if position == "EOF" else 0
    nodes, offsets = [], (0, 0)
    for place, it in enumerate(parts):
        least, most = number(it, "SubSeqMinOffset", 0), number(it, "SubSeqMaxOffset")
        if place != anchor:
            its_gap = gap(least, most)
        elif position == "Variable":
            if most:
                raise NoForm("a maximum offset in a Variable sequence")
            its_gap = gap(least, None) if least else []
        else:
            offsets, its_gap = (least, least if most is None else most), []
        its = subsequence(it)
        nodes += its + its_gap if position == "EOF" else its_gap + its
    return *offsets, nodes


def whole(position, element):
    """The offsets and nodes of a sequence with a Sequence attribute. Its maximum counts from its offset."""
    least, more = number(element, "Offset", 0), number(element, "MaxOffset", 0)
    if position == "Variable" and (least or more):
        raise NoForm("an offset in a Variable sequence")
    return least, least + more, parsed(element.get("Sequence"))


def sequence(element):
    """A byte sequence as the last four fields of a row."""
    reference = element.get("Reference", "").strip()
    if reference.startswith("Indirect") or any(it.startswith("Indirect") for it in element.attributes):
        raise NoForm("an indirect offset, which is read from the file")
    if reference not in POSITIONS:
        raise NoForm(f"the reference {plain(reference, 40)}")
    order = element.get("Endianness", "").strip().lower()
    if order.startswith("little"):
        raise NoForm("little-endian: whether its bytes stand in the order of the file is not known")
    judge_content(element, ("SubSequence",))
    position, text = POSITIONS[reference], element.get("Sequence")
    if (text is None) == (not element.children):
        raise NoForm("a byte sequence with neither a Sequence attribute nor subsequences, or with both")
    least, most, nodes = compiled(position, element.children) if text is None else whole(position, element)
    expression, slots = emitted(nodes)
    if least > most:
        raise NoForm("a maximum offset below the offset")
    if slots + (2 if position == "Variable" else most + 1) > MOST_SLOTS:
        raise NoForm(f"over {MOST_SLOTS} slots: its maximum offset and its bytes together")
    if position == "Variable":
        return position, "", "", expression
    return position, least, "" if most == least else most, expression


def signature(element):
    """The rows of a signature, without its format and number."""
    judge_content(element, ("ByteSequence",))
    if not element.children:
        raise NoForm("no byte sequence")
    if len(element.children) > MOST_SEQUENCES:
        raise NoForm(f"over {MOST_SEQUENCES} byte sequences")
    return [sequence(it) for it in element.children]


# ---- formats

class Format:
    """A format of the file, and the IDs that it names, each once and in their order."""

    def __init__(self, element):
        name = " ".join(f"{element.get('Name', '')} {element.get('Version', '')}".split())
        self.id, self.puid = element.get("ID", "").strip(), element.get("PUID", "")
        self.name = name or self.puid
        self.signatures = list(dict.fromkeys(it.text.strip() for it in element.all("InternalSignatureID")))
        self.lower = [it.text.strip() for it in element.all("HasPriorityOverFileFormatID")]


class Conversion:
    """The rows of the four files, in lists of their names."""

    def __init__(self, root, only):
        self.rows, self.pairs, self.names, self.not_taken = [], [], [], []
        self.elements = {}
        for it in inside(root, "InternalSignatureCollection", "InternalSignature"):
            key = it.get("ID", "").strip()
            self.elements[key] = None if key in self.elements else it
        self.formats = [Format(it) for it in inside(root, "FileFormatCollection", "FileFormat")]
        self.users = Counter(key for it in self.formats for key in it.signatures)
        self.fresh, self.converted = self.fresh_numbers(), {}
        asked = [it for it in self.formats if only is None or it.puid in only]
        self.take_formats(asked)
        if only is None:
            self.not_taken += [("", plain(key, 80), "no format names it") for key in self.elements if key not in self.users]
        else:
            there = {it.puid for it in self.formats}
            self.not_taken += [(puid, "", "no format of the file has this PUID") for puid in only if puid not in there]
        self.take_pairs(asked, only)

    def fresh_numbers(self):
        """A number for each format of a shared signature: those above all IDs, in the order of the file."""
        last = max((int(key) for key in self.elements if NUMBER.fullmatch(key)), default=0)
        shared = [(it, key) for it in self.formats for key in it.signatures if self.users[key] > 1 and key in self.elements]
        return {pair: its for its, pair in enumerate(shared, last + 1)}

    def take_formats(self, asked):
        self.taken = {}
        for it in asked:
            try:
                if not PUID.fullmatch(it.puid):
                    raise NoForm("no PUID of the form fmt/1 or x-fmt/1")
                if it.puid in self.taken:
                    raise NoForm("a format above has this PUID")
                self.taken[it.puid] = None
                if not it.signatures:
                    raise NoForm("no internal signature")
                rows = [row for key in it.signatures for row in self.rows_of(it, key)]
                if not rows:
                    raise NoForm("none of its signatures is taken")
                self.taken[it.puid] = it
                self.rows += rows
                self.names.append((it.puid, it.name))
            except NoForm as reason:
                self.not_taken.append((plain(it.puid, 80), "", str(reason)))

    def rows_of(self, format, key):
        """The rows of a signature of a format: none where it is not taken, and then the reason is noted."""
        if key not in self.converted:
            self.converted[key] = self.convert(key)
        reason, rows = self.converted[key]
        if (format, key) in self.fresh:
            its = str(self.fresh[format, key])
            reason = reason or (None if NUMBER.fullmatch(its) else "shared, and no number of nine digits is left for it")
        else:
            its = key
            reason = reason or (None if NUMBER.fullmatch(key) else "its ID is no number of 1 to 9 digits, the first not 0")
        if reason:
            self.not_taken.append((format.puid, plain(key, 80), reason))
            return []
        return [(format.puid, its, *row) for row in rows]

    def convert(self, key):
        """The reason why a signature has no form, or None, and its rows."""
        if not key or key not in self.elements:
            return "no signature of the file has this ID", []
        if self.elements[key] is None:
            return "two signatures of the file have this ID", []
        try:
            return None, signature(self.elements[key])
        except NoForm as reason:
            return str(reason), []

    def take_pairs(self, asked, only):
        by_id = {}
        for it in self.formats:
            by_id[it.id] = None if it.id in by_id else it
        order, pairs = Order(self.names), set()
        for higher in asked:
            for key in higher.lower:
                lower = by_id.get(key) if key else None
                if only is not None and lower and lower.puid not in only:
                    continue
                try:
                    if not lower:
                        raise NoForm(f"{'two formats have' if key and key in by_id else 'no format has'} this ID")
                    for it in (higher, lower):
                        if self.taken.get(it.puid) is not it:
                            raise NoForm(f"{plain(it.puid, 80) or 'a format without a PUID'} is not taken")
                    pair = higher.puid, lower.puid
                    if higher is lower:
                        raise NoForm("a format over itself")
                    if pair in pairs:
                        raise NoForm("this pair stands above")
                    if not order.add(*pair):
                        raise NoForm("it would close a cycle with pairs above")
                    pairs.add(pair)
                    self.pairs.append(pair)
                except NoForm as reason:
                    over = plain(lower.puid, 80) if lower else f"the format with the ID {plain(key, 20)}"
                    self.not_taken.append((plain(higher.puid, 80), "", f"priority over {over}: {reason}"))


class Order:
    """Which formats lead down to which by pairs, as sets of bits."""

    def __init__(self, names):
        self.places = {puid: place for place, (puid, _) in enumerate(names)}
        self.above, self.below = ([1 << it for it in range(len(names))] for _ in range(2))

    def add(self, higher, lower):
        """Takes a pair, or says no where it would close a cycle."""
        a, b = self.places[higher], self.places[lower]
        if self.below[b] >> a & 1:
            return False
        above, below = self.above[a], self.below[b]
        # What stands above `lower` already leads to all below it, and the other way round.
        news = bits(above & ~self.above[b]), bits(below & ~self.below[a])
        for it in news[0]:
            self.below[it] |= below
        for it in news[1]:
            self.above[it] |= above
        return True


def bits(members):
    while members:
        yield members.bit_length() - 1
        members ^= 1 << members.bit_length() - 1


def inside(root, collection, name):
    return [it for its in root.all(collection) for it in its.all(name)]


# ---- files

def convert(path, only=None):
    """The rows of the four files, by their names."""
    root = read(path, skip=SHIFTS)
    if root.name != "FFSignatureFile":
        raise Refused(f"{plain(path)}: line {root.line}: no signature file of DROID: its root is {plain(root.name, 40)}")
    its = Conversion(root, only)
    signatures = {row[1] for row in its.rows}
    for count, most, what in [(len(its.names), MOST_FORMATS, "formats"), (len(signatures), MOST_SIGNATURES, "signatures")]:
        if count > most:
            raise Refused(f"{plain(path)}: {count} {what} to take, and a table has at most {most}: "
                          f"name {'fewer' if only else 'some'} formats with --only")
    return dict(zip(FILES, (its.rows, its.pairs, its.names, its.not_taken)))


def listed(path):
    """The PUIDs of a list, one a line, in their order. Empty lines are passed over."""
    try:
        with open(path, "rb") as file:
            data = file.read(MOST_LIST + 1)
    except OSError as fault:
        raise Refused(f"{plain(path)}: can't be read: {plain(fault.strerror or 'a fault of the system')}") from None
    if len(data) > MOST_LIST:
        raise Refused(f"{plain(path)}: over {MOST_LIST} bytes")
    found = {}
    for place, line in enumerate(data.decode("utf-8-sig", "replace").split("\n"), 1):
        puid = line.strip()
        if puid and not PUID.fullmatch(puid):
            raise Refused(f"{plain(path)}: line {place}: no PUID of the form fmt/1 or x-fmt/1")
        if puid:
            found[puid] = None
    return found


def write(folder, files):
    """Writes the four files: all of them beside their places, and then each to its place."""
    try:
        os.makedirs(folder, exist_ok=True)
        for name, rows in files.items():
            text = io.StringIO()
            csv.writer(text, lineterminator="\n").writerows([FILES[name].split(","), *rows])
            with open(os.path.join(folder, name + ".new"), "wb") as file:
                file.write(text.getvalue().encode())
        for name in files:
            os.replace(os.path.join(folder, name + ".new"), os.path.join(folder, name))
    except OSError as fault:
        where = fault.filename if isinstance(fault.filename, str) else folder
        raise Refused(f"{plain(where)}: can't be written: {plain(fault.strerror or 'a fault of the system')}") from None


def main():
    parser = argparse.ArgumentParser(description=__doc__, formatter_class=argparse.RawDescriptionHelpFormatter)
    parser.add_argument("--only", metavar="FILE", help="take only the formats whose PUIDs are in the lines of FILE")
    parser.add_argument("source", metavar="SIGNATURE_FILE.xml")
    parser.add_argument("folder", metavar="OUT")
    asked = parser.parse_args()
    files = convert(asked.source, listed(asked.only) if asked.only is not None else None)
    write(asked.folder, files)
    rows, pairs, names, lost = files.values()
    print(f"{len(names)} formats, {len({row[1] for row in rows})} signatures, {len(rows)} rows, {len(pairs)} priorities; "
          f"{len(lost)} lines in not-taken.csv")


if __name__ == "__main__":
    run(main)
