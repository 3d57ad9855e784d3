#!/usr/bin/env python3
"""Converts a MIME database of freedesktop.org into a table: its magic as signatures and priorities.

    python3 tools/from_shared_mime_info.py [--only FILE] SOURCE OUT

SOURCE is a file of the shared MIME-info specification, as `/usr/share/mime/packages/freedesktop.org.xml` of
Debian's package shared-mime-info, which is no part of this project. It writes into the folder OUT

    signatures.csv    a format is a type with one magic priority. Each path from a match of its magic down to
                      one without a match inside is a signature, and each match of the path a row
    priorities.csv    the format of the greater magic priority over the other, and of two of the same one
                      that which is a sub-class of the other
    names.csv         for each format its type, and the type's comment
    not-taken.csv     each rule, type and pair that has no form in a table, and why

and prints counts. The PUIDs are made up: the N-th format of SOURCE is `fmt/N`, whatever else is taken. The
matches of SOURCE are numbered in the order of the formats, and those that are not taken have a number too.
FILE has a type a line: no others are taken then. The two tables load, whatever SOURCE holds. Where SOURCE or
FILE is refused, one line on standard error says why, nothing is written, and the status is 2.
"""
import argparse
import csv
import functools
import os
import re
import sys

sys.dont_write_bytecode = True
sys.path.insert(0, os.path.dirname(os.path.abspath(__file__)))

import safe_xml
from safe_xml import Refused

NAMESPACE = "http://www.freedesktop.org/standards/shared-mime-info"
PASSED_OVER = "acronym", "alias", "expanded-acronym", "generic-icon", "glob", "icon"
# The limits of a table: docs/FORMATS.md.
MOST_FORMATS, MOST_SIGNATURES, MOST_ROWS, MOST_SLOTS, MOST_TEXT = 1_000, 4_000, 8, 65_535, 8_192
MOST_PARENTS = 10_000  # sub-classes in one source: the real database has 450
ESCAPE = re.compile(rb"\\(?:([0-7]{1,3})|x([0-9A-Fa-f]{1,2})|(.?))", re.S)
ESCAPED = {b"a": 7, b"b": 8, b"t": 9, b"n": 10, b"v": 11, b"f": 12, b"r": 13}
SIZES = {"byte": 1, "big16": 2, "big32": 4, "little16": 2, "little32": 4, "host16": 2, "host32": 4}


class NotTaken(Exception):
    """Why a match has no form in a table."""


def inside_of(element, name):
    """The elements of the database of this name directly inside."""
    return [it for it in element.all(name) if it.namespace == NAMESPACE]


def shown(text):
    """A text of the source in one short line."""
    text = "".join(it if it.isprintable() else "?" for it in " ".join(text[:4_096].split()))
    return text if len(text) <= 120 else text[:117] + "..."


# A match, as a row.


def unescaped(text):
    """The bytes of a value of the type string, with the escapes of C."""
    def byte_of(found):
        octal, digits, other = found.groups()
        if octal is not None:
            value = int(octal, 8)
        elif digits is not None:
            value = int(digits, 16)
        else:
            value = ESCAPED.get(other, 256 if other.isalnum() or not other.isascii() or not other else other[0])
        if value > 255:
            raise NotTaken(f"an escape of no byte: {shown(found[0].decode('utf-8', 'replace'))}")
        return bytes([value])
    return ESCAPE.sub(byte_of, text.encode())


def number(text, size):
    """A number of C, of at most so many bytes."""
    text = text.strip(" \t\r\n")
    digits = re.fullmatch(r"0[xX]0*([0-9A-Fa-f]{1,9})|(0[0-7]{0,12})|([1-9][0-9]{0,10})", text)
    if not digits:
        raise NotTaken(f"no number: {shown(text)}")
    hexadecimal, octal, decimal = digits.groups()
    value = int(hexadecimal, 16) if hexadecimal else int(octal, 8) if octal else int(decimal)
    if value >> 8 * size:
        raise NotTaken(f"a number of more than {size} bytes: {shown(text)}")
    return value


def word(match):
    """The value and the mask of a match, in the order of the file. Hosts have the lowest byte first."""
    kind, value, mask = match.get("type"), match.get("value"), match.get("mask")
    if kind is None or value is None:
        raise NotTaken("a match without a type" if kind is None else "a match without a value")
    if kind in SIZES:
        size, order = SIZES[kind], "big" if kind.startswith("big") else "little"
        mask = (1 << 8 * size) - 1 if mask is None else number(mask, size)
        return number(value, size).to_bytes(size, order), mask.to_bytes(size, order)
    if kind != "string":
        raise NotTaken(f"a match of the type {shown(kind)}")
    value = unescaped(value)
    if not value:
        raise NotTaken("an empty value")
    if mask is None:
        return value, b"\xff" * len(value)
    if not re.fullmatch(r"0[xX]([0-9A-Fa-f]{2})+", mask):
        raise NotTaken(f"a mask of no bytes: {shown(mask)}")
    if len(mask) != 2 * len(value) + 2:
        raise NotTaken(f"a mask of {len(mask) // 2 - 1} bytes, of a value of {len(value)}")
    return value, bytes.fromhex(mask[2:])


@functools.lru_cache(None)
def class_text(byte, bits):
    """The bytes that have these bits as `byte` has them: any, one, a range, or a list of these."""
    if bits == 0:
        return "??"
    ranges = []
    for it in range(256):
        if it & bits == byte & bits:
            if ranges and ranges[-1][1] == it - 1:
                ranges[-1][1] = it
            else:
                ranges.append([it, it])
    parts = [f"{first:02X}" if first == last else f"[{first:02X}:{last:02X}]" for first, last in ranges]
    return parts[0] if len(parts) == 1 else "(" + "|".join(parts) + ")"


def expression(value, mask):
    text = "".join(map(class_text, value, mask))
    return re.sub(r"(\?\?){3,}", lambda found: f"{{{len(found[0]) // 2}}}", text)


def slots(value, mask):
    """The slots of an expression: one for each byte, range or `??`, those of a list for each alternative."""
    return sum(class_text(byte, bits).count("|") + 1 for byte, bits in zip(value, mask))


def row(match):
    """The fields of the match's row behind its position."""
    offset = match.get("offset")
    if offset is None:
        raise NotTaken("a match without an offset")
    digits = re.fullmatch(r"([0-9]{1,12})(?::([0-9]{1,12}))?", offset)
    if not digits:
        raise NotTaken(f"no offset: {shown(offset)}")
    least, greatest = int(digits[1]), int(digits[2] or digits[1])
    if greatest < least:
        raise NotTaken(f"a range that ends before it begins: {offset}")
    if greatest >= MOST_SLOTS:
        raise NotTaken(f"an offset over {MOST_SLOTS - 1}: {greatest}")
    value, mask = word(match)
    if greatest + len(value) >= MOST_SLOTS:
        raise NotTaken(f"offset and value go past byte {MOST_SLOTS - 1}")
    text = expression(value, mask)
    if len(text) > MOST_TEXT:
        raise NotTaken(f"an expression of over {MOST_TEXT} bytes: {len(text)}")
    if greatest + 1 + slots(value, mask) > MOST_SLOTS:
        raise NotTaken(f"over {MOST_SLOTS} slots, by its offset and masks")
    return "BOF", least, greatest if greatest != least else "", text


# The rules.


def rules_of(match):
    """The rules of a match: for each path down to a match without one inside its rows, or why it is not taken."""
    left = [(match, (), None, 0)]
    while left:
        it, above, why, depth = left.pop()
        depth += 1
        if why is None:
            try:
                above = (*above, row(it))
                why = f"over {MOST_ROWS} nested matches" if depth > MOST_ROWS else None
            except NotTaken as fault:
                why = str(fault)
        inside = inside_of(it, "match")
        if inside:
            left += [(its, above, why, depth) for its in reversed(inside)]
        else:
            yield above if why is None else why


def priority_of(magic):
    """The magic priority, 50 if none is said; None where it is no number from 0 to 100."""
    text = magic.get("priority", "50").strip()
    return int(text) if re.fullmatch(r"[0-9]{1,9}", text) and int(text) <= 100 else None


def formats_of(types):
    """For each type and magic priority its rules, in the order of the source."""
    found = {}
    for name, it in types:
        for magic in inside_of(it, "magic"):
            rules = [rule for match in inside_of(magic, "match") for rule in rules_of(match)]
            if rules:
                found.setdefault((name, priority_of(magic)), []).extend(rules)
    return found


class Table:
    """What is taken of the formats, and what is not."""

    def __init__(self, formats, wanted):
        self.puids = {format: f"fmt/{place}" for place, format in enumerate(formats, 1)}
        self.taken, self.signatures, self.lost, number = {}, [], [], 0
        for format, rules in formats.items():
            for rule in rules:
                number += 1
                if wanted is None or format[0] in wanted:
                    self.add(format, number, rule)

    def add(self, format, number, rule):
        why = None
        if format[1] is None:
            why = "a magic priority that is no number from 0 to 100"
        elif isinstance(rule, str):
            why = rule
        elif len(self.signatures) == MOST_SIGNATURES:
            why = f"a table has at most {MOST_SIGNATURES} signatures: see --only"
        elif format not in self.taken and len(self.taken) == MOST_FORMATS:
            why = f"a table has at most {MOST_FORMATS} formats: see --only"
        if why:
            self.lost.append((self.puids[format], number, why))
        else:
            self.taken[format] = None
            self.signatures.append((self.puids[format], number, rule))

    def rows(self):
        return [(puid, number, *row) for puid, number, rule in self.signatures for row in rule]


# Priorities.


def ancestors_of(name, parents):
    """All types that a type is a sub-class of, in any number of steps."""
    seen, left = set(), list(parents.get(name, ()))
    while left:
        parent = left.pop()
        if parent not in seen:
            seen.add(parent)
            left += parents.get(parent, ())
    return seen


def pairs_of(table, parents):
    """The pairs of priorities, and those that are not taken, each with its reason."""
    formats, puids = list(table.taken), table.puids
    names = {name for name, _ in formats}
    above = {name: ancestors_of(name, parents) & names for name in names}
    by_number = [(a, b) for a in formats for b in formats if a[1] > b[1]]
    by_class, lost = [], []
    for a in formats:
        def leave(why):
            lost.append((puids[a], "", why))
        if a[0] in above[a[0]]:
            leave("a priority over itself: the type is a sub-class of itself")
        for parent in sorted(set(parents.get(a[0], ())) - names):
            leave(f"no priority over its parent class {shown(parent)}: no format of that is taken")
        for b in formats if above[a[0]] else ():
            if b[0] == a[0] or b[0] not in above[a[0]] or a[1] > b[1]:
                continue
            if a[1] < b[1]:
                leave(f"no priority over its parent class {puids[b]}: that has the greater magic priority and the pair would close a cycle")
            elif a[0] in above[b[0]]:
                leave(f"no priority over its parent class {puids[b]}: each is a sub-class of the other and the pair would close a cycle")
            else:
                by_class.append((a, b))
    return [(puids[a], puids[b]) for a, b in by_number + by_class], lost


# The files.


def read(source):
    """The types of a database with their names, those without a name, and for each type its parent types."""
    root = safe_xml.read(source, allow_grammar=True, skip=PASSED_OVER)
    if (root.name, root.namespace) != ("mime-info", NAMESPACE):
        raise Refused(f"{shown(source)}: the root is no mime-info of {NAMESPACE}")
    found = inside_of(root, "mime-type")
    types = [(it.get("type"), it) for it in found if it.get("type", "").strip()]
    parents, count = {}, 0
    for name, it in types:
        for its in inside_of(it, "sub-class-of"):
            count += 1
            if its.get("type"):
                parents.setdefault(name, []).append(its.get("type"))
    if count > MOST_PARENTS:
        raise Refused(f"{shown(source)}: over {MOST_PARENTS} sub-classes")
    return types, len(found) - len(types), parents


def left_out(types, nameless, wanted):
    """What has no form here beside single matches: types without magic, and rules of other kinds."""
    for name, it in types:
        if wanted is not None and name not in wanted:
            continue
        if not any(inside_of(magic, "match") for magic in inside_of(it, "magic")):
            yield "", "", f"{shown(name)}: no magic"
        for kind in ("root-XML", "treemagic"):
            for _ in inside_of(it, kind):
                yield "", "", f"{shown(name)}: a rule of {kind}"
    for _ in range(nameless):
        yield "", "", "a mime-type without a type"


def name_of(name, types):
    """The type, and behind it its first comment that is of no language."""
    comments = (its.text for it in types for its in inside_of(it, "comment") if not its.get("xml:lang"))
    comment = shown(next(comments, ""))
    return f"{shown(name)} ({comment})" if comment else shown(name)


def write(folder, name, header, rows):
    with open(os.path.join(folder, name), "w", newline="", encoding="utf-8") as file:
        csv.writer(file, lineterminator="\n").writerows([header.split(","), *rows])


def wanted_of(path, types):
    """The types that are asked for."""
    try:
        with open(path, encoding="utf-8") as file:
            wanted = {line.strip() for line in file} - {""}
    except (OSError, UnicodeDecodeError) as fault:
        raise Refused(f"{shown(path)}: can't be read: {shown(str(fault))}")
    unknown = sorted(wanted - {name for name, _ in types})
    if unknown:
        raise Refused(f"{shown(path)}: a type that the source lacks: {shown(unknown[0])}")
    return wanted


def convert(source, out, only):
    types, nameless, parents = read(source)
    wanted = wanted_of(only, types) if only else None
    table = Table(formats_of(types), wanted)
    rows = table.rows()
    pairs, lost = pairs_of(table, parents)
    of_type = {}
    for name, it in types:
        of_type.setdefault(name, []).append(it)
    not_taken = [*table.lost, *lost, *left_out(types, nameless, wanted)]
    try:
        os.makedirs(out, exist_ok=True)
        write(out, "signatures.csv", "puid,signature,position,offset,max_offset,expression", rows)
        write(out, "priorities.csv", "higher,lower", pairs)
        write(out, "names.csv", "puid,name", [(table.puids[it], name_of(it[0], of_type[it[0]])) for it in table.taken])
        write(out, "not-taken.csv", "puid,signature,reason", not_taken)
    except OSError as fault:
        raise Refused(f"{shown(out)}: can't be written: {shown(str(fault))}")
    print(f"{len(table.taken)} formats, {len(table.signatures)} signatures, {len(rows)} rows, {len(pairs)} priorities")
    print(f"not taken: {len(table.lost)} signatures, {len(lost)} priorities, {len(not_taken) - len(table.lost) - len(lost)} types and rules of other kinds")


def main():
    words = argparse.ArgumentParser(description=__doc__, formatter_class=argparse.RawDescriptionHelpFormatter)
    words.add_argument("--only", metavar="FILE")
    words.add_argument("source", metavar="SOURCE")
    words.add_argument("out", metavar="OUT")
    words = words.parse_args()
    convert(words.source, words.out, words.only)
    return 0


if __name__ == "__main__":
    safe_xml.run(main)
