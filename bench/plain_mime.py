#!/usr/bin/env python3
"""A plain judge of a file by the magic of a MIME database: its match elements are read and asked as they are.

    python3 bench/plain_mime.py SOURCE FILE..

It prints for each file the types that match, each with its magic priority. It makes no expressions and shares
nothing with `tools/from_shared_mime_info.py` but the reader of XML: `compare_mime.py` holds one against the
other. A match stands where the bytes at one of its offsets equal its value, as far as its mask has bits; it
holds where it stands and, if it has matches inside, one of these holds. A type has magic of a priority where
one of the outermost matches holds.
"""
import os
import sys

sys.dont_write_bytecode = True
sys.path.insert(0, os.path.join(os.path.dirname(os.path.abspath(__file__)), "..", "tools"))

import safe_xml

NAMESPACE = "http://www.freedesktop.org/standards/shared-mime-info"
LETTERS = {"n": "\n", "r": "\r", "t": "\t", "a": "\a", "b": "\b", "f": "\f", "v": "\v"}


def inside_of(element, name):
    return [it for it in element.children if it.name == name and it.namespace == NAMESPACE]


def string(text):
    """The bytes of a string, character by character."""
    found, place = bytearray(), 0
    while place < len(text):
        it, place = text[place], place + 1
        if it != "\\":
            found += it.encode()
            continue
        it, place = text[place], place + 1
        end = place
        if it == "x":
            while end < min(place + 2, len(text)) and text[end] in "0123456789abcdefABCDEF":
                end += 1
            found.append(int(text[place:end], 16))
        elif it in "01234567":
            while end < min(place + 2, len(text)) and text[end] in "01234567":
                end += 1
            found.append(int(text[place - 1:end], 8))
        elif it.isalnum():
            found += LETTERS[it].encode()
        else:
            found += it.encode("ascii")
        place = end
    return bytes(found)


def number(text):
    text = text.strip()
    is_octal = text.isdigit() and text.startswith("0")
    return int(text, 8) if is_octal else int(text, 0)


class Match:
    """A match element. `leaves` are the numbers of the matches without one inside, here or further in."""

    def __init__(self, element, numbers, left_out):
        self.inside = [Match(it, numbers, left_out) for it in inside_of(element, "match")]
        self.number = None if self.inside else next(numbers)
        self.leaves = sum((it.leaves for it in self.inside), []) or [self.number]
        self.is_left_out = set(self.leaves) <= left_out
        if not self.is_left_out:
            self.read(element)

    def read(self, element):
        kind, value, mask = element.get("type"), element.get("value"), element.get("mask")
        self.first, _, self.last = element.get("offset").partition(":")
        self.first, self.last = int(self.first), int(self.last or self.first)
        if kind == "string":
            self.value = string(value)
            self.mask = None if mask is None else [int(mask[2 * it:2 * it + 2], 16) for it in range(1, len(self.value) + 1)]
            assert mask is None or (mask[:2].lower() == "0x" and len(mask) == 2 * len(self.value) + 2)
            self.size, self.stands = len(self.value), self.string_stands
        else:
            bits = {"byte": 8, "big16": 16, "host16": 16, "little16": 16, "big32": 32, "host32": 32, "little32": 32}[kind]
            self.size, self.order = bits // 8, "big" if kind in ("big16", "big32") else "little"
            self.mask = 2 ** bits - 1 if mask is None else number(mask)
            self.value, self.stands = number(value), self.number_stands
            assert 0 <= self.value < 2 ** bits and 0 <= self.mask < 2 ** bits
        assert self.size and self.first <= self.last

    def string_stands(self, data):
        if self.mask is None:
            return data.find(self.value, self.first, self.last + self.size) >= 0
        for start in range(self.first, min(self.last, len(data) - self.size) + 1):
            if all(data[start + it] & bits == self.value[it] & bits for it, bits in enumerate(self.mask)):
                return True
        return False

    def number_stands(self, data):
        for start in range(self.first, min(self.last, len(data) - self.size) + 1):
            if int.from_bytes(data[start:start + self.size], self.order) & self.mask == self.value & self.mask:
                return True
        return False

    def hit(self, data):
        """The number of the first match without one inside that holds together with all around it."""
        if self.is_left_out or not self.stands(data):
            return None
        if not self.inside:
            return self.number
        return next((it for it in (its.hit(data) for its in self.inside) if it is not None), None)


class Database:
    """For each type and magic priority its outermost matches; matches are counted over all of these, in this order."""

    def __init__(self, path, left_out=frozenset()):
        elements = {}
        for it in inside_of(safe_xml.read(path, allow_grammar=True), "mime-type"):
            if (it.get("type") or "").strip():
                for magic in inside_of(it, "magic"):
                    priority = magic.get("priority", "50")
                    is_number = priority.isascii() and priority.strip().isdigit() and len(priority.strip()) < 10
                    priority = int(priority) if is_number and int(priority) <= 100 else None
                    if inside_of(magic, "match"):
                        elements.setdefault((it.get("type"), priority), []).extend(inside_of(magic, "match"))
        numbers = iter(range(1, 1_000_000_000))
        self.formats = {format: [Match(it, numbers, left_out) for it in its] for format, its in elements.items()}

    def hits(self, data):
        """For each format that matches the number of its first match that holds."""
        found = ((format, next((it for it in (match.hit(data) for match in matches) if it is not None), None))
                 for format, matches in self.formats.items())
        return {format: number for format, number in found if number is not None}


def main():
    if len(sys.argv) < 3:
        sys.exit(__doc__)
    database = Database(sys.argv[1])
    for path in sys.argv[2:]:
        with open(path, "rb") as file:
            for name, priority in database.hits(file.read()):
                print(f"{path}\t{name}\t{priority}")


if __name__ == "__main__":
    main()
