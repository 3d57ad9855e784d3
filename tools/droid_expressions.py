"""Translates the expressions of DROID's byte sequences into those of our tables.

`parsed` reads a text into nodes, and `emitted` writes nodes as one of our expressions, with its slots. Both
raise `NoForm` with the reason where there is none. A compiled sequence is several texts with gaps between
them, so its nodes are put together before they are written. A node is a `Part`, a `Gap` or a `Choice`.
"""
import functools
import re
from dataclasses import dataclass

MOST_TEXT, MOST_SLOTS, MOST_GAP, MOST_END = 8192, 65535, 65535, 8
MOST_SOURCE = 4 * MOST_TEXT        # characters of a text that is read at all
MOST_NESTING = 16                  # lists inside each other
MOST_ALTERNATIVES, MOST_PARTS = 256, MOST_TEXT // 2  # of a list that is multiplied out

BLANK = re.compile(r"[ \t\r\n]*")
PAIR = re.compile(r"[0-9A-Fa-f]{2}")
GAP = re.compile(r"\{[ \t\r\n]*([0-9]{1,9})[ \t\r\n]*(?:(-)[ \t\r\n]*([0-9]{1,9}|\*)?[ \t\r\n]*)?\}")
QUOTED = re.compile(r"'([^']*)'|`([^`]*)`")
MASK = re.compile(r"([&~])([0-9A-Fa-f]{2})")
ALL = frozenset(range(256))


class NoForm(Exception):
    """Why something has no form in our tables."""


@dataclass(frozen=True)
class Part:
    """A pair, `??`, or a bracket, with its slots."""
    text: str
    slots: int = 1


@dataclass(frozen=True)
class Gap:
    """Any bytes, from `least` to `most`; no `most` is no limit."""
    least: int
    most: int | None


@dataclass(frozen=True)
class Choice:
    """A list: alternatives, each a list of nodes. A single one is a mere group."""
    alternatives: list


ANY = Part("??")
BYTES = [Part(f"{byte:02X}") for byte in range(256)]


def parsed(text):
    """The nodes of a text."""
    if len(text) > MOST_SOURCE:
        raise NoForm(f"an expression of over {MOST_SOURCE} characters")
    return _Parser(text).whole()


def emitted(nodes):
    """The expression of some nodes, and its slots."""
    text, slots = _emit(nodes)
    if not text:
        raise NoForm("a sequence of no byte")
    return text, slots


# ---- one byte, and brackets

@functools.lru_cache(4096)
def one_of(members):
    """The nodes of one byte of a set: `??`, a pair, a bracket, or a list of these."""
    if not members:
        raise NoForm("a set of no byte")
    if len(members) == 256:
        return [ANY]
    within, outside = _ranges(members), _ranges(ALL - members)
    if len(within) > 1 and len(outside) == 1:
        return [Part(f"[!{_range_text(outside[0])}]")]
    if len(within) == 1:
        first, last = within[0]
        return [BYTES[first] if first == last else Part(f"[{_range_text(within[0])}]")]
    return [Choice([one_of(frozenset(range(first, last + 1))) for first, last in within])]


def _ranges(members):
    found = []
    for byte in sorted(members):
        if found and found[-1][1] == byte - 1:
            found[-1][1] = byte
        else:
            found.append([byte, byte])
    return found


def _range_text(ends):
    return f"{ends[0]:02X}" if ends[0] == ends[1] else f"{ends[0]:02X}:{ends[1]:02X}"


def between(first, last, excludes):
    """The nodes of as many bytes as an end has, from the first end to the second, or outside of them."""
    if len(first) != len(last):
        raise NoForm("a range between ends of two lengths")
    if len(first) > MOST_END:
        raise NoForm(f"a bracket of over {MOST_END} bytes")
    if first > last:
        raise NoForm("a range whose first end is behind its second")
    if len(first) == 1:
        members = frozenset(range(first[0], last[0] + 1))
        return one_of(ALL - members if excludes else members)
    if first == last and not excludes:
        return [BYTES[byte] for byte in first]
    if excludes and first == bytes(len(first)) and last == b"\xff" * len(last):
        raise NoForm("a bracket that excludes everything")
    ends = first.hex().upper() + ("" if first == last else ":" + last.hex().upper())
    return [Part(f"[{'!' if excludes else ''}{ends}]", len(first) * _rows(first, last, excludes))]


def _rows(a, b, excludes):
    """How many rows of classes a bracket of several bytes unfolds into (docs/CERTIFICATES.md)."""
    if excludes:
        return sum(byte > 0 for byte in a) + sum(byte < 255 for byte in b)
    k = next(j for j in range(len(a)) if a[j] != b[j])
    above, below = sum(byte < 255 for byte in a[k + 1:]), sum(byte > 0 for byte in b[k + 1:])
    return 2 + above + (b[k] - a[k] > 1) + below


@functools.lru_cache(512)
def masked(kind, mask):
    """The bytes that have all bits of a mask (`&`), or some of them (`~`)."""
    return frozenset(byte for byte in ALL if (byte & mask == mask if kind == "&" else byte & mask))


# ---- texts

class _Parser:
    def __init__(self, text):
        self.text, self.place = text, 0

    def whole(self):
        nodes = self.items(0)
        if self.place < len(self.text):
            self.stop()
        return nodes

    def stop(self, what="is not read here"):
        shown = self.text[self.place:self.place + 12]
        raise NoForm(f"place {self.place}: {shown!a} {what}" if shown else f"place {self.place}: the text ends too early")

    def found(self, pattern):
        """The match of a pattern at this place, which is passed."""
        match = pattern.match(self.text, self.place)
        if match:
            self.place = match.end()
        return match

    def passed(self, character):
        """Whether the text goes on with a character behind white space, which are passed then."""
        place = BLANK.match(self.text, self.place).end()
        if self.text[place:place + 1] != character:
            return False
        self.place = place + 1
        return True

    def items(self, depth):
        """The nodes up to the end of the text or of an alternative."""
        nodes = []
        while True:
            self.found(BLANK)
            if self.place == len(self.text) or depth and self.text[self.place] in "|)":
                return nodes
            nodes += self.item(depth)

    def item(self, depth):
        if pair := self.found(PAIR):
            return [BYTES[int(pair[0], 16)]]
        if mask := self.found(MASK):
            return one_of(masked(mask[1], int(mask[2], 16)))
        character = self.text[self.place]
        if character in "'`":
            return self.quoted()
        if character == "{":
            return self.gap()
        if self.text.startswith("??", self.place):
            self.place += 2
            return [ANY]
        if self.passed("*"):
            return [Gap(0, None)]
        if self.passed("["):
            return self.bracket()
        if self.passed("("):
            return [self.choice(depth + 1)]
        return self.stop()

    def quoted(self):
        """Quoted text: 'as it stands', or `in both cases`."""
        match = self.found(QUOTED) or self.stop("has no end")
        either = match[1] is None
        return [node for byte in self.ascii(match[2] if either else match[1])
                for node in one_of(frozenset(chr(byte).lower().encode() + chr(byte).upper().encode() if either else [byte]))]

    @staticmethod
    def ascii(text):
        if not text or not text.isascii():
            raise NoForm("quoted text that is empty or no ASCII")
        return text.encode()

    def gap(self):
        match = self.found(GAP) or self.stop()
        least = int(match[1])
        most = least if not match[2] else None if match[3] in (None, "*") else int(match[3])
        return gap(least, most)

    def choice(self, depth):
        if depth > MOST_NESTING:
            raise NoForm(f"lists inside each other over {MOST_NESTING} deep")
        alternatives = [self.items(depth)]
        while self.passed("|"):
            alternatives.append(self.items(depth))
        if not self.passed(")"):
            self.stop()
        return Choice(alternatives)

    # Brackets: `[41:5A]`, `[!4142]` and sets, as `[41 'xyz' 61:7A &80]`.

    def bracket(self):
        begin, excludes, elements = self.place - 1, self.passed("!"), []
        while not self.passed("]"):
            self.found(BLANK)
            elements.append(self.element())
        source = self.text[begin:self.place]
        if not elements:
            raise NoForm("a bracket of nothing")
        if len(elements) == 1 and isinstance(elements[0], tuple):
            return between(*elements[0], excludes)
        if excludes and all(isinstance(it, bytes) for it in elements) and len(b"".join(elements)) > 1:
            if len(elements) > 1 or "'" in source:
                raise NoForm(f"a bracket with two meanings, one byte other than these or as many: {source[:40]!a}")
            return between(elements[0], elements[0], True)
        members = frozenset().union(*map(self.members, elements))
        return one_of(ALL - members if excludes else members)

    @staticmethod
    def members(element):
        """The bytes that an element of a set takes."""
        if isinstance(element, tuple):
            first, last = element
            if not len(first) == len(last) == 1 or first > last:
                raise NoForm("a range in a set that is none of single bytes, the first not behind the second")
            return range(first[0], last[0] + 1)
        return element

    def element(self):
        """A set (of a mask), two ends, or bytes."""
        if mask := self.found(MASK):
            return masked(mask[1], int(mask[2], 16))
        first = self.value()
        if not self.passed(":"):
            return first
        self.found(BLANK)
        return first, self.value()

    def value(self):
        value = b""
        while self.place < len(self.text):
            if pair := self.found(PAIR):
                value += bytes([int(pair[0], 16)])
            elif self.text[self.place] == "'":
                value += self.ascii((self.found(QUOTED) or self.stop("has no end"))[1])
            else:
                break
        return value or self.stop()


def gap(least, most):
    """The nodes of a gap: none where it has no byte."""
    if max(least, most or 0) > MOST_GAP:
        raise NoForm(f"a gap of over {MOST_GAP} bytes")
    if most is not None and least > most:
        raise NoForm("a gap whose least length is above its greatest")
    return [] if most == 0 else [Gap(least, most)]


# ---- expressions of our tables

def _emit(nodes):
    text, slots, length = [], 0, 0
    for node in nodes:
        if isinstance(node, Choice) and len(node.alternatives) > 1:
            its_text, its_slots = _list(node)
        elif isinstance(node, Choice):
            its_text, its_slots = _emit(node.alternatives[0])
        elif isinstance(node, Gap):
            its_text, its_slots = _gap_text(node), node.least + 1 if node.most is None else node.most
        else:
            its_text, its_slots = node.text, node.slots
        text.append(its_text)
        slots += its_slots
        length += len(its_text)
        # Told here, so that no long text is multiplied out to its end.
        if length > MOST_TEXT:
            raise NoForm(f"an expression of over {MOST_TEXT} bytes")
    return "".join(text), slots


def _gap_text(node):
    if node.most is None:
        return f"{{{node.least}-*}}" if node.least else "*"
    return f"{{{node.least}}}" if node.least == node.most else f"{{{node.least}-{node.most}}}"


def _list(choice):
    """A list of all words' alternatives, in which `??` is `[00:FF]`."""
    alternatives = _unfolded_choice(choice)
    if not all(alternatives):
        raise NoForm("an alternative of no byte")
    text = "|".join("".join("[00:FF]" if it is ANY else it.text for it in its) for its in alternatives)
    return f"({text})", sum(it.slots for its in alternatives for it in its)


def _unfolded_choice(choice):
    found = []
    for nodes in choice.alternatives:
        found += _unfolded(nodes)
        _judge_size(found)
    return found


def _unfolded(nodes):
    """The alternatives, each of parts alone, that a list of nodes inside a list stands for."""
    found = [()]
    for node in nodes:
        if isinstance(node, Choice):
            ways = _unfolded_choice(node)
        elif isinstance(node, Gap):
            if node.most is None:
                raise NoForm("a gap of any length inside a list")
            _judge_count(node.most - node.least + 1, node.most)
            ways = [(ANY,) * length for length in range(node.least, node.most + 1)]
        else:
            ways = [(node,)]
        _judge_count(len(found) * len(ways), 0)
        found = [front + way for front in found for way in ways]
        _judge_size(found)
    return found


def _judge_size(alternatives):
    _judge_count(len(alternatives), sum(map(len, alternatives)))


def _judge_count(alternatives, parts):
    if alternatives > MOST_ALTERNATIVES or parts > MOST_PARTS:
        raise NoForm(f"a list of over {MOST_ALTERNATIVES} alternatives or {MOST_PARTS} bytes when it is multiplied out")
