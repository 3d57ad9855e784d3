#!/usr/bin/env python3
"""Tests of the plain checker, the plain finder and the plain judge of tables.

    python3 bench/test_plain.py

The tables, certificates and answers below were worked by hand from the definitions, and the
automata are compared with Python's `re` on random files.
"""
import os
import random
import re
import sys
import tempfile
import unittest

sys.dont_write_bytecode = True
sys.path.insert(0, os.path.dirname(os.path.abspath(__file__)))

import tables
from plain_check import ALL_BYTES, Automaton, Product, check, items_of, read_table, table_of
from plain_find import find, hits, witness_line
from plain_load import refusal

HEAD = "50534143 01 00000001 01 0000 "
ONE_PAIR = HEAD + "00000002 00000000 00010001"
BLOCKED_HEAD = "50534143 01 00000003 01 0001 00000002 "
BLOCKED = BLOCKED_HEAD + "00000004 0000000001 0001000102 0002000204 0003000308 00 00"
COVERED = "50534143 02 00000003 01 0001 00000002 00000003 0000000001 0001000106 000200020A 00 00"


def formats(*expressions, over=(), position="BOF"):
    """Each expression is the one sequence of a format, at offset 0 but for a Variable one."""
    rows = []
    for n, expression in enumerate(expressions, 1):
        place, text = expression if isinstance(expression, tuple) else (position, expression)
        rows.append((f"fmt/{n}", str(n), place, "" if place == "Variable" else "0", "", text))
    return table_of(rows, [(f"fmt/{h}", f"fmt/{l}") for h, l in over])


TWO_WORDS = formats("4142", "4143")
BLOCKER = formats("41??", "??42", "4142", over=[(3, 1), (3, 2)])
LOOSE_BLOCKER = formats("41", "41", ("Variable", "41"), over=[(3, 1), (3, 2)])
ANYTHING = formats("*", "*", position="Variable")
BOTH_ENDS = table_of([("fmt/1", "1", "BOF", "0", "", "41"), ("fmt/1", "1", "EOF", "0", "", "41"),
                      ("fmt/2", "2", "BOF", "0", "", "42")], [])
TWO_SEQUENCES_ABOVE = table_of([("fmt/1", "1", "BOF", "0", "", "41"), ("fmt/2", "2", "BOF", "0", "", "41"),
                                ("fmt/3", "3", "BOF", "0", "", "41"), ("fmt/3", "3", "BOF", "1", "", "42")],
                               [("fmt/3", "fmt/1"), ("fmt/3", "fmt/2")])
ONE_FORMAT = formats("41")


def changed(text, old, new):
    assert text.count(old) == 1, text
    return text.replace(old, new)


class Certificates(unittest.TestCase):
    def judged(self, table, text, answer):
        self.assertEqual(check(table, bytes.fromhex(text)), answer, text)

    def test_accepted(self):
        for table, text in [
            (TWO_WORDS, ONE_PAIR),
            (BLOCKER, BLOCKED),
            (BOTH_ENDS, HEAD + "00000001 000000000000"),
            (ONE_FORMAT, "50534143 01 00000000"),
            (table_of([], []), "50534143 01 00000000"),
            # a row that is never reached, not bad and without successors
            (TWO_WORDS, HEAD + "00000003 00000000 00010000 00010001"),
            (LOOSE_BLOCKER, COVERED),
            (LOOSE_BLOCKER, "50534143 01 00000003 01 0001 00000002 00000004 0000000001 0001000106 000200020A 000200020E 00 00"),
            (BLOCKER, changed(BLOCKED, "50534143 01", "50534143 02")),
        ]:
            self.judged(table, text, "accepted")

    def test_first_fault(self):
        in_table = "pair 0 table 0"
        one_row = HEAD + "00000001 00000000"
        for table, text, fault in [
            (TWO_WORDS, changed(ONE_PAIR, "50534143", "50534144"), "C1 magic"),
            (TWO_WORDS, changed(ONE_PAIR, "50534143 01", "50534143 03"), "C2 version"),
            (TWO_WORDS, changed(ONE_PAIR, "00000001 01", "00000002 01"), "C3 pair count"),
            (TWO_WORDS, changed(ONE_PAIR, "00000001 01", "00000001 00"), "C4 kind pair 0"),
            (BLOCKER, changed(BLOCKED, "0001 00000002", "0001 00000001"), f"C5 blockers {in_table}"),
            (BLOCKER, changed(BLOCKED, "01 0001 00000002", "01 0041 00000002"), f"C5 blockers {in_table}"),
            (BLOCKER.without(2), BLOCKED, f"C5 blockers {in_table}"),
            (TWO_WORDS, changed(ONE_PAIR, "00010001", "00040000"), f"C6 row form {in_table} row 1"),
            (BLOCKER, changed(BLOCKED, "0000000001", "0000000011"), f"C6 row form {in_table} row 0"),
            (TWO_WORDS, HEAD + "00000002 00010001 00000000", f"C7 row order {in_table} row 1"),
            (BLOCKER, BLOCKED_HEAD + "00000005 0000000001 0001000102 0001000102 0002000204 0003000308 00 00",
             f"C7 row order {in_table} row 2"),
            (BLOCKER, BLOCKED_HEAD + "00000004 0000000001 0002000204 0001000102 0003000308 00 00",
             f"C7 row order {in_table} row 2"),
            (TWO_WORDS, HEAD + "00000000", f"C8 no start {in_table}"),
            (ANYTHING, one_row, f"C9 bad {in_table} row 0"),
            (BLOCKER, "50534143 01 00000003 01 0000 00000004 00000000 00010001 00020002 00030003 00 00",
             f"C9 bad {in_table} row 2"),
            (TWO_WORDS, HEAD + "00000003 00000000 00010001 00020002", f"C9 bad {in_table} row 2"),
            (TWO_SEQUENCES_ABOVE, BLOCKED_HEAD + "00000005 000000000101 000100010202 000200020400 000200020404 000200020408 00 00",
             f"C9 bad {in_table} row 1"),
            (TWO_WORDS, one_row, f"C10 not closed {in_table} row 0 byte 41"),
            (BLOCKER, changed(BLOCKED, "0001000102", "0001000106"), f"C10 not closed {in_table} row 0 byte 41"),
            (BLOCKER, BLOCKED_HEAD + "00000003 0000000001 0002000204 0003000308 00 00",
             f"C10 not closed {in_table} row 0 byte 41"),
            (BLOCKER, BLOCKED_HEAD + "00000003 0000000001 0001000102 0002000204 00 00",
             f"C10 not closed {in_table} row 2 byte 00"),
            (formats("[!41]", "[!42]"), one_row, f"C10 not closed {in_table} row 0 byte 00"),
            (LOOSE_BLOCKER, changed(COVERED, "50534143 02", "50534143 01"), f"C10 not closed {in_table} row 1 byte 41"),
            (BLOCKER, changed(changed(BLOCKED, "50534143 01", "50534143 02"), "0001000102", "0001000106"),
             f"C10 not closed {in_table} row 0 byte 41"),
            (BLOCKER, changed(changed(BLOCKED, "50534143 01", "50534143 02"), "0001000102", "0001000100"),
             f"C10 not closed {in_table} row 1 byte 42"),
            (TWO_WORDS, ONE_PAIR + "00", "C11 trailing"),
            (ONE_FORMAT, "50534143 01 00000000 00", "C11 trailing"),
            (ONE_FORMAT, "50534143 01 000000", "C12 truncated"),
            (TWO_WORDS, changed(ONE_PAIR, "00000002 0000", "FFFFFFFF 0000"), "C12 truncated"),
        ]:
            self.judged(table, text, f"refused {fault}")

    def test_cut_or_lengthened(self):
        for table, text in [(TWO_WORDS, ONE_PAIR), (BLOCKER, BLOCKED)]:
            whole = bytes.fromhex(text)
            for n in range(len(whole)):
                self.assertEqual(check(table, whole[:n]), "refused C12 truncated", n)
            for byte in range(256):
                self.assertEqual(check(table, whole + bytes([byte])), "refused C11 trailing", byte)

    def test_every_change_of_one_byte(self):
        whole = bytes.fromhex(ONE_PAIR)
        accepted = []
        for place in range(len(whole)):
            for byte in set(range(256)) - {whole[place]}:
                if check(TWO_WORDS, whole[:place] + bytes([byte]) + whole[place + 1:]) == "accepted":
                    accepted.append((place, byte))
        self.assertEqual(accepted, [(4, 2)])


class Automata(unittest.TestCase):
    def states(self, table):
        automaton = Automaton(table.signatures[0].sequences[0])
        return [(automaton.follows(p), automaton.accepting(p)) for p in range(automaton.slots + 1)]

    def test_tables_of_states(self):
        self.assertEqual(self.states(formats("41{1-2}42")), [
            ((1,), False), ((2,), False), ((3, 4), False), ((4,), False), ((5,), True), ((5,), True)])
        self.assertEqual(self.states(table_of([("fmt/1", "1", "EOF", "0", "2", "4142")], [])), [
            ((1, 2), False), ((1, 2), False), ((3,), False), ((4,), True), ((5,), True), ((), True)])
        self.assertEqual(self.states(formats("(41|4142)43")), [
            ((1, 2), False), ((4,), False), ((3,), False), ((4,), False), ((5,), True), ((5,), True)])

    def test_steps_of_sets(self):
        automaton = Automaton(formats("(41|4142)43").signatures[0].sequences[0])
        for before, byte, after in [(0x01, 0x41, 0x06), (0x06, 0x42, 0x08), (0x06, 0x43, 0x10), (0x08, 0x43, 0x10),
                                    (0x10, 0x00, 0x20), (0x20, 0xff, 0x20), (0x01, 0x42, 0x00)]:
            self.assertEqual(automaton.step(before, byte), after)

    def test_rows_of_brackets(self):
        def classes(text):
            return Automaton(formats(text).signatures[0].sequences[0]).classes[1:-1]
        self.assertEqual(len(classes("[4142:4241]")), 8)
        self.assertEqual(classes("[!4142]")[:2], [frozenset(range(0x41)), ALL_BYTES])
        self.assertEqual(classes("[!0000:FFFE]"), [frozenset([0xff])] * 2)

    def test_lowest_bytes(self):
        self.assertEqual(Product(TWO_WORDS, 0, 1, []).lowest_bytes(), [0x00, 0x41, 0x42, 0x43])
        self.assertEqual(Product(BLOCKER, 0, 1, [2]).lowest_bytes(), [0x00, 0x41, 0x42])

    def test_against_regular_expressions(self):
        chance = random.Random(8)
        for _ in range(400):
            row, pattern = random_sequence(chance)
            table = table_of([("fmt/1", "1", *row)], [])
            for _ in range(40):
                file = bytes(chance.choice(b"\x41\x42\x43\x44") for _ in range(chance.randrange(9)))
                stands = re.fullmatch(pattern, file, re.DOTALL) is not None
                self.assertEqual(hits(table, 0, file, {}), stands, (row, file.hex()))


def random_sequence(chance):
    """A row's position, offset, greatest offset and expression, with a pattern of whole files."""
    parts = [("41", rb"\x41"), ("42", rb"\x42"), ("[41:43]", rb"[\x41-\x43]"), ("[!42]", rb"[^\x42]"),
             ("[!42:43]", rb"[^\x42-\x43]"), ("[4142:4241]", rb"(?:\x41[\x42-\xff]|\x42[\x00-\x41])"),
             ("[!4142]", rb"(?!\x41\x42)..")]
    gaps = [("*", rb".*"), ("??", rb"."), ("{1}", rb"."), ("{1-2}", rb".{1,2}"), ("{0-1}", rb".?"), ("{2-*}", rb".{2,}")]
    texts, patterns = [], []
    for _ in range(chance.randrange(1, 4)):
        kind = chance.randrange(3)
        if kind == 2:
            chosen = [[chance.choice(parts) for _ in range(chance.randrange(1, 3))] for _ in range(2)]
            texts.append("(" + "|".join("".join(t for t, _ in alternative) for alternative in chosen) + ")")
            patterns.append(b"(?:" + b"|".join(b"".join(p for _, p in alternative) for alternative in chosen) + b")")
        else:
            text, pattern = chance.choice(gaps if kind else parts)
            texts.append(text)
            patterns.append(pattern)
    position, least = chance.choice(["BOF", "EOF", "Variable"]), chance.randrange(3)
    greatest = least + chance.randrange(2)
    offset = b".{%d,%d}" % (least, greatest)
    body = b"".join(patterns)
    whole = {"BOF": offset + body + b".*", "EOF": b".*" + body + offset, "Variable": b".*" + body + b".*"}[position]
    numbers = ("", "") if position == "Variable" else (str(least), str(greatest))
    return (position, *numbers, "".join(texts)), whole


class Finder(unittest.TestCase):
    def test_answers(self):
        below_65 = [("fmt/1", "1", "BOF", "0", "", "41"), ("fmt/2", "2", "BOF", "0", "", "41")]
        below_65 += [("fmt/3", str(n), "BOF", "0", "", "42") for n in range(3, 68)]
        for table, budget, answer, file in [
            (TWO_WORDS, 2, "decided", None),
            (TWO_WORDS, 1, "gave up 1 2", None),
            (ANYTHING, 100, "witness fmt/1 fmt/2", b""),
            (BLOCKER, 4, "decided", None),
            (BLOCKER, 3, "gave up 1 2", None),
            (LOOSE_BLOCKER, 4, "decided", None),
            (table_of(below_65, [("fmt/3", "fmt/1"), ("fmt/3", "fmt/2")]), 100, "gave up 1 2", None),
            (formats(("BOF", "41"), ("EOF", "41")), 100, "witness fmt/1 fmt/2", b"\x41"),
            (formats(("BOF", "41"), ("EOF", "41")), 5, "witness fmt/1 fmt/2", b"\x41"),
        ]:
            found, data = find(table, budget)
            self.assertEqual(found, answer)
            if file is not None:
                self.assertEqual(data, file)
        found, data = find(formats("41", "42", position="Variable"), 100)
        self.assertEqual((found, len(data)), ("witness fmt/1 fmt/2", 2))

    def test_what_it_writes_is_taken(self):
        for table in [TWO_WORDS, BLOCKER, LOOSE_BLOCKER, BOTH_ENDS, ONE_FORMAT]:
            for version in (1, 2):
                found, certificate = find(table, 1000, version)
                self.assertEqual(found, "decided")
                self.assertEqual(check(table, certificate), "accepted")
        self.assertEqual(find(TWO_WORDS, 2, 1)[1], bytes.fromhex(ONE_PAIR))
        self.assertEqual(find(LOOSE_BLOCKER, 4, 2)[1][16:20], (3).to_bytes(4, "big"), "three rows are kept")

    def test_random_tables(self):
        chance = random.Random(9)
        answers = set()
        for _ in range(60):
            rows = []
            for n in (1, 2, 3):
                text = random_sequence(chance)[0][3]
                rows.append((f"fmt/{n}", str(n), "BOF", "0", "", chance.choice(["41", "42", "43", ""]) + text))
            table = table_of(rows, [("fmt/1", "fmt/2")] if chance.random() < 0.5 else [])
            found, data = find(table, 300)
            answers.add(found.split()[0])
            if found == "decided":
                self.assertEqual(check(table, data), "accepted")
            elif data is not None:
                self.assertEqual(witness_line(table, data), found.replace("witness", "ambiguous"))
        self.assertLessEqual({"decided", "witness"}, answers)


class Benches(unittest.TestCase):
    def test_made_certificates_are_taken(self):
        for kind, count in [("alternatives", 5), ("junk", 60)]:
            with tempfile.TemporaryDirectory() as folder:
                tables.make(kind, count, folder)
                table = read_table(os.path.join(folder, "signatures.csv"), os.path.join(folder, "priorities.csv"))
                with open(os.path.join(folder, "certificate"), "rb") as f:
                    self.assertEqual(check(table, f.read()), "accepted")

    def test_made_tables_are_decided_or_not(self):
        for kind, count, answer in [("decided", 20, "decided"), ("mixed", 20, "decided"), ("hard", 3, "decided"),
                                    ("ambiguous", 20, "witness fmt/19 fmt/20")]:
            with tempfile.TemporaryDirectory() as folder:
                tables.make(kind, count, folder)
                table = read_table(os.path.join(folder, "signatures.csv"), os.path.join(folder, "priorities.csv"))
                self.assertEqual(find(table, 20_000)[0], answer)


class Witnesses(unittest.TestCase):
    def test_lines(self):
        for table, file, line in [
            (ANYTHING, b"", "ambiguous fmt/1 fmt/2"),
            (formats(("BOF", "41"), ("EOF", "41")), b"\x41", "ambiguous fmt/1 fmt/2"),
            (formats(("BOF", "41"), ("EOF", "41")), b"\x41\x42", "not ambiguous"),
            (formats("41??", "??42", "4142", over=[(3, 1)]), b"\x41\x42", "ambiguous fmt/2 fmt/3"),
            (BLOCKER, b"\x41\x42", "not ambiguous"),
        ]:
            self.assertEqual(witness_line(table, file), line)


class Texts(unittest.TestCase):
    def test_two_spellings_are_one(self):
        self.assertEqual(items_of("4a{3-3}{0-*}(0d0a|[!0a])"), items_of("4A{3}*(0D0A|[!0A])"))


class Refusals(unittest.TestCase):
    def refused(self, rows, pairs=""):
        head = "puid,signature,position,offset,max_offset,expression\n"
        return refusal((head + rows).encode(), ("higher,lower\n" + pairs).encode())

    def test_expressions(self):
        for text, fault in [
            ("", "E2 at 0"), ("41 42", "E2 at 2"), ("4", "E2 at 1"), ("{1-}", "E2 at 3"), ("[41]", "E2 at 3"),
            ("{05}", "E2 at 2"), ("(41)", "E2 at 3"), ("{100000}", "E2 at 6"), ("(41|??)", "E2 at 4"),
            ("{65536}", "E3 at 0"), ("41{65536}[42:41]", "E3 at 2"), ("{0}", "E4 at 0"), ("{5-0}", "E4 at 0"),
            ("{5-2}", "E5 at 0"), ("41[42:41]", "E6 at 2"), ("[42:42]", "E6 at 0"), ("(41|[42:41])", "E6 at 4"),
            ("[4142:4142]", "E6 at 0"), ("[!00:FF]", "E7 at 0"), ("[!0000:FFFF]", "E7 at 0"), ("[41:4142]", "E9 at 0"),
            ("[42:4141]", "E9 at 0"), ("41[!010203040506070809]", "E10 at 2"), ("41" * 4097, "E1"),
        ]:
            self.assertEqual(self.refused(f"fmt/1,1,BOF,0,,{text}\n"), f"signatures row 1: L8 expression {fault}", text)

    def test_rows(self):
        for row, rule in [
            ("fmt/1,1,BOF,0,41", "L3 fields"), ("fmt/0,1,BOF,0,,41", "L4 puid"), ("fmt/1,01,BOF,0,,41", "L5 signature number"),
            ("fmt/1,1,bof,0,,41", "L6 position"), ("fmt/1,1,BOF,,,41", "L7 offset"), ("fmt/1,1,BOF,2,1,41", "L7 offset"),
            ("fmt/1,1,Variable,0,,41", "L7 offset"), ("fmt/1,1,BOF,65536,,41", "L7 offset"),
            ("fmt/1,1,Variable,,,{65534}", "L11 too many slots"), ("fmt/1,1,BOF,0,,{65535}", "L11 too many slots"),
            ("fmt/1,1,BOF,0,65534,41", "L11 too many slots"),
        ]:
            self.assertEqual(self.refused(row + "\n"), f"signatures row 1: {rule}", row)
        for row in ["fmt/1,1,Variable,,,{65533}", "fmt/1,1,BOF,0,,{65534}", "fmt/1,1,BOF,0,65533,41", "x-fmt/263,2,EOF,18,65530,504B0506"]:
            self.assertIsNone(self.refused(row + "\n"), row)

    def test_several_rows(self):
        a, b, c = (f"fmt/{n},{n},BOF,0,,41\n" for n in (1, 2, 3))
        for rows, pairs, line in [
            ("fmt/1,1,BOF,0,,4142\nfmt/2,1,BOF,0,,4143\n", "", "signatures row 2: L9 signature of two formats"),
            (a * 9, "", "signatures row 9: L10 too many sequences"),
            ("".join(f"fmt/{n},{n},BOF,0,,41\n" for n in range(1, 1002)), "", "signatures row 1001: L12 too many formats"),
            (a + b, "fmt/1,fmt/3\n", "priorities row 1: L13 unknown format"),
            (a + b, "fmt/1,fmt/1\n", "priorities row 1: L14 format over itself"),
            (a + b, "fmt/1,fmt/2\nfmt/1,fmt/2\n", "priorities row 2: L15 pair twice"),
            (a + b + c, "fmt/1,fmt/2\nfmt/2,fmt/3\nfmt/3,fmt/1\n", "priorities row 3: L17 cycle of priorities"),
            (a + b + c, "fmt/1,fmt/2\nfmt/2,fmt/3\nfmt/1,fmt/3\n", None),
        ]:
            self.assertEqual(self.refused(rows, pairs), line)
        self.assertEqual(refusal(b"", b""), "signatures: L2 header")
        self.assertEqual(refusal(b"\xef\xbb\xbf", b""), "signatures: L2 header")
        self.assertEqual(refusal(a.encode(), b""), "signatures: L2 header")

    def test_slots(self):
        """The greatest gap beside a bracket tells its slots: 65,535 in all, with the place's 1 and the gap's."""
        for text, slots in [("[4142:4241]", 8), ("[!4142]", 8), ("[!0000:FFFE]", 2), ("(41|[43:44]45)", 3), ("{3-9}", 9), ("{3-*}", 4), ("*", 1)]:
            rest = 65535 - 1 - slots
            self.assertIsNone(self.refused(f"fmt/1,1,BOF,0,,{text}{{{rest}}}\n"), text)
            self.assertEqual(self.refused(f"fmt/1,1,BOF,0,,{text}{{{rest + 1}}}\n"), "signatures row 1: L11 too many slots", text)


if __name__ == "__main__":
    unittest.main()
