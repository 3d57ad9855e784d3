#!/usr/bin/env python3
"""Tests of from_droid.py: each rule of conversion, each refusal, and damaged input.

    python3 tools/test_from_droid.py PROGRAM [SEED]

All XML here is our own. What a sequence means is asked of the program: each table that is written is loaded
(`show`), and words that should and should not be of an expression are matched (`match --all`). Compiled
sequences at random are compared with an evaluator that walks a file by their offsets and knows no expression.
It prints a count, and ends with status 1 on a failure.
"""
import csv
import os
import random
import re
import resource
import subprocess
import sys
import tempfile
from xml.sax.saxutils import escape, quoteattr

sys.dont_write_bytecode = True
TOOLS = os.path.dirname(os.path.abspath(__file__))
sys.path[:0] = [TOOLS, os.path.join(TOOLS, "..", "bench")]

import from_droid
import plain_load
import safe_xml

TOOL = os.path.join(TOOLS, "from_droid.py")
FILES = ["names.csv", "not-taken.csv", "priorities.csv", "signatures.csv"]
MEMORY = 256 << 20  # bytes of address space of a run on hostile XML

checks, failed = 0, 0


def check(holds, message):
    global checks, failed
    checks += 1
    if not holds:
        failed += 1
        print(f"test_from_droid: {message}", flush=True)


# ---- making documents

def whole(text, reference="BOFoffset", **offsets):
    places = "".join(f' {name}="{value}"' for name, value in offsets.items())
    return f'<ByteSequence Reference="{reference}" Sequence={quoteattr(text)}{places}/>'


def compiled(*subsequences, reference="BOFoffset"):
    return f'<ByteSequence Reference="{reference}">{"".join(subsequences)}</ByteSequence>'


def sub(position, least, most, text, *fragments):
    most = "" if most is None else f' SubSeqMaxOffset="{most}"'
    return (f'<SubSequence MinFragLength="0" Position="{position}" SubSeqMinOffset="{least}"{most}>'
            f'<Sequence>{text}</Sequence><DefaultShift>9</DefaultShift><Shift Byte="41">1</Shift>{"".join(fragments)}</SubSequence>')


def frag(side, position, least, most, text):
    return f'<{side}Fragment MaxOffset="{most}" MinOffset="{least}" Position="{position}">{text}</{side}Fragment>'


def left(*its):
    return frag("Left", *its)


def right(*its):
    return frag("Right", *its)


def signature(number, *sequences):
    return f'<InternalSignature ID="{number}" Specificity="Specific">{"".join(sequences)}</InternalSignature>'


def format_of(number, puid, signatures=(), over=(), **more):
    more = "".join(f" {name}={quoteattr(value)}" for name, value in more.items())
    inner = "".join(f"<InternalSignatureID>{it}</InternalSignatureID>" for it in signatures)
    inner += "<Extension>ext</Extension>"
    inner += "".join(f"<HasPriorityOverFileFormatID>{it}</HasPriorityOverFileFormatID>" for it in over)
    return f'<FileFormat ID="{number}" PUID={quoteattr(puid)}{more}>{inner}</FileFormat>'


def document(signatures, formats):
    return ('<?xml version="1.0" encoding="UTF-8"?>\n'
            '<FFSignatureFile xmlns="http://www.nationalarchives.gov.uk/pronom/SignatureFile" Version="1">\n'
            f'<InternalSignatureCollection>{"".join(signatures)}</InternalSignatureCollection>\n'
            f'<FileFormatCollection>{"".join(formats)}</FileFormatCollection>\n</FFSignatureFile>\n').encode()


def one_each(signatures):
    """A document with a format for each signature: `fmt/1` with signature 1, and so on. Each is its sequences."""
    return document([signature(n, *its) for n, its in enumerate(signatures, 1)],
                    [format_of(100 + n, f"fmt/{n}", [n]) for n, _ in enumerate(signatures, 1)])


# ---- converting, loading and matching

class Room:
    """A folder, and the program."""

    def __init__(self, folder, program):
        self.folder, self.program, self.out = folder, program, os.path.join(folder, "out")

    def path(self, name):
        return os.path.join(self.folder, name)

    def put(self, name, data):
        with open(self.path(name), "wb") as file:
            file.write(data)
        return self.path(name)

    def converted(self, data, only=None):
        """The rows of the four files, which are written and loaded."""
        files = from_droid.convert(self.put("in.xml", data), only)
        from_droid.write(self.out, files)
        self.load(data)
        return {name: self.read(name) for name in FILES}

    def load(self, data):
        done = subprocess.run([self.program, "show", *self.tables()], capture_output=True)
        check(done.returncode == 0, f"what was written does not load: {done.stderr}\n{data!r}")

    def tables(self):
        return [os.path.join(self.out, name) for name in ("signatures.csv", "priorities.csv")]

    def read(self, name):
        with open(os.path.join(self.out, name), encoding="utf-8", newline="") as file:
            header, *rows = csv.reader(file)
        check(header == from_droid.FILES[name].split(","), f"{name}: header {header}")
        return rows

    def matched(self, files, *flags):
        """For each file, given as bytes, its formats by the table last written."""
        names = [self.put(f"file{n}", data) for n, data in enumerate(files)]
        done = subprocess.run([self.program, "match", "--with-names", *flags, *self.tables(), *names], capture_output=True, text=True)
        check(done.returncode == 0, f"match: {done.stderr}")
        found = {name: [] for name in names}
        for line in done.stdout.splitlines():
            name, _, answer = line.partition("\t")
            if answer != "-":
                found[name].append(answer.split()[0])
        return [found[name] for name in names]


def judge_words(room, cases):
    """Whether each case is converted to its rows, or not taken for its reason, and takes the files that it should."""
    got = room.converted(one_each([sequences for sequences, *_ in cases]))
    rows, reasons = {}, {row[0]: row[2] for row in got["not-taken.csv"] if row[1]}
    for puid, _, *row in got["signatures.csv"]:
        rows.setdefault(puid, []).append(",".join(row))
    files = [data for _, _, hits, misses in cases for data in (*hits, *misses)]
    answers = dict(zip(files, room.matched(files, "--all")))
    for n, (sequences, expected, hits, misses) in enumerate(cases, 1):
        puid = f"fmt/{n}"
        if isinstance(expected, str):
            check(expected in reasons.get(puid, "no reason") and puid not in rows,
                  f"{sequences} is not taken since {expected!r}; got {rows.get(puid)} {reasons.get(puid)}")
            continue
        check(rows.get(puid) == expected, f"{sequences} gives {expected}; got {rows.get(puid)} {reasons.get(puid)}")
        for data in hits:
            check(puid in answers[data], f"{sequences} takes {data!r}")
        for data in misses:
            check(puid not in answers[data], f"{sequences} does not take {data!r}")


ODD, EVEN = ("(" + "|".join(f"{byte:02X}" for byte in range(first, 256, 2)) + ")" for first in (1, 0))


def several(count):
    return "(" + "|".join(f"{byte:02X}" for byte in range(count)) + ")"


EXPRESSIONS = [  # DROID's text; ours or the reason; words that it takes; words that it does not
    ("4a4B", "4A4B", [b"JK"], [b"jK"]),
    ("\n 4A\t4B \r\n", "4A4B", [b"JK"], []),
    ("'PK'", "504B", [b"PK"], [b"pk"]),
    ("'P K'", "50204B", [b"P K"], [b"PK"]),
    ("'P'\"", "place 3", [], []),
    ("'PK", "place 0", [], []),
    ("''", "quoted text", [], []),
    ("'\u00e4'", "quoted text", [], []),
    ("`p1`", "(50|70)31", [b"P1", b"p1"], [b"q1"]),
    ("41??42", "41??42", [b"AxB"], [b"AB"]),
    ("41*42", "41*42", [b"AB", b"AxxB"], [b"Axx"]),
    ("41{3}42", "41{3}42", [b"AxxxB"], [b"AxxB"]),
    ("41{0}42", "4142", [b"AB"], [b"AxB"]),
    ("41{ 1 - 02 }42", "41{1-2}42", [b"AxB", b"AxxB"], [b"AB"]),
    ("41{2-}42", "41{2-*}42", [b"AxxB", b"AxxxxB"], [b"AxB"]),
    ("41{2-*}42", "41{2-*}42", [b"AxxB", b"AxxxxB"], [b"AxB"]),
    ("41{0-*}42", "41*42", [b"AB", b"AxB"], [b"Bx"]),
    ("41{3-2}42", "a gap whose least", [], []),
    ("41{3-0}42", "a gap whose least", [], []),
    ("41{65536}42", "a gap of over 65535", [], []),
    ("41{1,2}42", "place 2", [], []),
    ("[41:5A]", "[41:5A]", [b"A", b"Z"], [b"@", b"["]),
    ("[ 41 : 5a ]", "[41:5A]", [b"A", b"Z"], [b"@", b"["]),
    ("['A':'Z']", "[41:5A]", [b"A", b"Z"], [b"@", b"["]),
    ("[!41:5A]", "[!41:5A]", [b"@", b"["], [b"A", b"Z", b""]),
    ("[41:41]", "41", [b"A"], [b"B"]),
    ("[5A:41]", "a range whose first", [], []),
    ("[41:4142]", "ends of two lengths", [], []),
    ("[4142:4241]", "[4142:4241]", [b"AB", b"BA"], [b"AA", b"BB"]),
    ("[4142:4142]", "4142", [b"AB"], [b"AA"]),
    ("[!4142:4241]", "[!4142:4241]", [b"AA", b"BB"], [b"AB", b"BA"]),
    ("[!0000:FFFF]", "excludes everything", [], []),
    ("[!00:FF]", "a set of no byte", [], []),
    ("[414243444546474849:424243444546474849]", "a bracket of over 8", [], []),
    ("[!41]", "[!41]", [b"B"], [b"A", b""]),
    ("[!'A']", "[!41]", [b"B"], [b"A", b""]),
    ("[! 41 ]", "[!41]", [b"B"], [b"A", b""]),
    ("[!4142]", "[!4142]", [b"AA", b"BB"], [b"AB", b"A"]),
    ("[!'ab']", "two meanings", [], []),
    ("[!41 42]", "two meanings", [], []),
    ("[41]", "41", [b"A"], [b"B"]),
    ("[41 43]", "(41|43)", [b"A", b"C"], [b"B"]),
    ("['ac']", "(61|63)", [b"a", b"c"], [b"b"]),
    ("[41:43 'x' &F0]", "([41:43]|78|[F0:FF])", [b"B", b"x", b"\xf1"], [b"D", b"\xe0"]),
    ("[!41:43 'x']", "([00:40]|[44:77]|[79:FF])", [b"D", b"y"], [b"B", b"x"]),
    ("[41:43 4142:4243]", "a range in a set", [], []),
    ("[]", "a bracket of nothing", [], []),
    ("[!]", "a bracket of nothing", [], []),
    ("[41:5A", "ends too early", [], []),
    ("[&01]", ODD, [b"\x01", b"\xff"], [b"\x00", b"\xfe"]),
    ("&01", ODD, [b"\x01", b"\xff"], [b"\x00", b"\xfe"]),
    ("[!&01]", EVEN, [b"\x00", b"\xfe"], [b"\x01", b"\xff"]),
    ("[&F0]", "[F0:FF]", [b"\xf0", b"\xff"], [b"\xef"]),
    ("~FF", "[01:FF]", [b"\x01", b"\x80"], [b"\x00"]),
    ("[!~FF]", "00", [b"\x00"], [b"\x01"]),
    ("&00", "??", [b"x"], [b""]),
    ("~00", "a set of no byte", [], []),
    ("(41|42)", "(41|42)", [b"A", b"B"], [b"C"]),
    ("( 41 | 'xyz' )", "(41|78797A)", [b"A", b"xyz"], [b"xy"]),
    ("(4142)", "4142", [b"AB"], [b"A"]),
    ("(41*42)43", "41*4243", [b"ABC", b"AxBC"], [b"AC"]),
    ("(41|(42|43)44)", "(41|4244|4344)", [b"A", b"BD", b"CD"], [b"D"]),
    ("((41|42)|43)45", "(41|42|43)45", [b"AE", b"BE", b"CE"], [b"DE"]),
    ("(41{1}|42)", "(41[00:FF]|42)", [b"Ax", b"B"], [b"A"]),
    ("(41??|42)", "(41[00:FF]|42)", [b"Ax", b"B"], [b"A"]),
    ("(41{1-2}42|43)", "(41[00:FF]42|41[00:FF][00:FF]42|43)", [b"AxB", b"AxxB", b"C"], [b"AB"]),
    ("([!41]|4142)", "([!41]|4142)", [b"B", b"AB"], [b"AA"]),
    ("([&F1]43|42)", "(" + "|".join(f"{byte:02X}43" for byte in range(0xF1, 256, 2)) + "|42)", [b"\xf1C", b"\xffC", b"B"], [b"\xf0C"]),
    ("(41*42|43)", "any length inside a list", [], []),
    ("(41{300}42|43)", "(41" + "[00:FF]" * 300 + "42|43)", [b"C"], [b"AB"]),
    ("(41{1-300}|42)", "multiplied out", [], []),
    ("(" + "(41|42)" * 9 + "|43)", "multiplied out", [], []),
    ("(" + several(15) + several(17) + "|43)", "(" + "|".join(f"{a:02X}{b:02X}" for a in range(15) for b in range(17)) + "|43)",
     [b"\x00\x10", b"C"], [b"\x0f\x00"]),
    ("(" + several(16) + several(16) + "|43)", "multiplied out", [], []),
    ("(41|)", "an alternative of no byte", [], []),
    ("(41|{0-1})", "an alternative of no byte", [], []),
    ("(41|42", "ends too early", [], []),
    ("41|42", "place 2", [], []),
    ("41)", "place 2", [], []),
    ("(" * 17 + "41" + ")" * 17, "over 16 deep", [], []),
    ("(" * 16 + "41" + ")" * 16, "41", [b"A"], [b"B"]),
    ("4", "place 0", [], []),
    ("4?", "place 0", [], []),
    ("41~", "place 2", [], []),
    ("!41", "place 0", [], []),
    ("", "a sequence of no byte", [], []),
    ("{0}", "a sequence of no byte", [], []),
    ("\u0664\u0661", "place 0", [], []),
    ("41" * 4096 + "*", "over 8192 bytes", [], []),
    (" 41" * 4096, "41" * 4096, [b"A" * 4096], [b"A" * 4095]),
    (" " * 40000 + "41", "over 32768 characters", [], []),
]


def expression_cases():
    for source, expected, hits, misses in EXPRESSIONS:
        is_ours = re.fullmatch(r"[0-9A-F?*{}()|\[\]!:-]+", expected)
        yield [whole(source)], [f"BOF,0,,{expected}"] if is_ours else expected, hits, misses


PLACES = [  # byte sequences; rows or the reason; files that they take; files that they do not
    # Whole: the maximum counts from the offset.
    ([whole("4142", Offset=2)], ["BOF,2,,4142"], [b"..AB"], [b".AB", b"...AB"]),
    ([whole("4142", Offset=2, MaxOffset=3)], ["BOF,2,5,4142"], [b"..AB", b".....AB"], [b".AB", b"......AB"]),
    ([whole("4142", MaxOffset=1)], ["BOF,0,1,4142"], [b"AB", b".AB"], [b"..AB"]),
    ([whole("4142", "EOFoffset", Offset=2, MaxOffset=3)], ["EOF,2,5,4142"], [b"AB..", b"AB....."], [b"AB.", b"AB......"]),
    ([whole("4142", "Variable")], ["Variable,,,4142"], [b"AB", b"..AB.."], [b"A.B"]),
    ([whole("4142", "")], ["Variable,,,4142"], [b"..AB.."], [b"A.B"]),
    ([whole("4142", "Variable", Offset=0, MaxOffset=0)], ["Variable,,,4142"], [b"..AB.."], [b"A.B"]),
    ([whole("4142", "Variable", Offset=1)], "an offset in a Variable", [], []),
    ([whole("4142", Offset="x")], "Offset is no number", [], []),
    ([whole("4142", Offset="-1")], "Offset is no number", [], []),
    ([whole("4142", MaxOffset="1" * 10)], "MaxOffset is no number", [], []),
    ([whole("41", MaxOffset=65533)], ["BOF,0,65533,41"], [b"A"], [b"B"]),
    ([whole("41", MaxOffset=65534)], "over 65535 slots", [], []),
    ([whole("[4142:4241]", MaxOffset=65526)], ["BOF,0,65526,[4142:4241]"], [b"AB", b"BA"], [b"AA", b"BB"]),
    ([whole("[4142:4241]", MaxOffset=65527)], "over 65535 slots", [], []),
    ([whole("41", Offset=65533)], ["BOF,65533,,41"], [], [b"A"]),
    ([whole("41", Offset=65000, MaxOffset=534)], "over 65535 slots", [], []),
    ([whole("41{65532}", "Variable")], ["Variable,,,41{65532}"], [], [b"A"]),
    ([whole("41{65532-*}", "Variable")], "over 65535 slots", [], []),
    ([whole("41", "IndirectBOFoffset")], "indirect", [], []),
    ([whole("41", IndirectOffsetLength=4)], "indirect", [], []),
    ([whole("41", "Middle")], "the reference Middle", [], []),
    ([whole("41", Endianness="Little-endian")], "little-endian", [], []),
    ([whole("41", Endianness="Big-endian")], ["BOF,0,,41"], [b"A"], [b"B"]),
    # All sequences of a signature; they may overlap.
    ([whole("4142"), whole("4243", "EOFoffset")], ["BOF,0,,4142", "EOF,0,,4243"], [b"ABC", b"AB.BC"], [b"AB", b"BC"]),
    ([], "no byte sequence", [], []),
    ([whole("41")] * 8, ["BOF,0,,41"] * 8, [b"A"], [b"B"]),
    ([whole("41")] * 9, "over 8 byte sequences", [], []),
    ([whole("41"), whole("4?")], "place 0", [], []),
    (["<ByteSequence/>"], "with neither", [], []),
    ([whole("41").replace("/>", ">") + sub(1, 0, 0, "41") + "</ByteSequence>"], "or with both", [], []),
    (["<Byte/>"], "an element that is not known: Byte", [], []),
    ([compiled("<SubSequence Position='1'/>")], "without its one Sequence", [], []),
    ([compiled("<Foo/>")], "an element that is not known: Foo", [], []),
    ([compiled(sub(1, 0, 0, "41", "<Foo/>"))], "an element that is not known: Foo", [], []),
    ([compiled(sub(1, 0, 0, "41<Foo/>42"))], "an element that is not known: Foo", [], []),
    ([compiled(sub(1, 0, 0, "41", right(1, 0, 0, "42<Foo/>43")))], "an element that is not known: Foo", [], []),
    ([compiled("4142", sub(1, 0, 0, "41"))], "a text that is not known: 4142", [], []),
    ([compiled(sub(1, 0, 0, "41", "4142"))], "a text that is not known: 4142", [], []),
    ([whole("41"), "4142"], "a text that is not known: 4142", [], []),
    # Compiled, from the beginning.
    ([compiled(sub(1, 2, 5, "4142"))], ["BOF,2,5,4142"], [b"..AB", b".....AB"], [b".AB", b"......AB"]),
    ([compiled(sub(1, 2, None, "4142"))], ["BOF,2,,4142"], [b"..AB"], [b"...AB"]),
    ([compiled(sub(1, 3, 2, "4142"))], "a maximum offset below", [], []),
    ([compiled(sub(1, 0, 0, "41"), sub(2, 0, None, "42"))], ["BOF,0,,41*42"], [b"AB", b"A..B"], [b".AB"]),
    ([compiled(sub(2, 2, None, "42"), sub(1, 0, 0, "41"))], ["BOF,0,,41{2-*}42"], [b"A..B", b"A...B"], [b"A.B"]),
    ([compiled(sub(1, 0, 0, "41"), sub(2, 2, 3, "42"))], ["BOF,0,,41{2-3}42"], [b"A..B", b"A...B"], [b"A.B", b"A....B"]),
    ([compiled(sub(1, 0, 0, "41"), sub(2, 0, 0, "42"))], ["BOF,0,,4142"], [b"AB"], [b"A.B"]),
    ([compiled(sub(1, 0, 1, "41"), sub(2, 0, 0, "42"))], ["BOF,0,1,4142"], [b"AAB"], [b"AAAB"]),
    ([compiled(sub(1, 0, 0, "41"), sub(2, 3, 2, "42"))], "a gap whose least", [], []),
    ([compiled(sub(1, 0, 0, "41"), sub(1, 0, 0, "42"))], "two subsequences of one position", [], []),
    ([compiled(sub(1, 0, 0, "41"), sub(3, 0, 0, "42"))], "the positions of its SubSequence", [], []),
    ([compiled(sub(0, 0, 0, "41"))], "the positions of its SubSequence", [], []),
    ([compiled(sub("", 0, 0, "41"))], "the positions of its SubSequence", [], []),
    ([compiled(sub(1, 0, 0, ""))], "a subsequence of no byte", [], []),
    # Fragments: to the right in the order of their positions, to the left outward.
    ([compiled(sub(1, 0, 0, "41", right(1, 2, 4, "45"), right(1, 2, 4, "46")))], ["BOF,0,,41{2-4}(45|46)"],
     [b"A..E", b"A....F"], [b"A.E", b"A.....F"]),
    ([compiled(sub(1, 0, 0, "41", right(2, 0, 0, "43"), right(1, 1, 1, "42")))], ["BOF,0,,41{1}4243"], [b"A.BC"], [b"A.CB", b"ABC"]),
    ([compiled(sub(1, 1, 2, "43", left(1, 1, 1, "42"), left(2, 0, 0, "41")))], ["BOF,1,2,4142{1}43"],
     [b".AB.C", b"..AB.C"], [b"AB.C", b".BA.C", b"...AB.C"]),
    ([compiled(sub(1, 0, 0, "43", left(1, 1, 2, "41"), left(1, 1, 2, "42")))], ["BOF,0,,(41|42){1-2}43"], [b"A.C", b"B..C"], [b"AC"]),
    ([compiled(sub(1, 0, 0, "41", right(1, 0, 0, "45"), right(1, 1, 2, "46")))],
     ["BOF,0,,41(45|[00:FF]46|[00:FF][00:FF]46)"], [b"AE", b"A.F", b"A..F"], [b"AF", b"A.E"]),
    ([compiled(sub(1, 0, 0, "41", left(1, 0, 0, "45"), left(1, 1, 1, "46")))], ["BOF,0,,(45|46[00:FF])41"], [b"EA", b"F.A"], [b"FA", b"E.A"]),
    ([compiled(sub(1, 0, 0, "41", right(1, 0, 0, "45"), right(3, 0, 0, "46")))], "the positions of its RightFragment", [], []),
    ([compiled(sub(1, 0, 0, "41", right(1, 0, 0, "")))], "a fragment of no byte", [], []),
    ([compiled(sub(1, 0, 0, "41", right(1, 3, 2, "45")))], "a gap whose least", [], []),
    ([compiled(sub(1, 0, 0, "41", right(1, "x", 2, "45")))], "MinOffset is no number", [], []),
    ([compiled(sub(1, 0, 0, "41", right(1, 2, "", "45")))], ["BOF,0,,41{2}45"], [b"A..E"], [b"A.E", b"A...E"]),
    # Compiled, from the end: the last subsequence is the nearest to it.
    ([compiled(sub(1, 0, 2, "4142", right(1, 1, 1, "43")), reference="EOFoffset")], ["EOF,0,2,4142{1}43"],
     [b"AB.C", b"AB.C.."], [b"AB.C...", b"ABC"]),
    ([compiled(sub(1, 2, None, "41"), sub(2, 1, 3, "42"), reference="EOFoffset")], ["EOF,1,3,41{2-*}42"],
     [b"A..B.", b"A....B..."], [b"A.B.", b"A..B", b"A..B...."]),
    ([compiled(sub(1, 0, 1, "41"), sub(2, 0, 0, "42"), reference="EOFoffset")], ["EOF,0,,41{0-1}42"], [b"AB", b"A.B"], [b"A..B", b"AB."]),
    # Compiled, anywhere.
    ([compiled(sub(1, 0, None, "41"), sub(2, 1, None, "42"), reference="Variable")], ["Variable,,,41{1-*}42"], [b".A.B."], [b"AB", b"B.A"]),
    ([compiled(sub(1, 2, None, "41"), reference="Variable")], ["Variable,,,{2-*}41"], [b"..A", b"...A."], [b".A.."]),
    ([compiled(sub(1, 0, 0, "41"), reference="Variable")], ["Variable,,,41"], [b"..A"], [b"..B"]),
    ([compiled(sub(1, 0, 3, "41"), reference="Variable")], "a maximum offset in a Variable", [], []),
]


# ---- formats, numbers, names and priorities

def judge_formats(room):
    simple = [signature(n, whole(f"{0x40 + n:02X}")) for n in range(1, 8)]
    bad = signature(9, whole("4?"))
    got = room.converted(document(
        [*simple, bad, signature(3, whole("5A")), signature("x", whole("5A")), signature(20, whole("58"))],
        [format_of(1, "fmt/1", [1], [2], Name="One, \"first\"", Version=" 1.0 "), format_of(2, "fmt/2", [2, 2, 1, 9], Name="Two\n lines"),
         format_of(3, "fmt/3", []), format_of(4, "fmt/04", [4]), format_of(5, "fmt/1", [4]), format_of(6, "fmt/6", [9], [1]),
         format_of(7, "x-fmt/7", [5, 99, "x"], [6, 77], Version="7"), format_of(8, "fmt/8", [3]), format_of(8, "", [6]),
         format_of(9, "fmt/9", [6, 20, 1], [8, 5])]))
    check([row[:2] + row[5:] for row in got["signatures.csv"]] == [
        ["fmt/1", "21", "41"], ["fmt/2", "2", "42"], ["fmt/2", "22", "41"], ["x-fmt/7", "5", "45"], ["fmt/9", "28", "46"],
        ["fmt/9", "20", "58"], ["fmt/9", "29", "41"]], f"numbers: {got['signatures.csv']}")
    check(got["names.csv"] == [["fmt/1", 'One, "first" 1.0'], ["fmt/2", "Two lines"], ["x-fmt/7", "7"], ["fmt/9", "fmt/9"]],
          f"names: {got['names.csv']}")
    check(got["priorities.csv"] == [["fmt/1", "fmt/2"]], f"priorities: {got['priorities.csv']}")
    expected = [
        ("fmt/2", "9", "place 0"), ("fmt/3", "", "no internal signature"), ("fmt/04", "", "no PUID"),
        ("fmt/1", "", "a format above has this PUID"), ("fmt/6", "9", "place 0"), ("fmt/6", "", "none of its signatures"),
        ("x-fmt/7", "99", "no signature of the file"), ("x-fmt/7", "x", "its ID is no number"), ("fmt/8", "3", "two signatures"),
        ("fmt/8", "", "none of its signatures"), ("", "", "no PUID"), ("", "7", "no format names it"),
        ("fmt/6", "", "priority over fmt/1: fmt/6 is not taken"), ("x-fmt/7", "", "priority over fmt/6: fmt/6 is not taken"),
        ("x-fmt/7", "", "the ID 77: no format has"), ("fmt/9", "", "the ID 8: two formats have"),
        ("fmt/9", "", "priority over fmt/1: fmt/1 is not taken")]
    check(len(got["not-taken.csv"]) == len(expected) and all(
        row[:2] == [puid, number] and reason in row[2] for row, (puid, number, reason) in zip(got["not-taken.csv"], expected)),
        f"not taken: {got['not-taken.csv']}")


def judge_priorities(room):
    data = document([signature(n, whole("41")) for n in range(1, 5)],
                    [format_of(1, "fmt/1", [1], [2, 2, 1]), format_of(2, "fmt/2", [2], [3]), format_of(3, "fmt/3", [3], [1, 4]),
                     format_of(4, "fmt/4", [4], [2])])
    got = room.converted(data)
    check(got["priorities.csv"] == [["fmt/1", "fmt/2"], ["fmt/2", "fmt/3"], ["fmt/3", "fmt/4"]], f"priorities: {got['priorities.csv']}")
    check([row[2] for row in got["not-taken.csv"]] == [
        "priority over fmt/2: this pair stands above", "priority over fmt/1: a format over itself",
        "priority over fmt/1: it would close a cycle with pairs above",
        "priority over fmt/2: it would close a cycle with pairs above"], f"not taken: {got['not-taken.csv']}")
    check(room.matched([b"A"]) == [["fmt/1"]], "of a chain of three pairs the first is left")
    check(room.converted(data, ["fmt/1", "fmt/4"])["priorities.csv"] == [], "no pair is implied by others")
    check(room.matched([b"A"]) == [["fmt/1", "fmt/4"]], "without its middle a chain decides nothing")


def judge_random_priorities(room, chance):
    """Pairs at random: taken is each that the plain judge takes behind those taken before."""
    for _ in range(30):
        count = chance.randrange(2, 9)
        lower = [[chance.randrange(count) for _ in range(chance.randrange(5))] for _ in range(count)]
        got = room.converted(document([signature(n + 1, whole("41")) for n in range(count)],
                                      [format_of(n, f"fmt/{n + 1}", [n + 1], its) for n, its in enumerate(lower)]))
        table, expected = plain_load.Table(), []
        table.formats = {f"fmt/{n + 1}" for n in range(count)}
        for pair in [[f"fmt/{n + 1}", f"fmt/{it + 1}"] for n, its in enumerate(lower) for it in its]:
            try:
                table.add_pair(pair)
                expected.append(pair)
            except plain_load.Refused:
                pass
        check(got["priorities.csv"] == expected, f"pairs {lower}: {got['priorities.csv']}")
        check(len(got["not-taken.csv"]) == sum(map(len, lower)) - len(expected), f"pairs {lower}: each is in one of the files")


def judge_numbers(room):
    none = room.converted(document([signature("", whole("41"))], [
        it.replace(' ID=""', "") for it in (format_of("", "fmt/1", [""], [""]), format_of(1, "fmt/2", [""], [""]))]))
    check([row[2] for row in none["not-taken.csv"]] == ["no signature of the file has this ID", "none of its signatures is taken"] * 2 + [
        "priority over the format with the ID : no format has this ID"] * 2, f"no ID is none: {none['not-taken.csv']}")
    full = room.converted(document([signature(999_999_998, whole("41")), signature("07", whole("42"))],
                                   [format_of(n, f"fmt/{n}", [999_999_998, "07"]) for n in range(1, 3)]))
    check([row[1] for row in full["signatures.csv"]] == ["999999999"], f"the last number: {full['signatures.csv']}")
    check(all("no number of nine digits is left" in row[2] for row in full["not-taken.csv"] if row[1]), f"{full['not-taken.csv']}")


def judge_only(room):
    data = document([signature(n, whole("41")) for n in range(1, 1003)],
                    [format_of(n, f"fmt/{n}", [n, 1002], [n - 1]) for n in range(1, 1002)]).replace(b">0</Has", b">1001</Has")
    refused(room, data, "1001 formats to take, and a table has at most 1000: name some formats with --only")
    got = room.converted(data, {f"fmt/{n}": None for n in range(1, 1001)})
    check(len(got["names.csv"]) == 1000 and len(got["priorities.csv"]) == 999 and not got["not-taken.csv"], "1,000 of 1,001 formats")
    got = room.converted(data, {"fmt/1001": None, "fmt/5000": None})
    check([row[:2] for row in got["signatures.csv"]] == [["fmt/1001", "1001"], ["fmt/1001", "2003"]],
          f"the numbers of a part are those of the whole: {got['signatures.csv']}")
    check(got["not-taken.csv"] == [["fmt/5000", "", "no format of the file has this PUID"]], f"{got['not-taken.csv']}")
    many = document([signature(n, whole("41")) for n in range(1, 4002)],
                    [format_of(n, f"fmt/{n}", range(5 * n + 1, min(5 * n + 6, 4002))) for n in range(801)])
    refused(room, many.replace(b"fmt/0", b"fmt/900"), "4001 signatures to take, and a table has at most 4000: name some formats with --only")


def judge_spellings(room):
    """The same signatures in both spellings, one table each: equal rows, so equal answers."""
    both = [
        (whole("41424344{2-4}(45|46)", MaxOffset=8), compiled(sub(1, 0, 8, "41424344", right(1, 2, 4, "45"), right(1, 2, 4, "46")))),
        (whole("5A5A", "EOFoffset", Offset=1), compiled(sub(1, 1, 1, "5A5A"), reference="EOFoffset")),
        (whole("41{1}42*4344{2-*}45", Offset=1, MaxOffset=2),
         compiled(sub(1, 1, 3, "42", left(1, 1, 1, "41")), sub(2, 0, None, "4344"), sub(3, 2, None, "45"))),
        (whole("41*42{1-3}43", "EOFoffset", MaxOffset=3), compiled(sub(1, 0, None, "41"), sub(2, 0, 3, "42", right(1, 1, 3, "43")), reference="EOFoffset")),
        (whole("(41|42)43*44", "Variable"), compiled(sub(1, 0, None, "43", left(1, 0, 0, "41"), left(1, 0, 0, "42")), sub(2, 0, None, "44"), reference="Variable")),
    ]
    first, second = (room.converted(one_each([[pair[side]] for pair in both]))["signatures.csv"] for side in (0, 1))
    check(first == second and len(first) == len(both), f"two spellings: {first} {second}")


# ---- compiled sequences at random, against a walk over the file

class Walk:
    """A compiled sequence at random, as XML and as the ends that it can reach in a file from given starts."""

    def __init__(self, chance):
        self.chance = chance
        self.reference = chance.choice(["BOFoffset", "EOFoffset", "Variable"])
        self.parts = [self.part() for _ in range(chance.randrange(1, 4))]
        anchor = len(self.parts) - 1 if self.reference == "EOFoffset" else 0
        self.gaps = []
        for place in range(len(self.parts)):
            least = chance.randrange(3)
            most = least + chance.randrange(3)
            if place == anchor and self.reference == "Variable" or place != anchor and chance.random() < .7:
                most = None
            self.gaps.append((least, most))

    def word(self):
        return "".join(self.chance.choice("AB") for _ in range(self.chance.randrange(1, 3)))

    def fragments(self):
        """For each position, from the nearest on, its alternatives: least and greatest distance, and the bytes."""
        found = []
        for _ in range(self.chance.choice([0, 0, 1, 2])):
            least = self.chance.randrange(3)
            same = least, least + self.chance.randrange(3)
            own = self.chance.random() < .3
            found.append([((self.chance.randrange(2),) * 2 if own else same) + (self.word(),) for _ in range(self.chance.randrange(1, 3))])
        return found

    def part(self):
        return self.fragments(), self.word(), self.fragments()

    def xml(self):
        subs = []
        for place, ((lefts, word, rights), (least, most)) in enumerate(zip(self.parts, self.gaps), 1):
            its = [of(n, low, high, text.encode().hex().upper()) for of, side in ((left, lefts), (right, rights))
                   for n, ways in enumerate(side, 1) for low, high, text in ways]
            self.chance.shuffle(its)
            subs.append(sub(place, least, most, word.encode().hex().upper(), *its))
        self.chance.shuffle(subs)
        return compiled(*subs, reference=self.reference)

    @staticmethod
    def ends(part, file, starts):
        lefts, word, rights = part
        for ways in reversed(lefts):
            starts = {at + len(text) + gap for at in starts for low, high, text in ways if file.startswith(text, at)
                      for gap in range(low, high + 1)}
        starts = {at + len(word) for at in starts if file.startswith(word, at)}
        for ways in rights:
            starts = {at + gap + len(text) for at in starts for low, high, text in ways for gap in range(low, high + 1)
                      if file.startswith(text, at + gap)}
        return {at for at in starts if at <= len(file)}

    def takes(self, file):
        size = len(file)
        spread = lambda at, least, most: range(at + least, size + 1 if most is None else at + most + 1)
        is_end = self.reference == "EOFoffset"
        found = set(range(size + 1)) if is_end else set(spread(0, *self.gaps[0]))
        for place, part in enumerate(self.parts):
            if place:
                found = {to for at in found for to in spread(at, *self.gaps[place - 1 if is_end else place])}
            found = self.ends(part, file, found)
        if is_end:
            least, most = self.gaps[-1]
            return any(least <= size - at <= most for at in found)
        return bool(found)


def judge_walks(room, chance):
    walks = [Walk(chance) for _ in range(200)]
    got = room.converted(one_each([[walk.xml()] for walk in walks]))
    check(not got["not-taken.csv"], f"compiled sequences at random: {got['not-taken.csv'][:3]}")
    files = ["".join(chance.choice("AAABBBC") for _ in range(chance.randrange(1, 14))) for _ in range(400)]
    hits = 0
    for file, found in zip(files, room.matched([it.encode() for it in files], "--all")):
        expected = [f"fmt/{n}" for n, walk in enumerate(walks, 1) if walk.takes(file)]
        hits += len(expected)
        check(found == expected, f"{file}: a walk takes {set(expected) ^ set(found)}, the table not, or the other way")
    check(hits > 2000, f"compiled sequences at random: only {hits} hits")


# ---- hostile and damaged input

def limit_memory():
    resource.setrlimit(resource.RLIMIT_AS, (MEMORY, MEMORY))


def refused(room, data, line, options=(), before=None, source=None):
    """Whether the tool ends with status 2 and one plain line that ends so, and writes no file."""
    source = source if source is not None else room.put("in.xml", data)
    out = room.path("none")
    done = subprocess.run([sys.executable, TOOL, *options, source, out], capture_output=True, stdin=before, preexec_fn=limit_memory)
    told = done.stderr.decode("utf-8", "replace")
    check(done.returncode == 2 and told.count("\n") == 1 and told.endswith(line + "\n") and not done.stdout and not os.path.exists(out),
          f"{line!r}: status {done.returncode}, {told[-300:]!r}")


def judge_refusals(room):
    good = one_each([[whole("41")]])
    head, rest = good.split(b"\n", 1)
    bomb = b"<!DOCTYPE a [<!ENTITY a 'aaaaaaaaaa'>" + b"".join(
        b"<!ENTITY %c '%s'>" % (98 + n, b"&%c;" % (97 + n) * 10) for n in range(20)) + b"]>\n"
    for data, line in [
        (b"", "line 1: no XML: no element found"),
        (b"plain text", "line 1: no XML: syntax error"),
        (bytes(range(256)), "line 1: no XML: not well-formed (invalid token)"),
        (good[:300], "no XML: unclosed token"),
        (good[:good.index(b"<FileFormat ")], "line 4: no XML: no element found"),
        (good + b"<a/>", "line 6: no XML: junk after document element"),
        (head + b"\n<!DOCTYPE FFSignatureFile>\n" + rest, "line 2: a document type declaration"),
        (head + b"\n<!DOCTYPE a SYSTEM 'file:///etc/passwd'>\n" + rest, "line 2: a document type declaration"),
        (head + b"\n" + bomb + rest.replace(b"ext<", b"&u;<"), "line 2: a document type declaration"),
        (good.replace(b"ext<", b"&u;<"), "no XML: undefined entity"),
        (good.replace(b"UTF-8", b"utf-7"), "line 1: the encoding utf-7, which is not one of UTF-8, UTF-16, ISO-8859-1, US-ASCII"),
        (b"<a>" * 65 + b"</a>" * 65, "line 1: elements inside each other over 64 deep"),
        (b"<a>\n" + b"x" * (1 << 21) + b"</a>", "line 2: a text of over 1048576 characters"),
        (b"<a b='" + b"x" * (1 << 21) + b"'/>", "line 1: a tag, remark or declaration of over 1048576 bytes"),
        (b"<a><!--" + b"x" * (1 << 21) + b"--></a>", "line 1: a tag, remark or declaration of over 1048576 bytes"),
        (b"<a " + b" ".join(b"a%d=''" % n for n in range(101)) + b"/>", "line 1: over 100 attributes of one element"),
        (b"<a xmlns='" + b"x" * 2000 + b"'/>", "line 1: a name of over 1000 characters"),
        (b"<ContainerSignatureMapping/>", "line 1: no signature file of DROID: its root is ContainerSignatureMapping"),
        (b"<a\xc2\x85/>", "line 1: no XML: not well-formed (invalid token)"),
    ]:
        refused(room, data, line)
    refused(room, b"", "missing.xml: no such file", source=room.path("missing.xml"))
    refused(room, b"", "is a folder", source=room.folder)
    refused(room, good, "in\\x1b.xml: no such file", source="in\x1b.xml")
    refused(room, good, "list: line 2: no PUID of the form fmt/1 or x-fmt/1", options=["--only", room.put("list", b"fmt/1\nfmt/x\n")])
    refused(room, good, "can't be read: No such file or directory", options=["--only", room.path("missing")])
    with subprocess.Popen(["sh", "-c", "printf '<a b=\"'; yes aaaaaaaaaaaaaaaaaaaaaaaaaaaaaaaa"], stdout=subprocess.PIPE, stderr=subprocess.DEVNULL) as endless:
        refused(room, b"", "a tag, remark or declaration of over 1048576 bytes", before=endless.stdout, source="/dev/stdin")
        endless.stdout.close()


def judge_limits(room):
    """The limits that a whole file would be slow to reach, at smaller values; and what a grammar may hold."""
    def told(data, grammar=False, **limits):
        try:
            safe_xml.read(room.put("in.xml", data), grammar, limits=safe_xml.Limits(**limits))
        except safe_xml.Refused as line:
            return str(line).split(": ", 1)[1]
        return "taken"

    plain = b"<!DOCTYPE a [<!ELEMENT a EMPTY><!ATTLIST a b CDATA 'c'>]><a/>"
    for got, expected in [
        (told(b"<a>" + b"<b/>" * 10 + b"</a>", elements=10), "line 1: over 10 elements"),
        (told(b"<a>" + b"<b/>" * 10 + b"</a>", elements=11), "taken"),
        (told(b"<a>" + b" " * 100_000 + b"</a>", bytes=100_000), "line 1: over 100000 bytes"),
        (told(b"<a b='xxxx'/>", text=3), "line 1: an attribute of over 3 characters"),
        (told(plain), "line 1: a document type declaration"),
        (told(plain, True), "taken"),
        (told(plain.replace(b"<!ELEMENT", b"<!ATTLIST a d CDATA 'c'><!ELEMENT"), True, declarations=1), "line 1: over 1 declarations of attributes"),
        (told(plain.replace(b"<!ELEMENT", b"<!-- x -->" * 40_000 + b"<!ELEMENT"), True), "line 1: a document type of over 262144 bytes"),
        (told(plain.replace(b"<!ELEMENT", b"<!ENTITY e 'x'><!ELEMENT"), True), "line 1: an entity declaration"),
        (told(plain.replace(b"<!ELEMENT", b"<!ENTITY % e 'x'><!ELEMENT"), True), "line 1: an entity declaration"),
        (told(plain.replace(b"<!ELEMENT", b"<!ENTITY e SYSTEM 'x' NDATA n><!ELEMENT"), True), "line 1: an entity declaration"),
        (told(plain.replace(b"<!ELEMENT", b"<!NOTATION n SYSTEM 'x'><!ELEMENT"), True), "line 1: a notation declaration"),
        (told(plain.replace(b"a [", b"a SYSTEM 'x' ["), True), "line 1: a document type that stands elsewhere"),
        (told(plain.replace(b"<!ELEMENT", b"%e;<!ELEMENT").replace(b"<a/>", b"<a>&f;</a>"), True), "line 1: an entity that is not declared"),
    ]:
        check(got == expected, f"limits: {got!r} and not {expected!r}")
    root = safe_xml.read(room.put("in.xml", plain), True)
    check(root.attributes == {}, "a value that only a declaration gives is not reported")
    root = safe_xml.read(room.put("in.xml", b"<a xmlns='u'>t<b><c/></b>&lt;&#65;<d xml:lang='de'/></a>"), skip=("b",))
    check((root.namespace, root.text, [(it.name, it.attributes) for it in root.children]) == ("u", "t<A", [("d", {"xml:lang": "de"})]),
          "text, namespace, attributes and what is skipped")


def judge_runs(room):
    """The tool as it is called: what it prints and writes, and where it can't."""
    source = room.put("in.xml", one_each([[whole("41")], [whole("42")]]))
    only, out = room.put("list", b"\xef\xbb\xbffmt/2\r\n\r\n"), room.path("new/folder")
    done = subprocess.run([sys.executable, TOOL, "--only", only, source, out], capture_output=True, text=True)
    check((done.returncode, done.stdout, done.stderr) == (0, "1 formats, 1 signatures, 1 rows, 0 priorities; 0 lines in not-taken.csv\n", ""), f"{done}")
    check(sorted(os.listdir(out)) == FILES, f"four files: {os.listdir(out)}")
    with open(os.path.join(out, "signatures.csv"), "rb") as file:
        check(file.read() == b"puid,signature,position,offset,max_offset,expression\nfmt/2,2,BOF,0,,42\n", "the bytes of the table")
    wide = room.put("in.xml", one_each([[whole("(41{0-65535}|42)")]]))
    done = subprocess.run([sys.executable, TOOL, wide, out], capture_output=True, text=True, preexec_fn=limit_memory)
    check(done.returncode == 0 and done.stdout.startswith("0 formats"), f"a wide gap in a list takes little memory: {done}")
    done = subprocess.run([sys.executable, TOOL, source, source], capture_output=True, text=True)
    check(done.returncode == 2 and done.stderr.count("\n") == 1 and "can't be written" in done.stderr, f"{done}")
    check(subprocess.run([sys.executable, TOOL, source], capture_output=True).returncode == 2, "a missing word")


def judge_random_texts(room, chance):
    """Expressions at random: what is taken loads, by the program too."""
    atoms = ["41", "4a", "??", "*", "{2}", "{1-3}", "{2-}", "{0}", "(", ")", "|", "[", "]", "!", ":", "[41:5A]", "[!41]", "[!4142]",
             "'ab'", "`ab`", "'", "&01", "~80", "[&F0 41]", " ", "[4142:5A00]", "(41|42)", "(41|(42|[43:44])45)", "4", "{", "}", "-", "0"]
    taken = 0
    for _ in range(3):
        texts = ["".join(chance.choice(atoms) for _ in range(chance.randrange(1, 9))) for _ in range(700)]
        got = room.converted(one_each([[whole(text)] for text in texts]))
        taken += len(got["names.csv"])
        check(len({row[0] for row in got["not-taken.csv"]} ^ {row[0] for row in got["names.csv"]}) == 700, "each is taken or has a reason")
    check(taken > 300, f"expressions at random: only {taken} taken")


def judge_damage(room, chance):
    """Documents with bytes changed, cut and doubled: a plain refusal, or a table that loads."""
    bases = [one_each([sequences]) for sequences, *_ in PLACES if len(sequences) < 8]
    bases += [one_each([sequences for sequences, *_ in PLACES[:12]])] * 20
    values = [b"", b"0", b"1", b"7", b"65535", b"99999999999", b"-1", b"*", b"(", b")", b"[", b"!", b"??", b"{", b"}", b" ", b"'", b"41", b"|",
              b"\xe2\x80\xa8", b"fmt/1", b"BOFoffset", b"EOFoffset", b"Variable", b"&#65;", b"&lt;", b"&#10;"]
    pieces = [*values, b"<", b">", b'"', b"/>", b"&", b"<!DOCTYPE a>", b"&#0;", b"\x00", b"\xff", b"<Sequence>41</Sequence>", b"Offset", b'ID="1"']
    taken = 0
    for case in range(1500):
        data = bytearray(chance.choice(bases))
        for _ in range(chance.randrange(1, 6) if case % 2 else 0):
            inner = chance.choice([it.span(1) for it in re.finditer(rb'[">]([^"<>]+)["<]', data)])
            at = chance.randrange(inner[0], inner[1] + 1)
            data[at:chance.randrange(at, inner[1] + 1)] = chance.choice(values)
        for _ in range(0 if case % 2 else chance.randrange(1, 4)):
            at = chance.randrange(len(data) + 1)
            to = min(len(data), at + chance.choice([0, 0, 1, 1, 2, 8, 40]))
            other = chance.randrange(len(data) + 1)
            data[at:to] = chance.choice([chance.choice(pieces), chance.randbytes(1), b"", bytes(data[other:other + chance.randrange(60)])])
        try:
            files = from_droid.convert(room.put("in.xml", bytes(data)))
        except safe_xml.Refused as line:
            check("\n" not in str(line), f"one line: {line!r}")
            continue
        except Exception as fault:  # whatever it is, a user would see its traceback
            check(False, f"{fault!r} on {bytes(data)!r}")
            continue
        taken += 1
        from_droid.write(room.out, files)
        tables = [open(path, "rb").read() for path in room.tables()]
        check(plain_load.refusal(*tables) is None, f"{plain_load.refusal(*tables)}: {bytes(data)!r}")
        if case % 25 == 0:
            room.load(bytes(data))
    check(taken > 200, f"damaged documents: only {taken} are read")


def main():
    if len(sys.argv) < 2:
        sys.exit(__doc__)
    chance = random.Random(int(sys.argv[2]) if len(sys.argv) > 2 else 68)
    with tempfile.TemporaryDirectory() as folder:
        room = Room(folder, os.path.abspath(sys.argv[1]))
        judge_words(room, list(expression_cases()))
        judge_words(room, PLACES)
        judge_formats(room)
        judge_priorities(room)
        judge_random_priorities(room, chance)
        judge_numbers(room)
        judge_only(room)
        judge_spellings(room)
        judge_walks(room, chance)
        judge_refusals(room)
        judge_limits(room)
        judge_runs(room)
        judge_random_texts(room, chance)
        judge_damage(room, chance)
    print(f"test_from_droid: {checks} checks, {failed} failed")
    return 1 if failed else 0


if __name__ == "__main__":
    sys.exit(main())
