#!/usr/bin/env python3
"""Tests `from_shared_mime_info.py` on small databases of our own.

    python3 tools/test_from_shared_mime_info.py PROGRAM

Each rule of conversion has rows, files that hit and files that do not, worked out by hand; each rule that is
not taken has its reason; each refused source its line. All tables are loaded by the program. Random
databases, and damaged ones, give a refusal or tables that load, and by which files hit as `bench/plain_mime.py`
says. It prints what failed, and a count, and ends with status 1 if anything did.
"""
import contextlib
import csv
import io
import os
import random
import shutil
import subprocess
import sys
import tempfile
from xml.sax.saxutils import quoteattr

sys.dont_write_bytecode = True
TOP = os.path.join(os.path.dirname(os.path.abspath(__file__)), "..")
sys.path[:0] = [os.path.join(TOP, "tools"), os.path.join(TOP, "bench")]

import from_shared_mime_info as converter
import plain_mime
from safe_xml import Refused

NAMESPACE = "http://www.freedesktop.org/standards/shared-mime-info"
NAMES = "signatures.csv", "priorities.csv", "names.csv", "not-taken.csv"
TOOL = os.path.join(TOP, "tools", "from_shared_mime_info.py")


# Databases.


def match(value, offset="0", type="string", mask=None, inside=""):
    words = {"type": type, "offset": offset, "value": value, "mask": mask}
    return "<match" + "".join(f" {name}={quoteattr(it)}" for name, it in words.items() if it is not None) + f">{inside}</match>"


def mime(name, matches="", priority=None, above=(), comment="", rest=""):
    """A type with magic, if it has matches, and with its parent types."""
    comment = f"<comment>{comment}</comment>" if comment else ""
    priority = "" if priority is None else f' priority="{priority}"'
    magic = f"<magic{priority}>{matches}</magic>" if matches else ""
    parents = "".join(f'<sub-class-of type="{it}"/>' for it in above)
    return f'<mime-type type="{name}">{comment}{magic}{parents}{rest}</mime-type>'


def database(*types, head=""):
    return f'<?xml version="1.0"?>{head}<mime-info xmlns="{NAMESPACE}">{"".join(types)}</mime-info>'


def nested(count):
    """So many matches inside each other, of the bytes 1, 2, .. of a file."""
    text = ""
    for it in reversed(range(count)):
        text = match(str(it + 1), str(it), "byte", inside=text)
    return text


# Rows of one signature or more, files that hit, and files that do not.
ROWS = [
    ("a string", match("PK"), ["1,BOF,0,,504B"], [b"PK", b"PKx"], [b"", b"P", b"xPK"]),
    ("an offset", match("PK", "3"), ["1,BOF,3,,504B"], [b"123PK"], [b"PK", b"12PK", b"1234PK"]),
    ("a range of offsets", match("PK", "1:3"), ["1,BOF,1,3,504B"], [b"1PK", b"12PK", b"123PK"], [b"PK", b"1234PK", b"12P"]),
    ("a range of one offset", match("PK", "2:2"), ["1,BOF,2,,504B"], [b"12PK"], [b"1PK"]),
    ("escapes of C", match(r"\a\b\t\n\v\f\r"), ["1,BOF,0,,0708090A0B0C0D"], [b"\a\b\t\n\v\f\r"], [b"abtn"]),
    ("escapes of other characters", match('\\"\\\\\\ \\<'), ["1,BOF,0,,225C203C"], [b'"\\ <'], [b'\\"']),
    ("octal escapes", match(r"\0\1011\377"), ["1,BOF,0,,004131FF"], [b"\0A1\xff"], [b"\0A1\xfe"]),
    ("hexadecimal escapes", match(r"\x4\x41F"), ["1,BOF,0,,044146"], [b"\x04AF"], [b"AF"]),
    ("a letter beyond ASCII", match("é"), ["1,BOF,0,,C3A9"], ["é".encode()], [b"\xe9"]),
    ("a line feed as a character", match("PLACE").replace("PLACE", "A&#10;B"), ["1,BOF,0,,410A42"], [b"A\nB"], [b"A B"]),
    ("a byte", match("65", "0", "byte"), ["1,BOF,0,,41"], [b"A"], [b"B"]),
    ("octal numbers", match("0101", "0", "byte"), ["1,BOF,0,,41"], [b"A"], [b"e"]),
    ("big16", match("0x4142", "0", "big16"), ["1,BOF,0,,4142"], [b"AB"], [b"BA"]),
    ("big32", match("0x42", "0", "big32"), ["1,BOF,0,,00000042"], [b"\0\0\0B"], [b"B\0\0\0"]),
    ("little16", match("0x4142", "0", "little16"), ["1,BOF,0,,4241"], [b"BA"], [b"AB"]),
    ("little32", match("0x42", "0", "little32"), ["1,BOF,0,,42000000"], [b"B\0\0\0"], [b"\0\0\0B"]),
    ("host16", match("0x4142", "0", "host16"), ["1,BOF,0,,4241"], [b"BA"], [b"AB"]),
    ("host32", match("0x41424344", "0", "host32"), ["1,BOF,0,,44434241"], [b"DCBA"], [b"ABCD"]),
    ("a mask of a string", match("AxB", mask="0xff00ff"), ["1,BOF,0,,41??42"], [b"AxB", b"A\0B"], [b"AxC", b"Ax"]),
    ("a long mask of a string", match("A....", mask="0xff00000000"), ["1,BOF,0,,41{4}"], [b"A1234"], [b"A123", b"B1234"]),
    ("a mask of upper bits is a range", match("0xa0", "0", "byte", "0xe0"), ["1,BOF,0,,[A0:BF]"], [b"\xa0", b"\xbf"], [b"\xc0", b"\x9f"]),
    ("a mask of lower bits is a list", match("0x0203", "0", "big16", "0x7fff"), ["1,BOF,0,,(02|82)03"], [b"\x02\x03", b"\x82\x03"], [b"\x03\x03"]),
    ("a mask of middle bits is a list of ranges", match("0", "0", "byte", "0x44"),
     ["1,BOF,0,,([00:03]|[08:0B]|[10:13]|[18:1B]|[20:23]|[28:2B]|[30:33]|[38:3B]|[80:83]|[88:8B]|[90:93]|[98:9B]|[A0:A3]|[A8:AB]|[B0:B3]|[B8:BB])"],
     [b"\x00", b"\x0b", b"\xbb"], [b"\x04", b"\x40", b"\xc0"]),
    ("a mask in the order of the file", match("0x41", "0", "little16", "0xff"), ["1,BOF,0,,41??"], [b"A\0", b"Ax"], [b"A", b"\0A"]),
    ("bits of the value outside the mask", match("0x4f", "0", "byte", "0xf0"), ["1,BOF,0,,[40:4F]"], [b"@", b"O"], [b"P"]),
    ("a mask of nothing", match("0", "1", "byte", "0"), ["1,BOF,1,,??"], [b"ab"], [b"a"]),
    ("two matches", match("A") + match("B"), ["1,BOF,0,,41", "2,BOF,0,,42"], [b"A", b"B"], [b"C"]),
    ("a match inside", match("A", inside=match("B", "1")), ["1,BOF,0,,41", "1,BOF,1,,42"], [b"AB"], [b"A", b"B", b"xB", b"AC"]),
    ("two matches inside", match("A", inside=match("B", "1") + match("C", "1:2")),
     ["1,BOF,0,,41", "1,BOF,1,,42", "2,BOF,0,,41", "2,BOF,1,2,43"], [b"AB", b"AC", b"AxC"], [b"A", b"BC", b"AxB"]),
    ("matches inside are free of each other's place", match("B", "0:2", inside=match("A", "0:2")),
     ["1,BOF,0,2,42", "1,BOF,0,2,41"], [b"AB", b"BA", b"xAB"], [b"A", b"AxxB"]),
    ("eight inside each other", nested(8), [f"1,BOF,{it},,0{it + 1}" for it in range(8)], [bytes(range(1, 9))], [bytes(range(1, 8))]),
    ("the greatest offset", match("A", "65533"), ["1,BOF,65533,,41"], [bytes(65533) + b"A"], [bytes(65532) + b"A", b"A"]),
]

# Matches that are not taken, and why.
NOT_TAKEN = [
    (match("A", "65534"), "offset and value go past byte 65534"),
    (match("AB", "65533"), "offset and value go past byte 65534"),
    (match("A", "65536"), "an offset over 65534: 65536"),
    (match("A", "0:99999"), "an offset over 65534: 99999"),
    (match("0", "65530", "big32", "0x01010101"), "over 65535 slots, by its offset and masks"),
    (match("0", "65500", "byte", "0x01"), "over 65535 slots, by its offset and masks"),
    (match("A", "3:2"), "a range that ends before it begins: 3:2"),
    (match("A", "-1"), "no offset: -1"),
    (match("A", "1:"), "no offset: 1:"),
    (match("A", "٣"), "no offset: ٣"),
    (match("A", "9" * 5000), "no offset: " + "9" * 117 + "..."),
    (match("A", None), "a match without an offset"),
    (match(None), "a match without a value"),
    (match("A", type=None), "a match without a type"),
    (match("A", type="regex"), "a match of the type regex"),
    (match(""), "an empty value"),
    (match("A\\"), "an escape of no byte: \\"),
    (match("\\q"), "an escape of no byte: \\q"),
    (match("\\x"), "an escape of no byte: \\x"),
    (match("\\400"), "an escape of no byte: \\400"),
    (match("\\é"), "an escape of no byte: \\\N{REPLACEMENT CHARACTER}"),
    (match("x", "0", "byte"), "no number: x"),
    (match("", "0", "byte"), "no number: "),
    (match("-1", "0", "byte"), "no number: -1"),
    (match("08", "0", "byte"), "no number: 08"),
    (match("9" * 5000, "0", "byte"), "no number: " + "9" * 117 + "..."),
    (match("256", "0", "byte"), "a number of more than 1 bytes: 256"),
    (match("0x10000", "0", "little16"), "a number of more than 2 bytes: 0x10000"),
    (match("0x100000000", "0", "host32"), "a number of more than 4 bytes: 0x100000000"),
    (match("1", "0", "byte", "0x100"), "a number of more than 1 bytes: 0x100"),
    (match("1", "0", "byte", ""), "no number: "),
    (match("AB", mask="0xffffff"), "a mask of 3 bytes, of a value of 2"),
    (match("AB", mask="0xff"), "a mask of 1 bytes, of a value of 2"),
    (match("AB", mask="0xfff"), "a mask of no bytes: 0xfff"),
    (match("AB", mask="ffff"), "a mask of no bytes: ffff"),
    (match("AB", mask=""), "a mask of no bytes: "),
    (match("A" * 4097), "an expression of over 8192 bytes: 8194"),
    (match("\\0" * 30, mask="0x" + "01" * 30), "an expression of over 8192 bytes: 11550"),
    (nested(9), "over 8 nested matches"),
    (match("", inside=match("A")), "an empty value"),
]

# Sources that are refused, and a part of the line.
DOCTYPE = "<!DOCTYPE mime-info [<!ELEMENT mime-info ANY><!ATTLIST magic priority CDATA \"60\">]>"
BOMB = "<!DOCTYPE mime-info [<!ENTITY a \"aaaaaaaaaa\"><!ENTITY b \"&a;&a;&a;&a;&a;&a;&a;&a;&a;&a;\">]>"
REFUSED = [
    ("", "no XML"),
    ("\0\1\2", "no XML"),
    (database(mime("a/b", match("A")))[:-20], "no XML"),
    (database(mime("a/b", match("A"), comment="&b;"), head=BOMB), "an entity declaration"),
    (database(head='<!DOCTYPE mime-info SYSTEM "file:///etc/passwd">'), "a document type"),
    (database(mime("a/b", nested(100))), "over 64 deep"),
    (database(mime("a/b", match("A" * (1 << 21)))), "over 1048576"),
    (database(mime("a/b", comment="A" * (1 << 21))), "over 1048576"),
    ("<mime-info/>", "the root is no mime-info"),
    (f'<mime-type xmlns="{NAMESPACE}"/>', "the root is no mime-info"),
    (database(mime("a/b", match("A"), above=[f"a/{it}" for it in range(10_001)])), "over 10000 sub-classes"),
]


# The tests.


class Test:
    def __init__(self, program, folder):
        self.program, self.folder = program, folder
        self.done, self.failed = 0, 0

    def expect(self, what, got, expected):
        self.done += 1
        if got != expected:
            self.failed += 1
            print(f"test_from_shared_mime_info: {what}: got {shorter(got)}, and not {shorter(expected)}", flush=True)

    def path(self, name):
        return os.path.join(self.folder, name)

    def convert(self, text, only=None):
        """The records of the four files, each without its header; None where the source is refused."""
        with open(self.path("source.xml"), "wb") as file:
            file.write(text if isinstance(text, bytes) else text.encode())
        shutil.rmtree(self.path("out"), ignore_errors=True)
        with contextlib.redirect_stdout(io.StringIO()):
            try:
                converter.convert(self.path("source.xml"), self.path("out"), only)
            except Refused:
                return None
        found = []
        for name in NAMES:
            with open(os.path.join(self.path("out"), name), newline="", encoding="utf-8") as file:
                found.append([tuple(it) for it in csv.reader(file)][1:])
        return found

    def run(self, *words):
        done = subprocess.run([self.program, *words], stdout=subprocess.PIPE, stderr=subprocess.STDOUT)
        return done.returncode, done.stdout.decode("utf-8", "replace")

    def tables(self):
        return self.path("out/signatures.csv"), self.path("out/priorities.csv")

    def loads(self, what):
        status, text = self.run("show", *self.tables())
        self.expect(f"{what}: loads", "" if status == 0 else text, "")

    def hits(self, files, *words):
        """The PUIDs of each file."""
        paths = [self.path(f"{place}.bin") for place in range(len(files))]
        for path, data in zip(paths, files):
            with open(path, "wb") as file:
                file.write(data)
        status, text = self.run("match", "--with-names", *words, *self.tables(), *paths)
        if status:
            return text
        found = {path: [] for path in paths}
        for line in text.splitlines():
            path, _, format = line.rpartition("\t")
            found[path] += [] if format == "-" else [format]
        return list(found.values())

    # Rules.

    def rows(self):
        for what, text, rows, hit, missed in ROWS:
            signatures, _, _, left = self.convert(database(mime("a/b", text)))
            self.expect(what, [",".join(it[1:]) for it in signatures], rows)
            self.expect(f"{what}: not taken", left, [])
            expected = [True] * len(hit) + [False] * len(missed)
            self.expect(f"{what}: files", [bool(it) for it in self.hits(hit + missed)], expected)
            judge = plain_mime.Database(self.path("source.xml"))
            self.expect(f"{what}: files, plain", [bool(judge.hits(it)) for it in hit + missed], expected)

    def not_taken(self):
        for place, (text, why) in enumerate(NOT_TAKEN):
            what = f"not taken {place}: {text[:60]}"
            signatures, _, names, left = self.convert(database(mime("a/b", match("A") + text + match("B"))))
            self.expect(what, left, [("fmt/1", "2", why)])
            self.expect(f"{what}: others", signatures, [("fmt/1", "1", "BOF", "0", "", "41"), ("fmt/1", "3", "BOF", "0", "", "42")])
            self.expect(f"{what}: names", names, [("fmt/1", "a/b")])
        self.loads("rules that are not taken")
        _, _, names, left = self.convert(database(mime("a/b", match("")), mime("a/c", match("C"))))
        self.expect("a type of which no match is taken", (names, left), ([("fmt/2", "a/c")], [("fmt/1", "1", "an empty value")]))
        for priority in ("", "x", "-1", "101", "1" * 5000, "٣"):
            _, _, names, left = self.convert(database(mime("a/b", match("A"), priority)))
            self.expect(f"the priority {priority[:9]}", (names, left), ([], [("fmt/1", "1", "a magic priority that is no number from 0 to 100")]))
        self.loads("a table of no format")

    def names(self):
        types = [mime("a/b", match("A"), comment=" One,\n\"two\"\x85 "), mime("a/c", rest="<magic/>"), mime("a/d", rest="<root-XML/><treemagic/>"),
                 "<mime-type/>", mime("a/e", match("B"), rest="<comment xml:lang='de'>Zwei</comment><other:magic xmlns:other='o'/>")]
        _, _, names, left = self.convert(database(*types, head=DOCTYPE))
        self.expect("names", names, [("fmt/1", 'a/b (One, "two")'), ("fmt/2", "a/e")])
        self.expect("types that are not taken", [why for _, _, why in left],
                    ["a/c: no magic", "a/d: no magic", "a/d: a rule of root-XML", "a/d: a rule of treemagic",
                     "a mime-type without a type"])

    # Priorities.

    def pairs(self, what, types, pairs, lost=()):
        _, found, _, left = self.convert(database(*types))
        self.expect(what, [tuple(it[4:] for it in pair) for pair in found], [tuple(it) for it in pairs])
        self.expect(f"{what}: not taken", [(puid[4:], why) for puid, _, why in left if "no magic" not in why], list(lost))
        self.loads(what)

    def priorities(self):
        over = "no priority over its parent class "
        a = match("A")
        cycle = "each is a sub-class of the other and the pair would close a cycle"
        self.pairs("by magic priority", [mime("a/a", a, 10), mime("a/b", a, 60), mime("a/c", a)], ["21", "23", "31"])
        self.pairs("the default is 50", [mime("a/a", a, 50), mime("a/b", a)], [])
        self.pairs("by sub-class", [mime("a/a", a), mime("a/b", a, above=["a/a"])], ["21"])
        self.pairs("by sub-class, in two steps", [mime("a/a", a), mime("a/b", "", above=["a/a"]), mime("a/c", a, above=["a/b"])],
                   ["21"], [("2", f"{over}a/b: no format of that is taken")])
        self.pairs("the number before the class", [mime("a/a", a, 60), mime("a/b", a, above=["a/a"])], ["12"],
                   [("2", f"{over}fmt/1: that has the greater magic priority and the pair would close a cycle")])
        self.pairs("both agree", [mime("a/a", a, 40), mime("a/b", a, above=["a/a"])], ["21"])
        self.pairs("each of the other", [mime("a/a", a, above=["a/b"]), mime("a/b", a, above=["a/a"])], [],
                   [("1", "a priority over itself: the type is a sub-class of itself"), ("1", f"{over}fmt/2: {cycle}"),
                    ("2", "a priority over itself: the type is a sub-class of itself"), ("2", f"{over}fmt/1: {cycle}")])
        self.pairs("of itself", [mime("a/a", a, above=["a/a"])], [], [("1", "a priority over itself: the type is a sub-class of itself")])
        self.pairs("a parent that is nowhere", [mime("a/a", a, above=["x/y"])], [], [("1", f"{over}x/y: no format of that is taken")])
        self.pairs("a type that is named twice", [mime("a/a", a), mime("a/b", a, above=["a/a"]), mime("a/a", match("B")), mime("a/b", a, above=["a/a"])], ["21"])
        self.pairs("a type of two priorities", [mime("a/a", a, 60, rest=f"<magic priority='40'>{match('B')}</magic>")], ["12"])
        self.pairs("a parent of two priorities", [mime("a/a", a, 60, rest=f"<magic>{match('B')}</magic>"), mime("a/b", a, above=["a/a"])], ["12", "13", "32"],
                   [("3", f"{over}fmt/1: that has the greater magic priority and the pair would close a cycle")])
        self.pairs("a cycle of three, and one below it", [mime("a/a", a, above=["a/b"]), mime("a/b", a, above=["a/c"]), mime("a/c", a, above=["a/a"]), mime("a/d", a, above=["a/a"])],
                   ["41", "42", "43"],
                   [it for one, two, three in ("123", "213", "312") for it in
                    [(one, "a priority over itself: the type is a sub-class of itself"), (one, f"{over}fmt/{two}: {cycle}"), (one, f"{over}fmt/{three}: {cycle}")]])
        self.convert(database(mime("a/a", match("A")), mime("a/b", match("AB"), 60), mime("a/c", match("A"), above=["a/a"])))
        self.expect("what is left", self.hits([b"AB", b"A", b"x"]), [["fmt/2 2"], ["fmt/3 3"], []])

    # Limits.

    def limits(self):
        rows, pairs, names, left = self.convert(database(*(mime(f"a/{it}", match(str(it)), it % 101) for it in range(1_003))))
        self.expect("1,003 types", (len(rows), len(names), names[-1]), (1_000, 1_000, ("fmt/1000", "a/999")))
        self.expect("1,003 types: not taken", left, [(f"fmt/{it}", str(it), "a table has at most 1000 formats: see --only") for it in (1001, 1002, 1003)])
        self.expect("1,003 types: priorities", len(pairs), 495_045)
        self.loads("1,003 types")
        with open(self.path("only"), "w") as file:
            file.write("a/1002\n\n a/7 \na/nothing\n")
        many = database(*(mime(f"a/{it}", match(str(it)), it % 101) for it in range(1_003)), mime("a/nothing"), mime("a/nothing-else"))
        self.expect("two of them", self.convert(many, self.path("only")),
                    [[("fmt/8", "8", "BOF", "0", "", "37"), ("fmt/1003", "1003", "BOF", "0", "", "31303032")], [("fmt/1003", "fmt/8")],
                     [("fmt/8", "a/7"), ("fmt/1003", "a/1002")], [("", "", "a/nothing: no magic")]])
        rows, _, names, left = self.convert(database(mime("a/a", match("A") * 3_999), mime("a/b", match("B") * 2), mime("a/c", match("C"))))
        why = "a table has at most 4000 signatures: see --only"
        self.expect("4,002 signatures", (len(rows), names, left), (4_000, [("fmt/1", "a/a"), ("fmt/2", "a/b")], [("fmt/2", "4001", why), ("fmt/3", "4002", why)]))
        self.loads("4,002 signatures")

    # Refusals of a source, by the command itself.

    def command(self, *words):
        done = subprocess.run([sys.executable, TOOL, *words], stdout=subprocess.PIPE, stderr=subprocess.PIPE)
        return done.returncode, done.stdout.decode(), done.stderr.decode()

    def refusals(self):
        source, out = self.path("source.xml"), self.path("none")
        with open(self.path("only"), "w") as file:
            file.write("a/c\n")
        for text, part in [*REFUSED, (database(mime("a/b")), "a type that the source lacks: a/c")]:
            with open(source, "w", encoding="utf-8") as file:
                file.write(text)
            status, said, told = self.command(*(["--only", self.path("only")] if "lacks" in part else []), source, out)
            self.expect(f"refused: {part}", (status, said, told.count("\n"), part in told, os.path.exists(out)), (2, "", 1, True, False))
        for words in [(self.path("nowhere"), out), (self.folder, out), ("--only", self.path("nowhere"), source, out), (source, source)]:
            status, said, told = self.command(*words)
            self.expect(f"refused: {words}", (status, said, told.count("\n"), "Traceback" in told), (2, "", 1, False))
        with open(source, "w", encoding="utf-8") as file:
            file.write(database(mime("a/b", match("A"))))
        self.expect("the command", self.command(source, self.path("fine")),
                    (0, "1 formats, 1 signatures, 1 rows, 0 priorities\nnot taken: 0 signatures, 0 priorities, 0 types and rules of other kinds\n", ""))

    # Random and damaged databases.

    def random_match(self, chance, depth):
        kind = chance.choice(("string", "string", "byte", "big16", "little16", "host16", "big32", "little32", "regex"))
        if kind == "string":
            value = "".join(chance.choice(("A", "B", "\\0", "\\x41", "\\102", "\\n", "\\q" if chance.random() < .1 else "A")) for _ in range(chance.randrange(4)))
            mask = chance.choice((None, None, "0x" + "".join(chance.choice(("ff", "00", "f0", "7f", "df")) for _ in range(chance.randrange(1, 4)))))
        else:
            value = chance.choice(("0", "0x41", "0101", "0x4142", "66", "0x42410041", "x"))
            mask = chance.choice((None, None, "0", "0xff", "0xff00", "0x7f", "0xc1"))
        offset = chance.choice(("0", "1", "2", "0:2", "1:4", "0:6", "3:1" if chance.random() < .1 else "0"))
        inside = "".join(self.random_match(chance, depth + 1) for _ in range(chance.choice((0, 0, 1, 2)))) if depth < 10 else ""
        return match(value, offset, kind, mask, inside)

    def random_database(self, chance):
        names = [f"a/{it}" for it in range(5)]
        return database(*(mime(chance.choice(names), "".join(self.random_match(chance, 0) for _ in range(chance.randrange(4))),
                               chance.choice((None, "10", "50", "60", "x")), [it for it in names if chance.random() < .2])
                          for _ in range(6)))

    def random_files(self, chance):
        return [bytes(chance.choice((0x41, 0x42, 0, 10, 0x61, chance.randrange(256))) for _ in range(chance.randrange(9))) for _ in range(60)]

    def agrees(self, what, files):
        """Whether the program hits as the rules of the source say, and leaves what the priorities leave."""
        left_out = {int(it[1]) for it in self.records("not-taken.csv") if it[1]}
        judge = plain_mime.Database(self.path("source.xml"), left_out)
        puids = {format: f"fmt/{place}" for place, format in enumerate(judge.formats, 1)}
        pairs, hits, left = set(self.records("priorities.csv")), [], []
        for data in files:
            found = {puids[format]: number for format, number in judge.hits(data).items()}
            hits.append(sorted(f"{puid} {number}" for puid, number in found.items()))
            left.append(sorted(f"{puid} {number}" for puid, number in found.items() if not any((it, puid) in pairs for it in found)))
        for words, expected in ((["--all"], hits), ([], left)):
            got = self.hits(files, *words)
            self.expect(what, [sorted(it) for it in got] if isinstance(got, list) else got, expected)
        return sum(map(len, hits))

    def records(self, name):
        with open(os.path.join(self.path("out"), name), newline="", encoding="utf-8") as file:
            return [tuple(it) for it in csv.reader(file)][1:]

    def random_ones(self, count):
        chance, hits = random.Random(1), 0
        for place in range(count):
            self.convert(self.random_database(chance))
            hits += self.agrees(f"random database {place}", self.random_files(chance))
        self.expect("random databases hit", hits > 10 * count, True)

    def damaged(self, count):
        chance, taken = random.Random(2), 0
        pieces = [b"0", b"9999999999", b":", b"-", b"\\", b"0x", b"string", b"<", b">", b"\"", b"&", b"\0", b"\xff", b"&#x10FFFF;", b"&x;", b"<!--", b"<match/>"]
        for place in range(count):
            text = bytearray(self.random_database(chance).encode())
            for _ in range(chance.choice((1, 1, 2, 5))):
                kind, at = chance.randrange(6), chance.randrange(len(text))
                if kind == 0:
                    del text[at:at + chance.randrange(1, 30)]
                elif kind == 1:
                    text[at:at] = chance.choice(pieces)
                elif kind == 2:
                    text[at:at] = bytes(text[at:at + chance.randrange(80)])
                else:
                    at = chance.choice([it for it in range(len(text)) if text[it] == 0x22]) + 1
                    text[at:at] = chance.choice(pieces[:7])
            if self.convert(bytes(text)) is not None:
                taken += 1
                self.agrees(f"damaged database {place}", self.random_files(chance)[:20])
        self.expect(f"{taken} of {count} damaged databases are taken", count // 10 < taken < count, True)


def shorter(it):
    text = repr(it)
    return text if len(text) < 400 else text[:400] + ".."


def main():
    if len(sys.argv) != 2:
        sys.exit(__doc__)
    folder = tempfile.mkdtemp()
    test = Test(os.path.abspath(sys.argv[1]), folder)
    try:
        for it in (test.rows, test.not_taken, test.names, test.priorities, test.limits, test.refusals):
            it()
        test.random_ones(40)
        test.damaged(100)
    finally:
        shutil.rmtree(folder)
    print(f"test_from_shared_mime_info: {test.done} compared, {test.failed} differ")
    return 1 if test.failed else 0


if __name__ == "__main__":
    sys.exit(main())
