#!/usr/bin/env python3
"""Tests of `report.py`, over a program that prints given lines.

    python3 tools/test_report.py [PROGRAM]

The lines were made by hand. With PROGRAM, which is `pronom_sig`, the page of `examples/settling` is made
again and compared.
"""
import os
import subprocess
import sys
import tempfile
import unittest
import xml.etree.ElementTree as tree

TOP = os.path.dirname(os.path.dirname(os.path.abspath(__file__)))
SHIPPED_BY = os.path.abspath(sys.argv.pop(1)) if len(sys.argv) > 1 else None
REPORT = os.path.join(os.path.dirname(os.path.abspath(__file__)), "report.py")
HEADER = "puid,signature,position,offset,max_offset,expression\n"
THREE = HEADER + "fmt/1,1,BOF,0,,41\nfmt/2,2,BOF,0,5,4142\nx-fmt/3,3,EOF,0,,(43|[!44:45])\n"
ALIVE = "formats 3 alive 3 dead 0 unknown 0 signatures 3 alive 3 dead 0 unknown 0\n"
# It answers as the files beside it say: the status in the first line, output, and behind `!` error output.
PROGRAM = """#!/bin/sh
read status <"{room}/$1"
sed -e 1d -e '/^!/d' "{room}/$1"
sed -n 's/^!//p' "{room}/$1" >&2
exit $status
"""


def counts(pairs, ambiguous, unknown, over=0, under=0, same=0, apart=0, of_open=0):
    return (f"pairs {pairs} decided {pairs - ambiguous - unknown} ambiguous {ambiguous} unknown {unknown} "
            f"over {over} under {under} same {same} apart {apart} open {of_open}\n")


class Reports(unittest.TestCase):
    def setUp(self):
        room = tempfile.TemporaryDirectory()
        self.addCleanup(room.cleanup)
        self.room = room.name
        self.put("program", PROGRAM.format(room=self.room))
        os.chmod(self.path("program"), 0o755)

    def path(self, name):
        return os.path.join(self.room, name)

    def put(self, name, text):
        with open(self.path(name), "w", encoding="utf-8", newline="") as file:
            file.write(text)

    def run_report(self, *more, program="program"):
        words = [self.path("s&<.csv"), self.path("p.csv"), self.path("out.html"), "--program", self.path(program), *more]
        return subprocess.run([sys.executable, REPORT, *words], capture_output=True, text=True)

    def page(self, signatures, priorities, dead, conflicts, *more):
        """The page of a table and of what the program says, as text and as a tree."""
        for name, text in (("s&<.csv", signatures), ("p.csv", "higher,lower\n" + priorities), ("dead", dead), ("conflicts", conflicts)):
            self.put(name, text)
        done = self.run_report(*more)
        self.assertEqual((done.returncode, done.stdout, done.stderr), (0, "", ""))
        with open(self.path("out.html"), encoding="utf-8") as file:
            text = file.read()
        return text, tree.fromstring(text.removeprefix("<!DOCTYPE html>"))

    def ids_are_found(self, page):
        ids = [it.get("id") for it in page.iter() if it.get("id")]
        self.assertEqual(len(ids), len(set(ids)))
        for link in page.iter("a"):
            self.assertIn(link.get("href")[1:], ids)

    def test_forced_pairs_are_lines_to_copy(self):
        text, page = self.page(THREE, "", "0\n" + ALIVE, "1\nambiguous fmt/1 fmt/2 1 2 2 under 4142\nambiguous fmt/1 x-fmt/3 1 3 1 over 41\n"
                               + counts(3, 2, 0, over=1, under=1))
        self.assertEqual(page.find(".//textarea").text, "fmt/2,fmt/1\nfmt/1,x-fmt/3\n")
        self.assertIn("00  41 42                    AB", text)
        self.ids_are_found(page)

    def test_a_circle_is_not_among_them(self):
        conflicts = "1\nambiguous fmt/1 x-fmt/3 1 3 1 under 41\nambiguous fmt/2 x-fmt/3 2 3 2 over 4142\n" + counts(2, 2, 0, over=1, under=1)
        text, page = self.page(THREE, "fmt/1,fmt/2\n", "0\n" + ALIVE, conflicts)
        self.assertIsNone(page.find(".//textarea"))
        self.assertEqual(text.count("</a> above <a"), 2)

    def test_names_and_bytes_are_text(self):
        self.put("names.csv", '\ufeffpuid,name\nfmt/1,"<script>x</script> & \x01\u2028\ud7ff"\nfmt/2,""""\nnone,<b>\n')
        conflicts = "1\nambiguous fmt/1 fmt/2 1 2 10 apart 3c623e26223c2f623e0a\n" + counts(3, 1, 0, apart=1)
        text, page = self.page(THREE, "", "0\n" + ALIVE, conflicts, "--names", self.path("names.csv"))
        self.assertFalse({"script", "b2"} & {it.tag for it in page.iter()})
        self.assertIn("&lt;script&gt;x&lt;/script&gt; &amp; \ufffd", text)
        self.assertIn("&lt;b&gt;&amp;&quot;&lt;/b", text)
        self.assertIn("s&amp;&lt;.csv", text)

    def test_dead_unknown_and_tried(self):
        dead = "1\ndead fmt/1\nunknown fmt/2\nalive x-fmt/3 3 1 43\nformats 3 alive 1 dead 1 unknown 1 signatures 3 alive 1 dead 1 unknown 1\n"
        conflicts = f"1\nambiguous fmt/2 x-fmt/3 2 3 4000 tried open {bytes(range(250)).hex() * 16}\nunknown fmt/1 x-fmt/3 1 3\n" + counts(3, 1, 1, of_open=1)
        text, page = self.page(THREE, "", dead, conflicts)
        self.assertIn("there may be a shorter file", text)
        self.assertIn("Perhaps dead.", text)
        self.assertIn(".. 482 rows", text)
        self.assertIn("signatures 1 and 3</span>", text)
        self.ids_are_found(page)

    def test_a_table_without_pairs(self):
        text, page = self.page(THREE, "fmt/1,fmt/2\n", "0\n" + ALIVE, "0\n" + counts(2, 0, 0))
        self.assertIn("No file whatever is reported as two of these formats.", text)
        self.assertIn("<p>Nothing. ", text)
        self.ids_are_found(page)
        none = "formats 0 alive 0 dead 0 unknown 0 signatures 0 alive 0 dead 0 unknown 0\n"
        self.page(HEADER, "", "0\n" + none, "0\n" + counts(0, 0, 0))

    def test_many_pairs_are_folded(self):
        count = 60
        signatures = HEADER + "".join(f"fmt/{n},{n},BOF,0,,{n:02X}\n" for n in range(1, count + 1))
        lines = "".join(f"ambiguous fmt/{n} fmt/{count} {n} {count} 1 apart {n:02x}\n" for n in range(1, count))
        lives = f"formats {count} alive {count} dead 0 unknown 0 signatures {count} alive {count} dead 0 unknown 0\n"
        text, page = self.page(signatures, "", "0\n" + lives, "1\n" + lines + counts(count * (count - 1) // 2, count - 1, 0, apart=count - 1))
        folds = page.findall(".//details[@class='group']")
        self.assertEqual([len(it.findall("details")) for it in folds], [count - 1])
        self.assertIn(f"M0 {count - 0.5}h{count - 1}", text)
        self.ids_are_found(page)
        again, _ = self.page(signatures, "", "0\n" + lives, "1\n" + lines + counts(count * (count - 1) // 2, count - 1, 0, apart=count - 1))
        self.assertEqual(text, again)

    def test_faults_of_the_program_are_told(self):
        for name, text in (("s&<.csv", THREE), ("p.csv", "higher,lower\n"), ("dead", "2\n!priorities row 1: L13 unknown format\n"), ("conflicts", "0\n")):
            self.put(name, text)
        cases = [("program", (2, "priorities row 1: L13 unknown format\n")), ("none", (3, f"cannot run {self.path('none')}: No such file or directory\n"))]
        for program, wanted in cases:
            done = self.run_report(program=program)
            self.assertEqual((done.returncode, done.stderr), wanted)
        self.put("dead", "0\n" + ALIVE)
        for said in ("ambiguous fmt/1 fmt/2 1 2 2 4142\n", "", counts(3, 0, 0).split(" over ")[0] + "\n"):
            self.put("conflicts", "0\n" + said)
            done = self.run_report()
            self.assertEqual((done.returncode, done.stderr.count("\n")), (3, 1), said)
        self.assertFalse(os.path.exists(self.path("out.html")))


    @unittest.skipUnless(SHIPPED_BY, "needs the program")
    def test_the_page_of_the_example_is_made_again(self):
        words = ["signatures.csv", "none.csv", self.path("out.html"), "--names", "names.csv", "--program", SHIPPED_BY]
        example = os.path.join(TOP, "examples", "settling")
        done = subprocess.run([sys.executable, REPORT, *words], cwd=example, capture_output=True, text=True)
        self.assertEqual((done.returncode, done.stdout, done.stderr), (0, "", ""))
        with open(self.path("out.html"), encoding="utf-8") as made, open(os.path.join(example, "report.html"), encoding="utf-8") as shipped:
            text = made.read()
            self.assertEqual(text, shipped.read())
        self.ids_are_found(tree.fromstring(text.removeprefix("<!DOCTYPE html>")))


if __name__ == "__main__":
    unittest.main()
