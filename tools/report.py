#!/usr/bin/env python3
"""A page on the formats of a table that one file can get together, and on what to mend first.

    python3 tools/report.py SIGS PRIOS OUT.html [--names FILE] [--program PATH] [--budget N]

It runs `pronom_sig dead --hex` and `pronom_sig conflicts --class --hex` on the table, and writes what they say as
one HTML file: no script, no other file, the same bytes each time. FILE is a CSV file whose first two columns are
a PUID and a name; rows that begin with no PUID are skipped. PATH is the program, if it is not on the PATH as
`pronom_sig`. N is the budget of each search, 100000 if it is left out. On a terminal the program's progress is seen.

It ends with status 0 when the page is written, whatever it says. If the program refuses the table or fails, its
message is printed, there is no page, and the status is the program's.
"""
import argparse
import collections
import csv
import io
import os
import re
import subprocess
import sys
import typing
from html import escape

PUID = r"(?:x-)?fmt/[1-9]\d{0,8}"
CLASSES = ("over", "under", "same", "apart", "open")
PAIR = re.compile(rf"(ambiguous) ({PUID}) ({PUID}) (\d+) (\d+) (\d+)( tried)? ({'|'.join(CLASSES)})(?: ((?:[0-9a-f][0-9a-f])+))?"
                  rf"|(unknown) ({PUID}) ({PUID}) (\d+) (\d+)")
LAST_PAIR = re.compile(r"pairs (\d+) decided (\d+) ambiguous (\d+) unknown (\d+)" + "".join(rf" {it} (\d+)" for it in CLASSES))
LIFE = re.compile(rf"(dead|unknown) ({PUID})(?: (\d+))?|alive {PUID} \d+ \d+(?: [0-9a-f]+)?")
LAST_LIFE = re.compile(r"formats (\d+) alive (\d+) dead (\d+) unknown (\d+) signatures (\d+) alive (\d+) dead (\d+) unknown (\d+)")

# The kinds of pairs, in the order of the page: a title, and what to do.
KINDS = {
    "forced": ("Forced pairs", "Each file that is reported as the first format matches the second too, and not the other way round. So the first "
               "must be higher: with the second one higher, no file would be reported as the first."),
    "same": ("Pairs that nothing tells apart", "Each file that is reported as one of the two matches the other. Whichever is put below, no file "
             "would be reported as it. Give one of them more bytes, or make one format of the two."),
    "apart": ("Pairs with a choice", "Some files match only the one, some only the other, and the file shown matches both. Put either above the other, "
              "or give one of them more bytes. One rule often does for all pairs of a format: if its bytes may stand late in a file, put it below "
              "or above all others."),
    "open": ("Pairs not understood", "The file shown is reported as both. Whether one of them must be higher was not found within the budget: "
             "try ten times as much."),
    "unknown": ("Pairs not searched to the end", "No file was found, and none is excluded. Try ten times the budget; or give the two signatures a place at "
                "the beginning or the end of the file, or fewer gaps; or put one format above the other."),
}
LEGEND = {"over": "the format of the row must be higher", "under": "the format of the column must be higher", "same": "nothing tells them apart",
          "apart": "a choice", "open": "not understood", "unknown": "not searched to the end", "listed": "a priority is listed"}

WORDS = {"forced": ("over", "under")}  # of the program
TILES = {"forced": "forced", "same": "told apart by nothing", "apart": "with a choice", "open": "not understood", "unknown": "not searched to the end"}

OPEN_PAIRS = 30  # up to so many pairs of a page show their bytes unasked
TOP_FORMATS = 20  # so many formats by lines are shown unasked
ROW, FIRST_ROWS, LAST_ROWS = 8, 12, 6  # bytes in a row of a dump, and the rows of a long one
LONG = 400  # so many characters of an expression are shown
LABELED = 24  # up to so many formats each row of the picture has its PUID
LOUDEST = 8  # else at most so many have, those in a tenth of all pairs that they could be in


class Failed(Exception):
    """A message, if the program did not give one, and the status to end with."""


class Pair(typing.NamedTuple):
    kind: str
    first: str  # of a forced pair the one that must be higher
    second: str
    signatures: tuple[str, str]
    length: int | None
    is_tried: bool
    file: bytes


# ---- what the program says


def ask(program, words):
    """The lines that it prints. What it tells on standard error is seen as it comes."""
    try:
        done = subprocess.run([program, *words], stdin=subprocess.DEVNULL, stdout=subprocess.PIPE)
    except OSError as fault:
        raise Failed(f"cannot run {program}: {fault.strerror}", 3)
    if done.returncode < 0:
        raise Failed(f"{program} {words[0]} was ended by signal {-done.returncode}", 3)
    if done.returncode > 1:
        raise Failed(None, done.returncode)
    lines = done.stdout.decode("ascii", "replace").splitlines()
    if not lines:
        raise Failed(f"{program} {words[0]} printed nothing", 3)
    return lines


def read_line(pattern, text):
    found = pattern.fullmatch(text)
    if not found:
        raise Failed(f"a line that this page does not know: {text[:200]}", 3)
    return found


def pair_of(text):
    found = read_line(PAIR, text)
    if found[10]:
        return Pair("unknown", found[11], found[12], (found[13], found[14]), None, False, b"")
    a, b, s, t = found.groups()[1:5]
    if found[8] == "under":
        a, b, s, t = b, a, t, s
    return Pair("forced" if found[8] in ("over", "under") else found[8], a, b, (s, t), int(found[6]), bool(found[7]), bytes.fromhex(found[9] or ""))


def rows_of(path):
    """The records of a table's file behind its header."""
    try:
        with open(path, "rb") as file:
            text = file.read().removeprefix(b"\xef\xbb\xbf").decode("utf-8", "replace")
    except OSError:
        raise Failed(f"cannot open {path}", 3)
    csv.field_size_limit(1 << 30)
    return [row for row in csv.reader(io.StringIO(text.replace("\0", "\ufffd"), newline="")) if row]


class Table:
    """The formats and signatures of a table, its listed pairs, and what the program says of them."""

    def __init__(self, program, budget, signatures, priorities, names):
        self.names = {row[0]: row[1] for row in (rows_of(names) if names else []) if len(row) > 1 and re.fullmatch(PUID, row[0])}
        words = ["--hex", "--budget", str(budget), *["--progress"] * sys.stderr.isatty(), signatures, priorities]
        *lives, last_life = ask(program, ["dead", *words])
        *pairs, last_pair = ask(program, ["conflicts", "--class", *words])
        self.lives = [found for found in (read_line(LIFE, it) for it in lives) if found[1]]
        self.life_counts = [int(it) for it in read_line(LAST_LIFE, last_life).groups()]
        self.pairs = [pair_of(it) for it in pairs]
        self.pair_counts = [int(it) for it in read_line(LAST_PAIR, last_pair).groups()]
        self.rows = rows_of(signatures)[1:]
        self.places = {puid: place for place, puid in enumerate(dict.fromkeys(row[0] for row in self.rows))}
        self.listed = [tuple(row) for row in rows_of(priorities)[1:]]
        self.counts = collections.Counter(puid for pair in self.pairs for puid in (pair.first, pair.second))
        self.by_kind = {kind: [pair for pair in self.pairs if pair.kind == kind] for kind in KINDS}

    def louder(self, puids):
        """The formats, those of most lines first, and else in table order."""
        return sorted(puids, key=lambda it: (-self.counts[it], self.places.get(it, 0)))

    def forced(self):
        """The forced pairs that can be listed, and those that would close a cycle, also with those that are listed."""
        pairs = [(pair.first, pair.second) for pair in self.by_kind["forced"]]
        group = components(self.places, self.listed + pairs)
        return [it for it in pairs if group[it[0]] != group[it[1]]], [it for it in pairs if group[it[0]] == group[it[1]]]


def components(nodes, edges):
    """For each node a mark that it shares with those on a common cycle."""
    behind = collections.defaultdict(list)
    for a, b in edges:
        behind[a].append(b)
    marks, low, stack, on_stack, count = {}, {}, [], set(), 0
    found = {}
    for root in nodes:
        if root in marks:
            continue
        work = [(root, iter(behind[root]))]
        marks[root] = low[root] = count
        count += 1
        stack.append(root)
        on_stack.add(root)
        while work:
            node, later = work[-1]
            for other in later:
                if other not in marks:
                    marks[other] = low[other] = count
                    count += 1
                    stack.append(other)
                    on_stack.add(other)
                    work.append((other, iter(behind[other])))
                    break
                if other in on_stack:
                    low[node] = min(low[node], marks[other])
            else:
                work.pop()
                if work:
                    low[work[-1][0]] = min(low[work[-1][0]], low[node])
                if low[node] == marks[node]:
                    while True:
                        other = stack.pop()
                        on_stack.discard(other)
                        found[other] = node
                        if other == node:
                            break
    return found


# ---- pieces of the page


def text(value):
    """Escaped, and without the characters that XML does not have."""
    value = str(value).encode("utf-8", "replace").decode("utf-8")
    return escape(re.sub("[^\t\n\x20-\x7e\xa0-\ud7ff\ue000-\ufffd\U00010000-\U0010ffff]", "\ufffd", value))


def many(count, one, more=None):
    return f"{count:,} {one if count == 1 else more or one + 's'}"


def id_of(puid):
    return "f-" + puid.replace("/", "-")


def dump(file):
    """Offset, bytes and text of a file, a row for each few bytes. A row like the one before is left out, shown by a star."""
    width = max(2, len(f"{max(len(file) - 1, 0):x}"))
    lines, before = [], None
    for at in range(0, len(file), ROW):
        row = file[at:at + ROW]
        if row != before:
            shown = "".join(chr(it) if 32 <= it < 127 else "\u00b7" for it in row)
            lines.append(f"{at:0{width}x}  {row.hex(' '):{3 * ROW - 1}}  {shown}")
        elif lines[-1] != "*":
            lines.append("*")
        before = row
    if len(lines) > FIRST_ROWS + LAST_ROWS + 2:
        lines[FIRST_ROWS:-LAST_ROWS] = [f".. {len(lines) - FIRST_ROWS - LAST_ROWS:,} rows"]
    return "<pre>" + text("\n".join(lines) or "the empty file") + "</pre>"


class Page:
    def __init__(self, table, files):
        self.table, self.files, self.parts = table, files, []
        self.spoken = {found[2] for found in table.lives} | set(table.counts)  # the formats that the page speaks of

    def add(self, *parts):
        self.parts += parts

    def name(self, puid):
        """The PUID, as a link to its row, and its name."""
        name = self.table.names.get(puid)
        return f'<a href="#{self.target(puid)}">{puid}</a>' + (f" {text(name)}" if name else "")

    def target(self, puid):
        return ("" if puid in self.table.counts else "s-") + id_of(puid)

    def write(self):
        title = f"Formats that share a file: {self.files[0]}, {self.files[1]}"
        self.add("<!DOCTYPE html>\n", '<html lang="en">\n<head>\n<meta charset="utf-8"/>\n',
                 '<meta name="viewport" content="width=device-width, initial-scale=1"/>\n',
                 f"<title>{text(title)}</title>\n<style>{STYLE}</style>\n</head>\n<body>\n<main>\n")
        self.head()
        self.mend()
        self.picture()
        self.formats()
        for kind in KINDS:
            self.kind(kind)
        self.signatures()
        self.add("</main>\n</body>\n</html>\n")
        return "".join(self.parts)

    # what is found in short

    def head(self):
        table = self.table
        pairs, decided, ambiguous, unknown = table.pair_counts[:4]
        formats, _, dead, unsure, signatures = table.life_counts[:5]
        dead_signatures = sum(found[1] == "dead" and found[3] is not None for found in table.lives)
        self.add(f"<h1>Formats that share a file</h1>\n<p>The table of <code>{text(self.files[0])}</code> and <code>{text(self.files[1])}</code>: "
                 f"{many(formats, 'format')}, {many(signatures, 'signature')}, {many(len(table.listed), 'listed priority', 'listed priorities')}.</p>\n")
        if ambiguous + unknown == 0:
            verdict = "No file whatever is reported as two of these formats."
        elif ambiguous == 0:
            verdict = "No file was found that is reported as two of these formats, and the search did not end."
        else:
            verdict = f"{many(ambiguous, 'pair')} of formats can be reported for one file."
        if dead:
            verdict += f" {many(dead, 'format')} can be reported for no file."
        self.add(f'<p class="verdict">{verdict}</p>\n<ul class="tiles">\n')
        tiles = [("ambiguous", ambiguous, "ambiguous pair"),
                 *((kind, len(table.by_kind[kind]), TILES[kind]) for kind in KINDS),
                 ("decided", decided, f"of {many(pairs, 'pair')} decided"),
                 ("dead", dead, "dead format"), ("dead", dead_signatures, "dead signature"), ("unknown", unsure, "format perhaps dead")]
        for kind, count, label in tiles:
            if count or label in ("ambiguous pair", "dead format"):
                label = {"format perhaps dead": "formats perhaps dead"}.get(label, label + "s" * label.endswith((" pair", "dead format", "signature"))) if count != 1 else label
                self.add(f'<li class="{kind}{"" if count else " none"}"><b>{count:,}</b> {label}</li>\n')
        self.add("</ul>\n<p>", " &#183; ".join(f'<a href="#{it}">{label}</a>' for it, label in self.sections()), "</p>\n")

    def sections(self):
        yield "mend", "What to mend first"
        yield "picture", "Picture"
        if self.table.pairs:
            yield "formats", "Formats"
        for kind, (title, _) in KINDS.items():
            if self.table.by_kind[kind]:
                yield kind, title
        if self.spoken:
            yield "signatures", "Signatures"

    # what to mend first

    def mend(self):
        table, steps = self.table, []
        dead = [found for found in table.lives if found[1] == "dead"]
        formats = [found[2] for found in dead if not found[3]]
        if formats:
            steps.append("<p><b>Dead formats.</b> No file whatever is reported as one of these. Each file that it matches is taken by a format above it, or two "
                         "rows of a signature exclude each other. Turn a priority round, take it out, or change the rows.</p>\n"
                         + self.folded("format", [self.name(it) for it in formats], LABELED))
        parts = [f"signature <code>{found[3]}</code> of {self.name(found[2])}" for found in dead if found[3]]
        if parts:
            steps.append("<p><b>Dead signatures.</b> The format is reported for some files, but for none that this signature matches.</p>\n"
                         + self.folded("signature", parts, LABELED))
        unsure = [self.name(found[2]) if not found[3] else f"signature <code>{found[3]}</code> of {self.name(found[2])}" for found in table.lives if found[1] == "unknown"]
        if unsure:
            steps.append("<p><b>Perhaps dead.</b> The search for a file gave up. Try ten times the budget.</p>\n" + self.folded("line", unsure, LABELED))
        lines, circular = table.forced()
        if lines:
            steps.append(f"<p><b>Forced pairs.</b> Only one order leaves both formats alive. {'This line belongs' if len(lines) == 1 else 'These lines belong'} "
                         "at the end of the priority file. Then make this page again: a format below several others may have become dead.</p>\n"
                         f'<textarea readonly="readonly" rows="{min(len(lines), 12) + 1}" cols="30" aria-label="Lines for the priority file">'
                         + "\n".join(f"{a},{b}" for a, b in lines) + "\n</textarea>\n")
        if circular:
            steps.append("<p><b>Forced pairs in a circle.</b> With the listed priorities and the other forced pairs these close a cycle, which no table may have. "
                         "Change signatures, or turn a listed priority round.</p>\n"
                         + self.folded("pair", [f"{self.name(a)} above {self.name(b)}" for a, b in circular], LABELED))
        same = table.by_kind["same"]
        if same:
            steps.append("<p><b>Pairs that nothing tells apart.</b> No priority helps: the lower one would be dead.</p>\n"
                         + self.folded("pair", [f"{self.name(it.first)} and {self.name(it.second)}" for it in same], LABELED))
        self.add('<h2 id="mend">What to mend first</h2>\n')
        if steps:
            self.add("<ol>\n", *(f"<li>{it}</li>\n" for it in steps), "</ol>\n")
        elif table.pairs:
            self.add("<p>No format is dead, and no pair is forced. The pairs below are yours to choose.</p>\n")
        else:
            self.add("<p>Nothing. <code>pronom_sig find</code> writes the certificate.</p>\n")

    def folded(self, one, items, most):
        """A list, folded if it is long."""
        made = "<ul>\n" + "".join(f"<li>{it}</li>\n" for it in items) + "</ul>\n"
        return made if len(items) <= most else f"<details><summary>{many(len(items), one)}</summary>\n{made}</details>\n"

    # the picture

    def picture(self):
        table, count = self.table, len(self.table.places)
        self.add('<h2 id="picture">Picture</h2>\n')
        if count < 2:
            self.add("<p>The table has no two formats.</p>\n")
            return
        cells = {it: set() for it in LEGEND}
        for a, b in table.listed:
            x, y = table.places[a], table.places[b]
            cells["listed"] |= {(x, y), (y, x)}
        for pair in table.pairs:
            x, y = table.places[pair.first], table.places[pair.second]
            cells["over" if pair.kind == "forced" else pair.kind].add((x, y))
            cells["under" if pair.kind == "forced" else pair.kind].add((y, x))
        dead = [found[2] for found in table.lives if found[1] == "dead" and not found[3]]
        self.add("<p>A row and a column for each format, in the order of the table. A spot is a pair that one file can get: a format that nearly any file can get "
                 "is a line.", " A black dot is a dead format." if dead else "", "</p>\n<figure>\n", f'<div class="picture" style="max-width:{min(44, 4 * count)}rem">\n')
        marked = self.labels(count)
        edge = round(count / 60, 1) if marked else 0
        self.add(f'<svg viewBox="{-edge:g} 0 {count + edge:g} {count}" role="img" aria-label="Formats against formats by class">\n'
                 f'<rect class="ground" width="{count}" height="{count}"></rect>\n<path class="middle" d="M0 0L{count} {count}" stroke-width="{count / 500:.3g}"></path>\n')
        for kind in ("listed", "apart", "open", "unknown", "under", "over", "same"):
            if cells[kind]:
                self.add(f'<path class="{kind}" stroke-width="{1 if count > LABELED else 0.9}" d="{runs(cells[kind], 0 if count > LABELED else 0.05)}"></path>\n')
        if marked:
            marks = "".join(f"M{-edge:g} {table.places[it] + 0.5:g}h{edge:g}" for it in marked)
            self.add(f'<path class="marks" stroke-width="{max(1, count / 250):.3g}" d="{marks}"></path>\n')
        for puid in dead:
            at = table.places[puid] + 0.5
            self.add(f'<circle cx="{at}" cy="{at}" r="{max(0.3, count / 160):.3g}"></circle>\n')
        self.add("</svg>\n</div>\n<figcaption>\n<ul>\n")
        for kind, label in LEGEND.items():
            if cells[kind]:
                self.add(f'<li><span class="key {kind}"></span> {label}</li>\n')
        self.add("</ul>\n</figcaption>\n</figure>\n")

    def labels(self, count):
        """PUIDs beside the rows: all of a small table, of a large one the formats of most lines, which are answered."""
        table = self.table
        loud = [it for place, it in enumerate(table.louder(table.counts)[:LOUDEST]) if place < 3 or 10 * table.counts[it] >= count]
        chosen = list(table.places) if count <= LABELED else loud
        at, step = -100.0, 100 / LABELED if count <= LABELED else 4.2
        self.add(f'<ol class="labels{"" if count <= LABELED else " loud"}">\n')
        for puid in sorted(chosen, key=table.places.get):
            at = max((table.places[puid] + 0.5) / count * 100, at + step)
            name = table.names.get(puid)
            more = f' <span class="name">{text(name)}</span>' if name else ""
            target = f'<a href="#{self.target(puid)}">{puid}</a>' if puid in self.spoken else puid
            self.add(f'<li style="top:{at:.2f}%">{target}{more}</li>\n')
        self.add("</ol>\n")
        return chosen if count > LABELED else []

    # formats by lines

    def formats(self):
        table = self.table
        if not table.pairs:
            return
        kinds = collections.defaultdict(collections.Counter)
        for pair in table.pairs:
            for puid, kind in ((pair.first, "over"), (pair.second, "under")) if pair.kind == "forced" else ((pair.first, pair.kind), (pair.second, pair.kind)):
                kinds[puid][kind] += 1
        order = table.louder(table.counts)
        used = [it for it in (*CLASSES, "unknown") if any(kinds[puid][it] for puid in order)]
        self.add('<h2 id="formats">Formats by their pairs</h2>\n',
                 f"<p>{many(len(order), 'format')} of {len(table.places):,} {'is' if len(order) == 1 else 'are'} in a pair. Those at the top mend most.</p>\n")
        most = table.counts[order[0]]
        for part in (order[:TOP_FORMATS], order[TOP_FORMATS:]):
            if part:
                made = self.format_rows(part, kinds, used, most)
                self.add(made if part[0] == order[0] else f"<details><summary>The other {len(part):,}</summary>\n{made}</details>\n")

    def format_rows(self, puids, kinds, used, most):
        heads = {"over": "must be higher", "under": "must be lower", "same": "same", "apart": "choice", "open": "open", "unknown": "unknown"}
        made = ['<div class="wide"><table>\n<tr><th>Format</th><th class="n">Pairs</th><th class="bars"></th>',
                *(f'<th class="n"><span class="key {it}"></span><span class="head"> {heads[it]}</span></th>' for it in used), "</tr>\n"]
        for puid in puids:
            count, name = self.table.counts[puid], self.table.names.get(puid)
            bars = "".join(f'<span class="bar {it}" style="width:{100 * kinds[puid][it] / most:.2f}%"></span>' for it in used if kinds[puid][it])
            made.append(f'<tr id="{id_of(puid)}"><th scope="row"><a href="#s-{id_of(puid)}">{puid}</a>{" " + text(name) if name else ""}</th><td class="n">{count:,}</td>'
                        f'<td class="bars">{bars}</td>' + "".join(f'<td class="n">{kinds[puid][it] or ""}</td>' for it in used) + "</tr>\n")
        return "".join(made) + "</table></div>\n"

    # pairs by class and format

    def kind(self, kind):
        table, pairs = self.table, self.table.by_kind[kind]
        if not pairs:
            return
        title, what = KINDS[kind]
        self.add(f'<h2 id="{kind}"><span class="key {"over" if kind == "forced" else kind}"></span> {title}: {len(pairs):,}</h2>\n<p>{what} '
                 f'<span class="about">In the lines of the program: <code>{"</code>, <code>".join(WORDS.get(kind, (kind,)))}</code>.</span></p>\n')
        if len(table.pairs) <= OPEN_PAIRS:
            self.add('<div class="pairs">\n', *(self.pair(it, None) for it in pairs), "</div>\n")
            return
        counts = collections.Counter(puid for pair in pairs for puid in (pair.first, pair.second))
        groups = collections.defaultdict(list)
        for pair in pairs:
            groups[min(pair.first, pair.second, key=lambda it: (-counts[it], table.places[it]))].append(pair)
        self.add(f"<details><summary>{many(len(pairs), 'pair')} of {many(len(groups), 'format')}</summary>\n")
        for puid in sorted(groups, key=lambda it: (-len(groups[it]), table.places[it])):
            name = table.names.get(puid)
            self.add(f'<details class="group"><summary>{puid}{" " + text(name) if name else ""} <span class="count">{many(len(groups[puid]), "pair")}</span></summary>\n',
                     *(self.pair(it, puid) for it in groups[puid]), "</details>\n")
        self.add("</details>\n")

    def pair(self, pair, puid):
        """A pair with its file; in a group without the name of its format."""
        if pair.kind == "forced":
            said = f"{self.name(pair.first)} <b>above</b> {self.name(pair.second)}"
        else:
            said = f"{self.name(pair.first)} <b>and</b> {self.name(pair.second)}"
        if puid and pair.kind != "forced":
            said = f"and {self.name(pair.second if puid == pair.first else pair.first)}"
        size = "" if pair.length is None else f", {many(pair.length, 'byte')}"
        tried = ", there may be a shorter file" if pair.is_tried else ""
        about = f'<span class="about">signatures {pair.signatures[0]} and {pair.signatures[1]}{size}{tried}</span>'
        if pair.length is None:
            return f'<div class="pair">{said} {about}</div>\n'
        if puid is None:
            return f'<div class="pair">{said} {about}\n{dump(pair.file)}</div>\n'
        return f'<details class="pair"><summary>{said} {about}</summary>{dump(pair.file)}</details>\n'

    # the rows of the signatures that are spoken of

    def signatures(self):
        if not self.spoken:
            return
        self.add('<h2 id="signatures">Signatures</h2>\n', "<p>The rows of the formats that this page speaks of, as they stand in the table.</p>\n")
        made, seen = ['<div class="wide"><table>\n<tr><th>Format</th><th class="n">Signature</th><th>Position</th><th class="n">Offset</th><th>Expression</th></tr>\n'], set()
        for puid, number, position, offset, most, expression in self.table.rows:
            if puid in self.spoken:
                mark = "" if puid in seen else f' id="s-{id_of(puid)}"' + ("" if puid in self.table.counts else f' class="dead"')
                seen.add(puid)
                name = self.table.names.get(puid)
                offsets = offset if most in ("", offset) else f"{offset} to {most}"
                if len(expression) > LONG:
                    expression = f"{expression[:LONG]} .. {many(len(expression) - LONG, 'character')} more"
                made.append(f'<tr{mark}><th scope="row">{puid}{" " + text(name) if name else ""}</th><td class="n">{number}</td><td>{position}</td><td class="n">{offsets}</td>'
                            f'<td class="bytes">{text(expression)}</td></tr>\n')
        made.append("</table></div>\n")
        table = "".join(made)
        self.add(table if len(self.spoken) <= LABELED else f"<details><summary>{many(len(self.spoken), 'format')}</summary>\n{table}</details>\n")


def runs(cells, gap):
    """Cells as strokes of a path, those side by side in one."""
    made, at = [], None
    for y, x in sorted(cells):
        if at == (y, x - 1) and not gap:
            made[-1][2] += 1
        else:
            made.append([x, y, 1])
        at = (y, x)
    return "".join(f"M{x + gap:g} {y + 0.5:g}h{length - 2 * gap:g}" for x, y, length in made)


STYLE = """
:root { --over: #0b4f9c; --under: #7fb2e5; --same: #c1272d; --apart: #e08a1e; --open: #7a7a7a; --unknown: #8547a8; --listed: #f0f0ec; }
* { box-sizing: border-box; }
body { margin: 0; background: #fff; color: #1c1c1c; font: 16px/1.5 system-ui, "Liberation Sans", "DejaVu Sans", sans-serif; }
main { max-width: 62rem; margin: 0 auto; padding: 1rem 1rem 4rem; }
h1 { font-size: 1.7rem; line-height: 1.2; margin: .5rem 0; }
h2 { font-size: 1.25rem; line-height: 1.3; margin: 2.4rem 0 .5rem; padding-top: .6rem; border-top: 1px solid #d5d5d0; }
p { margin: .5rem 0; max-width: 46rem; }
a { color: #0b4f9c; }
code, pre, textarea, .bytes { font-family: ui-monospace, "Liberation Mono", "DejaVu Sans Mono", monospace; }
.verdict { font-size: 1.2rem; font-weight: 600; }
.tiles { list-style: none; margin: 1rem 0; padding: 0; display: flex; flex-wrap: wrap; gap: .5rem; }
.tiles li { border: 1px solid #d5d5d0; border-left: .4rem solid #9a9a94; border-radius: .2rem; padding: .3rem .7rem; font-size: .9rem; }
.tiles b { display: block; font-size: 1.35rem; line-height: 1.2; }
.tiles .forced { border-left-color: var(--over); } .tiles .same { border-left-color: var(--same); } .tiles .apart { border-left-color: var(--apart); }
.tiles .open { border-left-color: var(--open); } .tiles .unknown { border-left-color: var(--unknown); } .tiles .dead { border-left-color: #000; }
.tiles .none { color: #6a6a66; border-left-color: #d5d5d0; }
ol, ul { padding-left: 1.4rem; }
textarea { display: block; max-width: 100%; font-size: .85rem; line-height: 1.4; padding: .5rem; border: 1px solid #b5b5b0; background: #f7f7f4; color: inherit; }
details { margin: .3rem 0; }
summary { cursor: pointer; padding: .2rem 0; }
.group { margin-left: 1rem; } .group .pair { margin-left: 1rem; }
.pair { margin: .3rem 0; }
.pairs { display: grid; grid-template-columns: repeat(auto-fill, minmax(19.5rem, 1fr)); gap: .4rem 1.6rem; }
.pairs .about { display: block; }
.about, .count { color: #5a5a56; font-size: .88rem; }
pre { margin: .3rem 0 .6rem; padding: .5rem .7rem; background: #f4f4f0; font-size: 13px; line-height: 1.35; width: fit-content; max-width: 100%; overflow-x: auto; }
.wide { overflow-x: auto; }
table { border-collapse: collapse; font-size: .92rem; }
th, td { text-align: left; padding: .2rem .6rem .2rem 0; border-bottom: 1px solid #e9e9e4; vertical-align: baseline; font-weight: normal; }
tr:first-child th { color: #5a5a56; font-size: .82rem; white-space: nowrap; }
.n { text-align: right; font-variant-numeric: tabular-nums; }
.bytes { overflow-wrap: anywhere; font-size: .82rem; min-width: 14rem; }
td.bars { width: 14rem; min-width: 7rem; white-space: nowrap; font-size: 0; }
.bar { display: inline-block; height: 12px; }
.key { display: inline-block; width: .75em; height: .75em; }
.bar.over, .key.over { background: var(--over); } .bar.under, .key.under { background: var(--under); } .bar.same, .key.same { background: var(--same); }
.bar.apart, .key.apart { background: var(--apart); } .bar.open, .key.open { background: var(--open); } .bar.unknown, .key.unknown { background: var(--unknown); }
.key.listed { background: var(--listed); outline: 1px solid #c5c5c0; }
figure { margin: 1rem 0; }
.picture { position: relative; margin-left: 15rem; }
svg { display: block; width: 100%; height: auto; overflow: visible; }
.ground { fill: #fff; stroke: #b5b5b0; vector-effect: non-scaling-stroke; } .marks { stroke: #1c1c1c; } .middle { stroke: #b5b5b0; }
path.over { stroke: var(--over); } path.under { stroke: var(--under); } path.same { stroke: var(--same); } path.apart { stroke: var(--apart); }
path.open { stroke: var(--open); } path.unknown { stroke: var(--unknown); } path.listed { stroke: var(--listed); }
.labels { list-style: none; margin: 0; padding: 0; position: absolute; top: 0; bottom: 0; right: 100%; width: 15rem; font-size: .8rem; line-height: 1; }
.labels li { position: absolute; right: .5rem; max-width: 14.5rem; transform: translateY(-50%); overflow: hidden; text-overflow: ellipsis; white-space: nowrap; padding: .1em 0; }
figcaption ul { list-style: none; padding: 0; display: flex; flex-wrap: wrap; gap: .2rem 1.2rem; font-size: .88rem; }
:target { background: #fff3c4; }
@media (max-width: 44rem) {
  main { padding: .5rem .7rem 3rem; }
  .picture { margin-left: 5.5rem; } .labels { width: 5.5rem; } .labels .name { display: none; }
  .labels.loud { font-size: .7rem; }
  .group { margin-left: .4rem; } .group .pair { margin-left: .4rem; }
  .pairs { grid-template-columns: 1fr; }
  td.bars { min-width: 4rem; width: 5rem; } th[scope=row] { min-width: 7.5rem; } th .head { display: none; }
}
@media print { a { color: inherit; } }
"""


def main():
    words = argparse.ArgumentParser(description=__doc__, formatter_class=argparse.RawDescriptionHelpFormatter)
    words.add_argument("signatures", metavar="SIGS")
    words.add_argument("priorities", metavar="PRIOS")
    words.add_argument("out", metavar="OUT.html")
    words.add_argument("--names", metavar="FILE")
    words.add_argument("--program", metavar="PATH", default="pronom_sig")
    words.add_argument("--budget", metavar="N", type=int, default=100_000)
    given = words.parse_args()
    try:
        table = Table(given.program, given.budget, given.signatures, given.priorities, given.names)
        made = Page(table, [os.path.basename(it) for it in (given.signatures, given.priorities)]).write()
        try:
            with open(given.out, "w", encoding="utf-8", newline="\n") as file:
                file.write(made)
        except OSError:
            raise Failed(f"cannot write {given.out}", 3)
    except Failed as fault:
        message, status = fault.args
        if message:
            print(message, file=sys.stderr)
        sys.exit(status)


if __name__ == "__main__":
    main()
