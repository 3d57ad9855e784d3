#!/usr/bin/env python3
"""Holds a converted MIME database against the rules that it was made of, over files of this machine.

    python3 bench/compare_mime.py PROGRAM FOLDER.. [--files N] [--source XML]

It converts XML, `/usr/share/mime/packages/freedesktop.org.xml` if none is given, with
`tools/from_shared_mime_info.py`, and takes N (10,000) of the files of the folders (`/usr`), spread evenly,
none over 4 MiB. Each is matched by `pronom_sig match --all` over the table and by `plain_mime.py`, which asks
the rules of XML as they are; rules of `not-taken.csv` are left out. Both must name the same formats, each
with the same first match. What `match` leaves behind priorities must be what plain code leaves of
`priorities.csv`. Before the files come some that are made of the rules: for each match the values of its path
at the least or the greatest of their offsets, with bytes changed and cut off.

It prints counts, and ends with status 1 at the first file that differs.
"""
import argparse
import csv
import os
import random
import shutil
import stat
import subprocess
import sys
import tempfile
from itertools import islice

sys.dont_write_bytecode = True
sys.path.insert(0, os.path.dirname(os.path.abspath(__file__)))

import plain_mime

DATABASE = "/usr/share/mime/packages/freedesktop.org.xml"
CONVERTER = os.path.join(os.path.dirname(os.path.abspath(__file__)), "..", "tools", "from_shared_mime_info.py")
MOST_BYTES, BATCH = 4 << 20, 500


def rows_of(path):
    with open(path, newline="", encoding="utf-8") as file:
        return list(csv.reader(file))[1:]


class Table:
    """The converted table, and the judge of the rules that were taken."""

    def __init__(self, program, source, folder):
        self.program, self.folder, self.seen = program, folder, set()
        subprocess.run([sys.executable, CONVERTER, source, folder], check=True)
        left_out = {int(number) for _, number, _ in rows_of(os.path.join(folder, "not-taken.csv")) if number}
        self.database = plain_mime.Database(source, left_out)
        self.puids = {format: f"fmt/{place}" for place, format in enumerate(self.database.formats, 1)}
        self.lower = {}
        for higher, lower in rows_of(os.path.join(folder, "priorities.csv")):
            self.lower.setdefault(higher, set()).add(lower)
        types = {puid: name for (name, _), puid in self.puids.items()}
        for puid, name in rows_of(os.path.join(folder, "names.csv")):
            if name.partition(" (")[0] != types[puid]:
                sys.exit(f"compare_mime: {puid} is {name}, and not {types[puid]}")

    def matched(self, words, paths):
        """For each file its lines, as `match` prints them."""
        tables = [os.path.join(self.folder, it) for it in ("signatures.csv", "priorities.csv")]
        done = subprocess.run([self.program, "match", "--with-names", *words, *tables, "--", *paths], stdout=subprocess.PIPE)
        found = {path: [] for path in paths}
        for line in done.stdout.decode("utf-8").split("\n")[:-1]:
            path, _, text = line.rpartition("\t")
            found[path].append(text)
        return done.returncode, found

    def compare(self, paths, data):
        """Both answers to each file. It gives the counts of hits and of formats left, or the file that differs."""
        hits = kept = 0
        status, all_lines = self.matched(["--all"], paths)
        status_left, left_lines = self.matched([], paths)
        if status or status_left:
            sys.exit(f"compare_mime: `match` ended with {status} and {status_left}, at a file of {paths[0]} to {paths[-1]}")
        for path, bytes_of in zip(paths, data):
            found = {self.puids[format]: number for format, number in self.database.hits(bytes_of).items()}
            removed = set().union(*(self.lower.get(it, ()) for it in found))
            left = {puid: number for puid, number in found.items() if puid not in removed}
            for what, its, lines in (("before priorities", found, all_lines[path]), ("left", left, left_lines[path])):
                expected = [f"{puid} {number}" for puid, number in its.items()] or ["-"]
                if sorted(lines) != sorted(expected):
                    begin = bytes_of[:64].hex()
                    sys.exit(f"compare_mime: {path} ({begin}..) differs, {what}: the program has {lines}, the rules {expected}")
            hits, kept = hits + len(found), kept + len(left)
            self.seen.update(found)
        return hits, kept


def usable(path):
    try:
        path.encode()
    except UnicodeEncodeError:
        return False
    return not any(it in path for it in "\t\n\r")


def regular_files(folders):
    for folder in folders:
        for at, inside, names in os.walk(folder):
            inside.sort()
            for path in (os.path.join(at, it) for it in sorted(names)):
                try:
                    state = os.lstat(path)
                except OSError:
                    continue
                if stat.S_ISREG(state.st_mode) and state.st_size <= MOST_BYTES and usable(path):
                    yield path


def spread(paths, most):
    return paths if len(paths) <= most else [paths[it * len(paths) // most] for it in range(most)]


def in_batches(files):
    """Paths and bytes of files, as lists of both, for BATCH of them at a time."""
    files = iter(files)
    while some := list(islice(files, BATCH)):
        yield [path for path, _ in some], [data for _, data in some]


def readable(paths):
    """The files with their bytes; those that can't be read are passed over."""
    for path in paths:
        try:
            with open(path, "rb") as file:
                yield path, file.read()
        except OSError:
            continue


def paths_down(match, above=()):
    here = (*above, match)
    if not match.inside:
        yield here
    for it in match.inside:
        yield from paths_down(it, here)


def made_files(database, chance):
    """Files of the rules: the matches of a path written at their offsets, some with a byte changed or cut off."""
    for matches in database.formats.values():
        for path in (path for match in matches for path in paths_down(match)):
            if path[-1].is_left_out:
                continue
            for place in ("first", "last"):
                size = max(getattr(it, place) + it.size for it in path)
                data = bytearray(size)
                for it in path:
                    value = it.value if isinstance(it.value, bytes) else it.value.to_bytes(it.size, it.order)
                    start = getattr(it, place)
                    data[start:start + it.size] = value
                yield bytes(data)
                yield bytes(data[:-1])
                yield b"\0" + bytes(data)
                it = chance.choice(path)
                changed = bytearray(data)
                changed[getattr(it, place) + chance.randrange(it.size)] ^= 1 << chance.randrange(8)
                yield bytes(changed)


def written(made, folder):
    """Made files with their paths. A path serves again in the next batch."""
    for place, data in enumerate(made):
        path = os.path.join(folder, f"{place % BATCH}.bin")
        with open(path, "wb") as file:
            file.write(data)
        yield path, data


def report(table, what, batches):
    files = hits = kept = 0
    table.seen = set()
    for batch, data in batches:
        more, more_kept = table.compare(batch, data)
        files, hits, kept = files + len(batch), hits + more, kept + more_kept
    print(f"{files} {what} agree: {hits} hits of {len(table.seen)} formats, {kept} of them left by priorities", flush=True)


def main():
    words = argparse.ArgumentParser(description=__doc__, formatter_class=argparse.RawDescriptionHelpFormatter)
    words.add_argument("program", metavar="PROGRAM")
    words.add_argument("folders", metavar="FOLDER", nargs="*", default=["/usr"])
    words.add_argument("--files", type=int, default=10_000, metavar="N")
    words.add_argument("--source", default=DATABASE, metavar="XML")
    words = words.parse_args()
    folder = tempfile.mkdtemp()
    try:
        table = Table(words.program, words.source, folder)
        report(table, "files made of the rules", in_batches(written(made_files(table.database, random.Random(1)), folder)))
        report(table, f"files of {' '.join(words.folders)}", in_batches(readable(spread(list(regular_files(words.folders)), words.files))))
    finally:
        shutil.rmtree(folder)


if __name__ == "__main__":
    main()
