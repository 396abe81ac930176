#!/usr/bin/python3
"""Tests of the desk's tools: book.py, events.py, model.py, picture.py.

    python3 tools/test_desk.py

It needs Python 3.10 or later and its standard library only, and writes to a temporary folder. Where mypy (Debian: mypy) is there it checks the
annotations, where cargo is there it builds what bench/run load needs. What is expected is document 01's and 02's, or was decided by
other programs: the books of test_book with their numbers, its calls of the writer with theirs, the prices of the sample close.
"""
import contextlib
import io
import math
import os
import pathlib
import random
import resource
import shutil
import signal
import stat
import struct
import subprocess
import sys
import tempfile
import unittest
import xml.etree.ElementTree

import book
import book_bytes
import desk
import events
import history
import model
import picture
import svg

ROOT = pathlib.Path(__file__).resolve().parent.parent
CRATES = ROOT / "crates"
WRITER_FILES = sorted((CRATES / "test_book" / "data").glob("writer_*.bin"))
SAMPLE = ROOT / "samples" / "close"
FIRST = ROOT / "samples" / "first"
PICTURES = {  # those of docs/, with their titles
    SAMPLE: ("sample-close.svg", "The sample close: twenty bonds on four machines; a fifth joins, and one dies"),
    FIRST: ("first-run.svg", "A first run: three bonds on three machines"),
}

ANNOTATED = ["book.py", "book_bytes.py", "desk.py", "events.py", "history.py", "make_sample.py", "model.py", "picture.py", "svg.py", "vector_files.py"]

SVG_TEXT = "{http://www.w3.org/2000/svg}text"  # by the standard

HEADER = "identifier,kind,periods,coupon,yield\n"
WITH_PAYMENTS = "identifier,kind,periods,payments,coupon,yield\n"
GOOD = "ZZ0000000016,fixed,2,4,0\n"
SECOND = "ZZ0000000024,zero,2,,0.5\n"

# Document 01, "Examples": the listing.
LISTING_BOOK = "# machines 2\n" + HEADER + GOOD + SECOND
LISTING_BYTES = [(1, 0, 0), (2, 1, 0), (3, 1, 0), (3, 0, 0), (3, 0, 0), (3, 0, 1), (4, 1, 0), (5, 1, 0), (3, 1, 0), (3, 1, 0), (6, 0, 0)]
LISTING_EVENTS = """
admit 0         # the first bond
steal 1 from 0
deliver 1 to 0  # FISH
deliver 0 to 0  # REQ
deliver 0 to 0  # AUTH
deliver 0 to 1  # SCHEDULE
start 1 job 0
done 1
deliver 1 to 0  # ACK
deliver 1 to 0  # RESULT
die 0
"""
LISTING_PAGE = """event 11 refused 20
ZZ0000000016 priced 405A000000000000 replica 1
ZZ0000000024 not admitted
open 0
"""
SIXTEEN = [f"join {machine}" for machine in range(3, 16)]  # of three machines
# Number, event, the events before it; three machines, two entries.
REFUSALS = [
    *((10, event) for event in ("raw 0 0 0", "raw 9 0 0", "raw 255 9 9", "raw 1 0 1", "raw 5 0 1", "raw 6 1 9", "raw 1", "raw 1 0", "raw 1 9 1",
                                "raw 8", "raw 8 3", "raw 8 3 1", "raw 8 3 255", "raw 8 255 1")),
    *((11, event) for event in ("admit 2", "steal 3 from 0", "steal 0 from 3", "deliver 3 to 0", "deliver 0 to 3", "start 3 job 0", "start 0 job 2",
                                "done 3", "die 3", "notice 3 of 0", "notice 0 of 3")),
    (13, "admit 0", "admit 0"),
    (12, "steal 1 from 1", "die 1"), (14, "steal 1 from 1"), (14, "steal 1 from 1", "steal 1 from 0"),
    (24, "steal 1 from 2", "steal 1 from 0"), (24, "steal 1 from 0", "steal 1 from 0"), (24, "steal 1 from 2", "die 2", "notice 1 of 2", "steal 1 from 0"),
    (25, "steal 1 from 2", "die 2", "notice 1 of 2"), (25, "steal 1 from 2", "steal 1 from 2", "die 2", "notice 1 of 2"),
    (15, "deliver 0 to 1"), (15, "deliver 0 to 1", "steal 1 from 0"), (15, "deliver 1 to 2", "steal 1 from 2", "die 2"),
    (12, "start 1 job 0", "admit 0", "die 1"), (17, "start 0 job 0", "admit 0", "start 0 job 0"), (18, "start 1 job 0", "admit 0"),
    (12, "done 1", "die 1"), (19, "done 0", "admit 0"),
    (20, "die 0"), (12, "die 1", "die 1"),
    (12, "notice 1 of 1", "die 1"), (21, "notice 0 of 0"), (21, "notice 0 of 1", "die 2"), (22, "notice 0 of 1", "die 1", "notice 0 of 1"),
    *((27, f"join {machine}") for machine in (0, 2, 4, 16, 255)), (27, "join 3", "join 3"), (27, "join 1", "die 1"), (27, "join 3", "join 3", "die 3"),
    *((26, f"join {machine}", *SIXTEEN) for machine in (0, 15, 16, 17, 255)), (26, "join 16", "die 1", *SIXTEEN, "die 15"), (26, "join 1", "die 1", *SIXTEEN),
    (10, "raw 8 16 1", *SIXTEEN), (10, "raw 8 16", *SIXTEEN),
    *((11, event, "join 3") for event in ("steal 4 from 0", "steal 0 from 4", "deliver 4 to 0", "start 4 job 0", "done 4", "die 4", "notice 0 of 4")),
    (11, "steal 16 from 0", *SIXTEEN), (11, "steal 15 from 16", *SIXTEEN),
    (15, "deliver 3 to 0", "join 3"), (18, "start 3 job 0", "admit 0", "join 3"), (19, "done 3", "join 3"), (21, "notice 3 of 0", "join 3"),
    (25, "steal 3 from 1", "die 1", "join 3", "notice 3 of 1"),
]
FIRST_PAGE = """event 24 refused 20
US0378331005 priced 4059813F447C3D83 replica 2
ZZ0000000016 priced 405A000000000000 replica 1
ZZ0000000024 open replica 1
open 1
"""
FIRST_OPEN = [1, 2, *11 * [3], *9 * [2], 1, 1]  # after each event: three are admitted, events 14 and 23 deliver a RESULT


def tool(name, *arguments, output=subprocess.PIPE, errors=subprocess.PIPE, before=None):
    """Runs a tool as the desk does."""
    command = [sys.executable, str(ROOT / "tools" / name), *map(os.fsencode, map(str, arguments))]
    return subprocess.run(command, stdout=output, stderr=errors, preexec_fn=before, timeout=60, check=False)


def book_cases():
    """The books of test_book, each with its number."""
    for file in sorted(set((CRATES / "test_book" / "data").glob("*.bin")) - set(WRITER_FILES)):
        data, at = file.read_bytes(), 0
        while at < len(data):
            length, number, _, _, questions = struct.unpack_from("<HBBBB", data, at)
            yield number, data[at + 6:at + 6 + length]
            at += 6 + length + 25 * questions


def writer_cases():
    """The calls of the writer of test_book: the buffer, the count, the identifier and the terms; the number; and the buffer afterwards."""
    for file in WRITER_FILES:
        data = io.BytesIO(file.read_bytes())
        while head := data.read(7):
            length, number, count, identifier, terms = struct.unpack("<HBHBB", head)
            yield (data.read(length), count, data.read(identifier), data.read(terms)), number, data.read(length)


def names(count):
    """Identifiers that pass, all different."""
    return [book_bytes.with_check_digit(b"ZZ%09d" % i) for i in range(count)]


def entries_of(terms):
    """An entry for each term."""
    return [book_bytes.Entry(name, *term) for name, term in zip(names(len(terms)), terms)]


def random_run(seed, machines, entries, count):
    """A book and events most of which are accepted; deaths, joins and broken events among them."""
    rng = random.Random(seed)
    bonds = entries_of([(book_bytes.FIXED, rng.randint(1, 240), rng.choice([0, 1, 2, 4, 12]), 100 * rng.random(), rng.uniform(-0.5, 1))
                        for _ in range(entries)])
    table, found = model.Table(machines, bonds), []
    for _ in range(count):
        found.append(random_event(rng, table))
        table.step(found[-1])
    return book_bytes.book_of(machines, bonds), b"".join(found)


def recounts(data, found):
    """How many jobs are open after each event, job by job."""
    table, counts = model.Table(*book_bytes.parts(data)), []
    for event in events.events_of(found):
        table.step(event)
        counts.append([job.state for job in table.jobs].count(model.OPEN))
    return counts


def random_event(rng, table):
    if table.flight and rng.random() < 0.6:
        message = rng.choice(table.flight)
        return bytes([3, message.sender, message.to])
    code = rng.choice([1, 1, 2, 2, 2, 4, 4, 5, 5, 6, 7, 8, rng.randrange(10)])
    a, b = rng.randrange(len(table.machines)), rng.randrange(len(table.machines))
    if code == 1:
        return bytes([1, rng.randrange(len(table.jobs) + 1), 0])
    if code == 4:
        return bytes([4, a, rng.choice(list(table.machines[a].pool) or [b])])
    if code == 8:
        return bytes([8, rng.choice([len(table.machines), a, rng.randrange(256)]), 0])
    return bytes([code, a, 0 if code in (5, 6) else b])


class Folder(unittest.TestCase):
    """A test with a folder of its own."""

    def setUp(self):
        temporary = tempfile.TemporaryDirectory()
        self.addCleanup(temporary.cleanup)
        self.folder = pathlib.Path(temporary.name)

    def file(self, name, content):
        path = self.folder / name
        path.write_bytes(content if isinstance(content, bytes) else content.encode("utf-8"))
        return path

    def assert_message(self, done, *words):
        """It failed, and said why."""
        said = done.stderr.decode("utf-8")
        self.assertNotIn("Traceback", said)
        self.assertIn(done.returncode, (1, 2, 3))
        for word in words or [": "]:
            self.assertIn(word, said)

    def assert_lines(self, done, *lines):
        """It failed, and the lines on standard error, after the tool's name, begin so."""
        self.assert_message(done)
        said = [line.split(": ", 1)[1] for line in done.stderr.decode("utf-8").splitlines()]
        self.assertEqual(len(said), len(lines), said)
        for line, start in zip(said, lines):
            self.assertTrue(line.startswith(start), (line, start))


class Books(Folder):
    def make(self, text, *options):
        done = tool("book.py", "make", self.file("b.csv", text), self.folder / "book.bin", *options)
        written = self.folder / "book.bin"
        return done, written.read_bytes() if written.exists() else None

    def assert_refused(self, text, *words, options=()):
        done, written = self.make(text, *options)
        self.assert_message(done, *words)
        self.assertIsNone(written)

    def test_numbers_are_those_of_book_cases(self):
        cases = list(book_cases())
        self.assertEqual(len(cases), 1081)
        for number, data in cases:
            self.assertEqual(book_bytes.number_of(data), number)

    def test_every_accepted_book_comes_back(self):
        accepted = [data for number, data in book_cases() if number == 0]
        self.assertGreater(len(accepted), 50)
        for data in accepted:
            self.assertEqual(book.make(book.show(data)), data)

    def test_rates_come_back_bit_for_bit(self):
        rates = [0.0, -0.0, 5e-324, 0.1, 1 / 3, math.nextafter(1.0, 0.0), 1.0]
        below = [-5e-324, -1e-310, -0.0015, -0.25, math.nextafter(-0.5, 0.0), -0.5]
        for ytms in (rates, below):
            data = book_bytes.book_of(2, entries_of([(book_bytes.FIXED, 2, 0, coupon, ytm) for coupon in rates for ytm in ytms]))
            self.assertEqual(book_bytes.number_of(data), 0)
            self.assertEqual(book.make(book.show(data)), data)

    def test_commands(self):
        done, written = self.make(LISTING_BOOK)
        self.assertEqual((done.returncode, done.stderr), (0, b""))
        self.assertEqual(written, (CRATES / "rakhvide" / "data" / "book.bin").read_bytes())
        shown = tool("book.py", "show", self.folder / "book.bin")
        self.assertEqual((shown.returncode, shown.stderr), (0, b""))
        self.assertEqual(self.make(shown.stdout)[1], written)

    def test_machine_count(self):
        self.assertEqual(book.make(HEADER)[0], 4)
        self.assertEqual(book.make("# machines 7\n" + HEADER)[0], 7)
        self.assertEqual(book.make("# machines 7,,,,\n" + HEADER)[0], 7)  # as a spreadsheet writes it
        self.assertEqual(self.make("# machines 7\n" + HEADER, "--machines", "9")[1][0], 9)

    def test_comments_that_state_the_machine_count(self):
        for comment in ("# Machines 3", "# machines: 3", "#machines=3", "#MACHINES : 3", "# machines 3  ", "# machines 003", "# machines,3,,,"):
            self.assertEqual(book.make(comment + "\n" + HEADER)[0], 3, comment)
        self.assertEqual(book.make("# machines 3\n" + HEADER + "# Machines: 3\n")[0], 3)
        self.assertEqual(book.make(" # machines 3\n\t# a comment\n" + HEADER)[0], 3)
        self.assertEqual(book.make("# the machines\n# a machine\n# machinery of 2024\n# close of 2024\n" + HEADER)[0], 4)

    def test_comments_that_should_state_the_machine_count(self):
        for comment in ("# machines three", "# machines -1", "# machines 3 at the close", "# machines", "#Machines3", "# machines 3.0",
                        "# machines 3,at the close", "# machines \u0663", "# machines :: 3", "# machines 1_0", "# the machines 3", "# 3 machines",
                        "# machine 3", "## machines 3", "# number of machines: 3", "#3machines", " # Machine 3", "# machines,,,,3,bonds"):
            self.assert_refused(HEADER + comment + "\n" + GOOD, "row 2: ", "states no machine count")
        for option in ("--machines=3", "--anyway"):
            self.assert_refused("# machines three\n" + HEADER + GOOD, "row 1: ", "states no machine count", options=[option])

    def test_machine_counts_that_differ(self):
        text = "# machines 3\n" + HEADER + "# machines 4\n" + GOOD + "# Machines: 3\n# machines 5\n"
        self.assert_lines(self.make(text)[0], "row 3: '# machines 4', and row 1 states 3", "row 6: '# machines 5', and row 1 states 3", str(self.folder))
        self.assertFalse((self.folder / "book.bin").exists())

    def test_the_machine_count_that_is_taken_is_told(self):
        done, written = self.make(HEADER + GOOD)
        self.assertEqual((done.returncode, done.stdout, written[0]), (0, b"", 4))
        self.assertEqual(done.stderr, b"book.py: warning: no machine count is stated: 4 machines are taken\n")
        for text, options in (("# machines 4\n" + HEADER + GOOD, ()), (HEADER + GOOD, ("--machines", "4"))):
            self.assertEqual(self.make(text, *options)[0].stderr, b"")
        self.assertNotIn(b"no machine count", self.make(GOOD)[0].stderr)  # nothing is written

    def test_a_book_without_bonds_is_told(self):
        done, written = self.make("# machines 2\n" + HEADER)
        self.assertEqual((done.returncode, done.stderr, written), (0, b"book.py: warning: no bonds\n", b"\2\0\0\0"))

    def test_what_spreadsheets_write(self):
        plain = book.make(HEADER + GOOD + SECOND)
        for text in ("\ufeff" + HEADER + GOOD + SECOND, (HEADER + GOOD + SECOND).replace("\n", "\r\n"), HEADER + GOOD + SECOND + ",,,,\n",
                     (HEADER + GOOD + SECOND).replace("\n", ",, ,\n"),
                     (WITH_PAYMENTS + GOOD.replace(",4,", ",,4,") + SECOND.replace(",,", ",,,")).replace("\n", ",,\n"),
                     HEADER + "\n" + GOOD + SECOND.replace(",,", ",0,"), HEADER + '"ZZ0000000016","fixed","2","4.0","0.0"\n' + SECOND):
            done, written = self.make(text)
            self.assertEqual((done.returncode, written), (0, plain), done.stderr)

    def test_refused_2(self):
        rows = "".join(f"{name.decode()},zero,1,,0\n" for name in names(65))
        self.assert_refused(HEADER + rows, "65 bonds", "refused 2")
        for machines in ("1", "17", "-1", "70000", "9" * 5000):
            self.assert_refused(HEADER + GOOD, "machines", machines[:60], "refused 2", options=["--machines=" + machines])
        for machines in ("1", "99999999999", "9" * 5000):
            self.assert_refused(f"# machines {machines}\n" + HEADER + GOOD, "machines: " + machines[:60], "is outside 2 to 16 (refused 2)")

    def test_refused_4(self):
        for name in ("ZZ000000016 ", " ZZ0000000016", "zz0000000016", "ZZ000000016", "ZZ00000000160", "", "ZZ00000000\u00e96", "Z00000000016"):
            self.assert_refused(HEADER + GOOD + f'"{name}",zero,2,,0.5\n', "row 3, column identifier", "refused 4")

    def test_refused_5(self):
        self.assert_refused(HEADER + GOOD.replace("16,", "17,"), "row 2, column identifier", "6 (refused 5)")

    def test_refused_6(self):
        self.assert_refused(HEADER + GOOD + SECOND + GOOD, "row 4, column identifier", "identifier of row 2 too", "refused 6")
        twice = book.make(LISTING_BOOK)
        shown = tool("book.py", "show", self.file("twice.bin", twice[:16] + twice[4:16] + twice[28:]))
        self.assert_lines(shown, "row 4, column identifier: ZZ0000000016 is the identifier of row 3 too")

    def test_refused_7(self):
        for row, column in (
                ("fixed,0,4,0", "periods"), ("fixed,241,4,0", "periods"), ("fixed,-1,4,0", "periods"), ("fixed,2,-1e-9,0", "coupon"),
                ("fixed,2,100.00000000000002,0", "coupon"), ("fixed,2,nan,0", "coupon"), ("fixed,2,inf,0", "coupon"), ("fixed,2,-0.5,0", "coupon"),
                ("fixed,2,4,1.0000000000000002", "yield"), ("fixed,2,4,nan", "yield"), ("zero,2,1,0", "coupon"), ("zero,2,-0.0,0", "coupon")):
            self.assert_refused(HEADER + GOOD + "ZZ0000000024," + row + "\n", f"row 3, column {column}", "refused 7")
        for ytm, fraction in (("4.25", "0.0425"), ("4.123456789", "0.04123456789"), ("1e1", "0.1"), ("4." + 50 * "1", "0.04" + 50 * "1"),
                              ("-1.5", "-0.015"), ("-0.75", "-0.0075"), ("-0.5123456789", "-0.005123456789"), ("-5e1", "-0.5"), ("100", "1.00")):
            words = f"yield: {ytm} is outside -0.5 to 1; {ytm} percent is written {fraction} (refused 7)"
            self.assert_refused(HEADER + f"ZZ0000000016,fixed,2,4, {ytm}\n", words)
        for ytm in ("100.1", "-50.1", "1e300", "inf", "-inf", "nan"):  # no percent either
            self.assert_refused(HEADER + f"ZZ0000000016,fixed,2,4,{ytm}\n", f"yield: {ytm} is outside -0.5 to 1 (refused 7)")
        faulty = book_bytes.book_of(2, entries_of([(book_bytes.FIXED, 2, 0, 4.0, 4.123456789)]))
        self.assert_message(tool("book.py", "show", self.file("f.bin", faulty)), "4.123456789 percent is written 0.04123456789 (refused 7)")

    def test_the_ends_of_a_yield(self):
        """Document 02, 2.1: "A yield now lies from -0.5 to 1, ends included". The cells beyond them are the next doubles."""
        for terms in ("fixed,2,4,", "zero,2,,"):
            for ytm, bits in (("-0.5", "BFE0000000000000"), ("-0.49999999999999994", "BFDFFFFFFFFFFFFF"), ("-0.0", "8000000000000000"),
                              ("-5e-324", "8000000000000001"), ("-2.225073858507201e-308", "800FFFFFFFFFFFFF"), ("1", "3FF0000000000000")):
                done, written = self.make(HEADER + "ZZ0000000016," + terms + ytm + "\n")
                self.assertEqual((done.returncode, written[-8:][::-1].hex().upper()), (0, bits), ytm)
                (self.folder / "book.bin").unlink()
            for ytm in ("-0.5000000000000001", "1.0000000000000002"):
                self.assert_refused(HEADER + "ZZ0000000016," + terms + ytm + "\n", "row 2, column yield: ", "is outside -0.5 to 1", "refused 7")

    def test_payments(self):
        """Document 02, 2.3: "1, 2, 4 or 12, and 0 reads as 2 [..] Any other byte is refused 7". An empty cell is the byte 0."""
        for cell, byte in (("", 0), (" ", 0), ("1", 1), ("2", 2), ("4", 4), ("12", 12), (" +4 ", 4), ("012", 12)):
            for terms in ("fixed,20,{},4,0.05", "zero,20,{},,0.05"):
                done, written = self.make("# machines 2\n" + WITH_PAYMENTS + "ZZ0000000016," + terms.format(cell) + "\n")
                self.assertEqual((done.returncode, done.stderr, written[18], book_bytes.number_of(written)), (0, b"", byte, 0), cell)
                (self.folder / "book.bin").unlink()
        allowed = " is none of 1, 2, 4 and 12 payments a year; an empty cell is 2"
        for cell in ("3", "5", "6", "11", "13", "24", "52", "-1", "256", "365", "9" * 5000):
            shown = cell if len(cell) < 60 else "9" * 60 + "..."
            for terms in ("fixed,20,{},4,0.05", "zero,20,{},,0.05"):
                self.assert_refused(WITH_PAYMENTS + "ZZ0000000016," + terms.format(cell) + "\n", "row 2, column payments: " + shown + allowed + " (refused 7)")
        for cell in ("0", "00", "+0"):
            done, written = self.make(WITH_PAYMENTS + f"ZZ0000000016,fixed,20,{cell},4,0.05\n")
            self.assert_message(done, "row 2, column payments: 0" + allowed)
            self.assertEqual((done.returncode, written), (1, None), cell)
        for cell in ("monthly", "2.0", "1_2", "\u0662", "-", "12x"):
            self.assert_refused(WITH_PAYMENTS + f"ZZ0000000016,fixed,20,{cell},4,0.05\n", f"row 2, column payments: '{cell}' is not a whole number")
        for byte in range(256):
            data = book_bytes.book_of(2, entries_of([(book_bytes.FIXED, 20, byte, 4.0, 0.05)]))
            self.assertEqual(book_bytes.number_of(data), 0 if byte in (0, 1, 2, 4, 12) else 7)

    def test_payments_and_other_faults(self):
        """In the order of the columns, and of the rows."""
        text = WITH_PAYMENTS + "ZZ0000000017,fixed,0,3,101,2\nZZ0000000016,bill,241,no,4,0\nZZ0000000024,zero,20,12,,0.05\n"
        self.assert_lines(self.make(text)[0], "row 2, column identifier", "row 2, column periods", "row 2, column payments: 3 is none",
                          "row 2, column coupon", "row 2, column yield", "row 3, column kind", "row 3, column periods",
                          "row 3, column payments: 'no' is not a whole number", str(self.folder))
        faulty = book_bytes.book_of(2, entries_of([(book_bytes.FIXED, 20, 3, 4.0, 0.05)]))
        done = tool("book.py", "show", self.file("f.bin", faulty))
        self.assert_lines(done, "row 3, column payments: 3 is none of 1, 2, 4 and 12 payments a year")
        self.assertEqual(done.stdout.decode(), "# machines 2\n" + WITH_PAYMENTS + "ZZ0000000008,fixed,20,3,4.0,0.05\n")

    def test_payments_anyway(self):
        for cell, byte, number in (("3", 3, 7), ("255", 255, 7), ("0", 0, 0), ("", 0, 0)):
            done, written = self.make(WITH_PAYMENTS + f"ZZ0000000016,fixed,20,{cell},4,0.05\n", "--anyway")
            self.assertEqual((done.returncode, written[18], book_bytes.number_of(written)), (0, byte, number))
        text = WITH_PAYMENTS + "ZZ0000000016,fixed,20,256,4,0.05\n"
        self.assert_lines(self.make(text, "--anyway")[0], "row 2, column payments: 256 does not fit into its place", str(self.folder))

    def test_books_without_payments(self):
        """A file without the column is read as before it was there, and a book without payments is shown so."""
        plain = b"\2\0\1\0ZZ0000000016\2\2\0" + struct.pack("<dd", 4.0, 0.05)
        old, new = "# machines 2\n" + HEADER + "ZZ0000000016,fixed,2,4.0,0.05\n", "# machines 2\n" + WITH_PAYMENTS + "ZZ0000000016,fixed,2,,4.0,0.05\n"
        self.assertEqual((book.make(old), book.make(new), book.show(plain)), (plain, plain, old))
        stated = plain[:18] + b"\2" + plain[19:]
        self.assertEqual((book.make(new.replace(",,", ",2,")), book.show(stated)), (stated, new.replace(",,", ",2,")))
        self.assertEqual(model.page(plain, events.make("admit 0\nstart 0 job 0\ndone 0\ndeliver 0 to 0\n")),
                         model.page(stated, events.make("admit 0\nstart 0 job 0\ndone 0\ndeliver 0 to 0\n")))

    def test_some_payments_come_back(self):
        """In a book where some bonds state them the cells of the others are empty."""
        data = book_bytes.book_of(2, entries_of([(1 + i % 2, i + 1, byte, i % 2 * 4.0, 0.05) for i, byte in enumerate([0, 1, 2, 4, 12, 0])]))
        rows = [line.split(",") for line in book.show(data).splitlines()[1:]]
        self.assertEqual([row[3] for row in rows], ["payments", "", "1", "2", "4", "12", ""])
        self.assertEqual(book.make(book.show(data)), data)

    def test_long_numbers(self):
        """They are told by what the cell says, shortened."""
        nines = "9" * 60 + "... is outside"
        for terms, words in (("fixed," + "9" * 4000 + ",4,0", "periods: " + nines), ("fixed," + "9" * 5000 + ",4,0", "periods: " + nines),
                             ("fixed,-" + "9" * 5000 + ",4,0", "periods: -9"), ("fixed,2,1e400,0", "coupon: 1e400 is outside"),
                             ("fixed,2," + "9" * 5000 + ",0", "coupon: " + nines), ("zero,2," + "1" * 5000 + "e-5000,0", "this is 1111"),
                             ("fixed,2,4,1e400", "yield: 1e400 is outside"), ("fixed,2,4,-1e-400", "")):
            done = self.make(f"# machines 2\n{HEADER}ZZ0000000016,{terms}\n")[0]
            self.assertEqual((done.returncode, words in done.stderr.decode()), (3 if words else 0, True), done.stderr)
            self.assertLess(len(done.stderr), 400)

    def test_identifiers_that_may_be_meant(self):
        """A corrected form is offered where it would pass, and the character in the way is named."""
        for cell, words, meant in (
                ("us0378331005", "character 1 is 'u', and A to Z is expected there", True), ("US0378331005 ", "character 13 is a space", True),
                ("US0378331005\u00a0", "'US0378331005<a no-break space>' is no identifier: character 13 is a no-break space", True),
                ("\u200bUs0378331005", "character 1 is zero width space (U+200B)", True), ("US\t0378331005", "character 3 is a tab", True),
                ("us0378331006", "character 1 is 'u'", False), ("US037833100", "it has 11 characters, and an identifier has 12", False),
                ("US03783310O5 ", "character 13 is a space", False),
                ("zz0000000016", "character 1 is 'z', and A to Z is expected there; as ZZ0000000016 it is the identifier of row 2 too", False),
                ("ZZ0000000016\u00a0", "as ZZ0000000016 it is the identifier of row 2 too", False),
                ("ZZ00000000\u00e96", "character 11 is latin small letter e with acute (U+00E9), and A to Z or 0 to 9", False),
                ("ZZ000000001\u0661", "character 12 is arabic-indic digit one (U+0661), and 0 to 9 is expected", False)):
            done = self.make(HEADER + GOOD + f'"{cell}",zero,2,,0.5\n')[0]
            self.assert_message(done, "row 3, column identifier: ", words, "(refused 4)")
            self.assertEqual("did you mean US0378331005?" in done.stderr.decode(), meant, cell)
            self.assertEqual("did you mean" in done.stderr.decode(), meant, cell)
            self.assertNotIn(b"\\", done.stderr)
        done = self.make(HEADER + "zz0000000016,zero,2,,0\nZz0000000016,zero,2,,0\n")[0]
        self.assertEqual(done.stderr.count(b"did you mean ZZ0000000016?"), 1)  # the second would be refused 6
        faulty = book.make(LISTING_BOOK).replace(b"ZZ0000000024", b"ZZ000\xff000024")
        self.assert_message(tool("book.py", "show", self.file("f.bin", faulty)), "character 6 is the byte 255")

    def test_headers(self):
        """What is found, where, and what is expected."""
        expected = "is not the header identifier,kind,periods,payments,coupon,yield, of which payments may be left out: "
        for row, words in (
                ("identifier;kind;periods;coupon;yield", "its cells are parted by semicolons, not by commas"),
                ("identifier\tkind\tperiods\tcoupon\tyield", "its cells are parted by tabs, not by commas"),
                ("identifier,kind,periods,yield,coupon", "column 4 is 'yield', and payments or coupon is expected there"),
                ("identifier,kind,periods,payment,coupon,yield", "column 4 is 'payment', and payments or coupon is expected there"),
                ("identifier,kind,coupon", "it has no periods and no yield"), ("ISIN,kind,periods,coupon,yield", "it has no identifier"),
                ("identifier,kind,periods,coupon,yield,price", "column 6 is 'price', and there are 5 columns"),
                ("identifier,kind,periods,coupon,yield,payments", "column 4 is 'coupon', and payments is expected there"),
                ("identifier,kind,payments,coupon,yield", "it has no periods"),
                ("identifier,kind,periods,payments,coupon,yield,price", "column 7 is 'price', and there are 6 columns"),
                (GOOD.strip(), "it has none of the columns")):
            done, written = self.make("# a comment\n\n" + row + "\n" + GOOD)
            self.assert_lines(done, "row 3: '" + row.replace("\t", "<a tab>") + "' " + expected + words, str(self.folder))
            self.assertIsNone(written)
        self.assert_refused("# machines 3\n", "the header identifier,kind,periods,payments,coupon,yield is missing")
        self.assert_refused(HEADER + GOOD.replace(",", ";"), "row 2: its cells are parted by semicolons, not by commas")
        self.assert_refused(WITH_PAYMENTS + GOOD, "row 2: 5 cells, and the header has 6")
        self.assert_refused(HEADER + "ZZ0000000016,fixed,2,2,4,0\n", "row 2: 6 cells, and the header has 5")

    def test_rates_in_the_other_unit(self):
        """A warning stops nothing. Document 01's examples, with a yield of 0.5, have none."""
        coupon = "warning: row 3, column coupon: 0.045 is taken as 0.045 per 100 of face; a coupon of 4.5 percent is written 4.5"
        ytm = "warning: row 3, column yield: 0.95 is taken as 95 percent; a yield of 0.95 percent is written 0.0095"
        low = "warning: row 3, column yield: -0.25 is taken as -25 percent; a yield of -0.25 percent is written -0.0025"
        for terms, lines in (("fixed,2,0.045,0.05", [coupon]), ("fixed,2,4,0.95", [ytm]), ("zero,2,,0.95", [ytm]), ("fixed,2,0.045,0.95", [coupon, ytm]),
                             ("fixed,2,4,-0.25", [low]), ("zero,2,,-0.25", [low]), ("fixed,2,0.045,-0.25", [coupon, low]),
                             ("fixed,2,0.25,0.5", []), ("fixed,2,0,0", []), ("zero,2,,0.5", []), ("fixed,2,100,0.05", []),
                             ("fixed,1,3,-0.0015", []), ("fixed,2,4,-0.01", []), ("zero,2,,-0.0", [])):
            done, written = self.make(f"# machines 4\n{HEADER}ZZ0000000016,{terms}\n")
            said = [line.split(": ", 1)[1] for line in done.stderr.decode().splitlines()]
            self.assertEqual((done.returncode, said), (0, lines), terms)
            self.assertEqual(book_bytes.number_of(written), 0)
        for terms, words in (("fixed,2,0.04123456789,0", "a coupon of 4.123456789 percent is written 4.123456789"),
                             ("fixed,2,4,0.9512345678", "is taken as 95.12345678 percent; a yield of 0.9512345678 percent is written 0.009512345678"),
                             ("fixed,2,4,-0.010001", "is taken as -1.0001 percent; a yield of -0.010001 percent is written -0.00010001"),
                             ("fixed,2,4,-0.5", "is taken as -50 percent; a yield of -0.5 percent is written -0.005")):
            self.assertIn(words, self.make(f"# machines 4\n{HEADER}ZZ0000000016,{terms}\n")[0].stderr.decode())
        done = self.make(f"# machines 4\n{HEADER}ZZ0000000016,fixed,2,4,-0.75\n", "--anyway")[0]
        self.assertEqual((done.returncode, done.stderr.count(b"warning")), (0, 0))  # it is refused 7, whatever the unit
        rows = "".join(f"{name.decode()},fixed,2,0.01,0.99\n" for name in names(64))
        done = self.make("# machines 4\n" + HEADER + rows)[0]
        self.assertEqual((done.returncode, len(done.stderr.splitlines())), (0, 21))
        self.assertIn(b"and 108 more warnings", done.stderr)

    def test_too_many_bonds(self):
        """Refused at once, whatever else is wrong with them."""
        self.assert_lines(self.make(HEADER + GOOD * 60000)[0], "60000 bonds, and a book has 64 at most (refused 2)", str(self.folder))
        done, written = self.make(HEADER + GOOD * 60000, "--anyway")
        self.assertEqual((done.returncode, len(written)), (0, 4 + 31 * 60000))

    def test_the_first_faults_are_named(self):
        lines = [f"row {row}, column identifier" for row in range(3, 23)]
        self.assert_lines(self.make(HEADER + GOOD * 64)[0], *lines, "and 43 more faults", str(self.folder))
        comments = "# machines many\n" * 21
        self.assert_lines(self.make(comments + HEADER)[0], *(f"row {row}: " for row in range(1, 21)), "and 1 more fault", str(self.folder))

    def test_statuses(self):
        """3 where the book is refused or would be, 1 where a cell has no meaning."""
        for text, options, status in (
                (HEADER + GOOD, [], 0), (HEADER + GOOD + GOOD, [], 3), (HEADER + GOOD, ["--machines=1"], 3), (HEADER + GOOD * 65, [], 3),
                (HEADER + GOOD + GOOD, ["--anyway"], 0), (HEADER + "ZZ0000000016,bill,2,4,0\n", [], 1), (HEADER + "ZZ0000000017,bill,2,4,0\n", [], 3),
                ("# machines many\n" + HEADER, [], 1), (GOOD, [], 1), (HEADER + GOOD, ["--machines=x"], 2)):
            self.assertEqual(self.make(text, *options)[0].returncode, status, (text, options))
        for data, status in ((book.make(LISTING_BOOK), 0), (b"", 3), (book.make(LISTING_BOOK)[:-1], 3), (b"\x02\0\x01\0" + bytes(31), 3)):
            self.assertEqual(tool("book.py", "show", self.file("s.bin", data)).returncode, status)

    def test_every_fault_is_named(self):
        text = HEADER + "ZZ0000000017,fixed,0,101,2\n# between\n" + GOOD + GOOD
        self.assert_refused(text, "row 2, column identifier", "row 2, column periods", "row 2, column coupon", "row 2, column yield",
                            "row 5, column identifier", "refused 5", "refused 6", "refused 7", "book.bin is not written")

    def test_cells_without_meaning(self):
        for row, words in (
                ("ZZ0000000016,bill,2,4,0", "row 2, column kind"), ("ZZ0000000016,2,2,4,0", "row 2, column kind"),
                ("ZZ0000000016,fixed,two,4,0", "row 2, column periods"), ("ZZ0000000016,fixed,2.5,4,0", "row 2, column periods"),
                ("ZZ0000000016,fixed,2,,0", "row 2, column coupon"), ("ZZ0000000016,fixed,2,4%,0", "row 2, column coupon"),
                ("ZZ0000000016,fixed,2,4,", "row 2, column yield"), ("ZZ0000000016,fixed,2,4", "row 2: 4 cells"),
                ('"ZZ0000000016', "not a CSV file: line 2: "),
                ("ZZ0000000016,fixed,2, ,0", "row 2, column coupon: an empty cell is not a number"),
                ("ZZ0000000016,fixed,2,4.5%,0", "coupon: '4.5%' is not a number; 4.5 percent is written 4.5"),
                ("ZZ0000000016,fixed,2,4,4.123456789 %", "yield: '4.123456789 %' is not a number; 4.123456789 percent is written 0.04123456789"),
                ("ZZ0000000016,fixed,2,4,-0.12 %", "yield: '-0.12 %' is not a number; -0.12 percent is written -0.0012"),
                ("ZZ0000000016,fixed,2,4,-3%", "yield: '-3%' is not a number; -3 percent is written -0.03"),
                ("ZZ0000000016,fixed,2,4,\u22120.0012", "yield: '\u22120.0012' is not a number: character 1 is minus sign (U+2212)"),
                ('ZZ0000000016,fixed,2,"4,5",0', "coupon: '4,5' is not a number; decimals are written with a point"),
                ("ZZ0000000016,fixed,2,4,5,0", "row 2: 6 cells, and the header has 5; decimals are written with a point"),
                ("ZZ0000000016;fixed;2;4,5;0,05", "row 2: its cells are parted by semicolons, not by commas"),
                ("ZZ0000000016,fixed,2,4,0,a;b", "row 2: 6 cells"),
                ("ZZ0000000016,fixed,2,4,0\u20245", "row 2, column yield: '0\u20245' is not a number: character 2 is one dot leader (U+2024)")):
            self.assert_refused(HEADER + row + "\n", words)
        for terms in ("-4.5%,0", "100.1%,0", "4,--3%", "4,-50.1%", "4,150 %"):  # none has a form that is accepted
            self.assertNotIn(b"is written", self.make(HEADER + "ZZ0000000016,fixed,2," + terms + "\n")[0].stderr)
        for text in ("", GOOD, "identifier,kind,periods,yield,coupon\n" + GOOD):
            self.assert_refused(text, "header")

    def test_every_cell_without_meaning_is_named(self):
        """In the order of rows and columns, among the cells that have a meaning and are refused."""
        text = (HEADER + "ZZ0000000017,bill,2.5,4%,no\nZZ0000000016,fixed\n# machines many\n" + GOOD + "ZZ0000000016,bill,0,,2\n")
        rows = ["row 2, column kind", "row 2, column periods", "row 2, column coupon", "row 2, column yield", "row 3: 2 cells", "row 4: "]
        self.assert_lines(self.make(text, "--anyway")[0], *rows, "row 6, column kind", str(self.folder))
        self.assert_lines(self.make(text)[0], "row 2, column identifier", *rows, "row 6, column identifier", "row 6, column kind",
                          "row 6, column periods", "row 6, column yield", str(self.folder))

    def test_digits_are_plain(self):
        for row, column in (("fixed,2_0,4,0", "periods"), ("fixed,\u0662,4,0", "periods"), ("fixed,2,1_0,0", "coupon"), ("fixed,2,\uff14,0", "coupon"),
                            ("fixed,2,4,0.0_5", "yield"), ("fixed,2,4,\u0660", "yield")):
            for options in ((), ("--anyway",)):
                self.assert_refused(HEADER + f"ZZ0000000016,{row}\n", f"row 2, column {column}", options=options)
        self.assert_refused(HEADER + "ZZ0000000016,\u0662,2,4,0\n", "row 2, column kind", options=["--anyway"])
        for count in ("1_0", "\u0664"):
            self.assert_refused(HEADER + GOOD, "whole number", options=["--machines", count])
        self.assertEqual(book.make(HEADER + "ZZ0000000016,Fixed, +2 ,\u00a04e0,.0\n"), book.make(HEADER + GOOD))

    def test_an_old_book_is_left(self):
        self.assertNotIn(b"old", self.make(HEADER + SECOND + SECOND)[0].stderr)
        old = self.make(HEADER + GOOD)[1]
        done, written = self.make(HEADER + SECOND + SECOND)
        self.assert_message(done, "book.bin is not written; the old one is left as it was")
        self.assertEqual(written, old)

    def test_anyway(self):
        for row, number in (("ZZ000000016 ,fixed,2,4,0", 4), ("ZZ0000000017,fixed,2,4,0", 5), ("Z,3,255,nan,9", 4), ("ZZ0000000016,3,2,4,0", 7),
                            ("ZZ0000000016,fixed,241,4,0", 7), ("ZZ0000000016,zero,2,-0.0,0", 7)):
            done, written = self.make(HEADER + row + "\n", "--anyway")
            self.assertEqual((done.returncode, book_bytes.number_of(written)), (0, number))
            self.assertIn(f"refused {number}", done.stderr.decode())
        self.assertEqual(book_bytes.number_of(self.make(HEADER + GOOD + GOOD, "--anyway")[1]), 6)
        self.assertEqual(book_bytes.number_of(self.make(HEADER + GOOD, "--anyway", "--machines", "1")[1]), 2)
        (self.folder / "book.bin").unlink()
        text = HEADER + GOOD + "ZZ0000000016,700,256,4,0\nZZ0000000016,fixed,-1,4,0\n"
        self.assert_lines(self.make(text, "--anyway", "--machines=99999")[0], "machines: 99999 does not fit", "row 3, column kind: 700 does not fit",
                          "row 3, column periods: 256 does not fit into its place, which takes 0 to 255", "row 4, column periods: -1", str(self.folder))
        self.assert_refused(HEADER + GOOD * 65536, "bonds: 65536 does not fit into its place, which takes 0 to 65535", options=["--anyway"])
        self.assert_refused(HEADER + GOOD, "machines: 999", "999... does not fit", options=["--anyway", "--machines=" + "9" * 5000])

    def test_show_of_faulty_books(self):
        good = book.make(LISTING_BOOK)
        for number, data in (
                (1, b""), (1, good[:3]), (2, b"\x01" + good[1:]), (2, good[:2] + b"\xff\xff"), (3, good[:-1]), (3, good + b"\0"),
                (4, good[:14] + b"\xff" + good[15:]), (5, good[:15] + b"7" + good[16:]), (6, good[:16] + good[4:16] + good[28:]),
                (7, good[:28] + b"\x09" + good[29:]), (7, good[:30] + b"\x03" + good[31:])):
            self.assertEqual(book_bytes.number_of(data), number)
            self.assert_message(tool("book.py", "show", self.file("f.bin", data)), f"refused {number}")
        long = tool("book.py", "show", self.file("f.bin", good + bytes(100000)))
        self.assertEqual(long.returncode, 3)
        self.assert_message(long, "f.bin: more than 1988 bytes, and a book of 2 bonds has 66 (refused 3)")

    def test_show_of_control_characters(self):
        data = book.make(LISTING_BOOK).replace(b"ZZ0000000024", b"\0\x1b[31m\r\n\x7f\xff\t,")
        done = tool("book.py", "show", self.file("f.bin", data))
        self.assert_message(done, "refused 4")
        self.assertEqual(done.stdout.decode().splitlines()[3], '"\\x00\\x1b[31m\\x0d\\x0a\\x7f\\xff\\x09,",zero,2,,0.5')


class Adding(Folder):
    """Document 02, 2.2: the writer, and the command that adds a bond."""

    def add(self, row):
        return tool("book.py", "add", self.folder / "book.bin", row)

    def assert_added(self, old, row, new):
        """The new bytes are there, and nothing was said."""
        path = self.file("book.bin", old)
        done = self.add(row)
        self.assertEqual((done.returncode, done.stdout, done.stderr, path.read_bytes()), (0, b"", b"", new), row)

    def assert_refused(self, old, row, status, *lines):
        """The old bytes are there, and the lines say why."""
        path = self.file("book.bin", old)
        done = self.add(row)
        self.assert_lines(done, *lines, f"{path} is not written; the old one is left as it was")
        self.assertEqual((done.returncode, path.read_bytes()), (status, old), row)

    def test_numbers_and_buffers_are_those_of_writer_cases(self):
        cases = list(writer_cases())
        self.assertEqual(len(cases), 620)
        for call, number, after in cases:
            self.assertEqual(book_bytes.added(*call), (number, after))

    def test_every_accepted_book_is_built_from_its_empty_one(self):
        accepted = [data for number, data in book_cases() if number == 0]
        for data in accepted:
            n, rest = data[2], bytes(range(1, 10))
            buffer = data[:2] + b"\0\0" + b"\xee" * (31 * n) + rest
            for i in range(n):
                term = data[4 + 12 * n + 19 * i:][:19]
                number, buffer = book_bytes.added(buffer, 4 + 31 * i, data[4 + 12 * i:16 + 12 * i], term)
                self.assertEqual(number, 0)
            self.assertEqual(buffer, data + rest)

    def test_a_count_near_the_largest(self):
        """It is past the end of any buffer."""
        good = book.make(LISTING_BOOK)
        for count in (len(good) + 32, 2 ** 32, 2 ** 63, 2 ** 64 - 31, 2 ** 64 - 1):
            self.assertEqual(book_bytes.added(good + bytes(31), count, b"", b""), (3, good + bytes(31)))

    def test_the_sample_close_row_by_row(self):
        text = (SAMPLE / "book.csv").read_text(encoding="utf-8")
        rows = [line for line in text.splitlines() if not line.startswith("#")]
        data = book.make(f"# machines 4\n{rows[0]}\n")
        self.assertEqual(data, b"\4\0\0\0")
        for place, row in enumerate(rows[1:], 1):
            grown = book.make("\n".join(["# machines 4", *rows[:place + 1], ""]))
            self.assert_added(data, row, grown)
            data = grown
        self.assertEqual((len(rows), data), (21, book.make(text)))

    def test_from_a_file_without_rows(self):
        """Whatever the machine count; the cells with payments or without."""
        for machines in (2, 16):
            path = self.file("b.csv", f"# machines {machines}\n" + HEADER)
            self.assertEqual(tool("book.py", "make", path, self.folder / "book.bin").returncode, 0)
            for row in (GOOD, SECOND.replace(",,", ",12,,")):
                self.assertEqual(self.add(row.strip()).returncode, 0)
            made = book.make(f"# machines {machines}\n" + WITH_PAYMENTS + GOOD.replace(",4,", ",,4,") + SECOND.replace(",,", ",12,,"))
            self.assertEqual((self.folder / "book.bin").read_bytes(), made)

    def test_payments(self):
        """An empty cell is the byte 0, and 2 is the byte 2."""
        empty = book.make("# machines 2\n" + HEADER)
        for cell, byte in (("", 0), ("1", 1), ("2", 2), ("4", 4), ("12", 12)):
            self.assert_added(empty, f"ZZ0000000016,fixed,2,{cell},4,0", b"\2\0\1\0ZZ0000000016\2\2" + bytes([byte]) + struct.pack("<dd", 4.0, 0.0))
        allowed = " is none of 1, 2, 4 and 12 payments a year; an empty cell is 2"
        self.assert_refused(empty, "ZZ0000000016,fixed,2,3,4,0", 3, f"row 3, column payments: 3{allowed} (refused 7)")
        self.assert_refused(empty, "ZZ0000000016,fixed,2,0,4,0", 1, f"row 3, column payments: 0{allowed}")

    def test_refused_2(self):
        """Of a book of 64 bonds, before the row is looked at."""
        rows = [f"{name.decode()},zero,1,,0\n" for name in names(65)]
        most = book.make("# machines 2\n" + HEADER + "".join(rows[:63]))
        full = book.make("# machines 2\n" + HEADER + "".join(rows[:64]))
        self.assert_added(most, rows[63].strip(), full)
        for row in (rows[64].strip(), rows[0].strip(), "Z,bill,0,,9", "no row"):
            self.assert_refused(full, row, 3, "65 bonds, and a book has 64 at most (refused 2)")

    def test_refused_4_to_7(self):
        """By the cell, in the row that show would print last."""
        old = book.make(LISTING_BOOK)
        for row, *lines in (
                ("zz0000000032,fixed,2,4,0", "identifier: 'zz0000000032' is no identifier: character 1 is 'z', and A to Z is expected there; did you "
                                             "mean ZZ0000000032? (refused 4)"),
                ("zz0000000016,fixed,2,4,0", "identifier: 'zz0000000016' is no identifier: character 1 is 'z', and A to Z is expected there; as "
                                             "ZZ0000000016 it is the identifier of row 3 too (refused 4)"),
                ("ZZ000000003,fixed,2,4,0", "identifier: 'ZZ000000003' is no identifier: it has 11 characters, and an identifier has 12 (refused 4)"),
                ("ZZ00000000320,fixed,2,4,0", "identifier: 'ZZ00000000320' is no identifier: character 13 is '0'"),
                (os.fsdecode(b"ZZ000\xff000032,fixed,2,4,0"), "identifier: 'ZZ000<the byte 255>000032' is no identifier: character 6 is the byte 255"),
                (",fixed,2,4,0", "identifier: '' is no identifier: it has 0 characters"),
                ("ZZ0000000033,fixed,2,4,0", "identifier: the check digit of ZZ0000000033 is 2 (refused 5)"),
                ("ZZ0000000016,fixed,2,4,0", "identifier: ZZ0000000016 is the identifier of row 3 too (refused 6)"),
                ("ZZ0000000024,fixed,2,4,0", "identifier: ZZ0000000024 is the identifier of row 4 too (refused 6)"),
                ("ZZ0000000032,fixed,241,4,0", "periods: 241 is outside 1 to 240 (refused 7)"),
                ("ZZ0000000032,zero,2,-0.0,0", "coupon: a zero has no coupon, and this is -0.0 (refused 7)"),
                ("ZZ0000000032,fixed,2,4,4.25", "yield: 4.25 is outside -0.5 to 1; 4.25 percent is written 0.0425 (refused 7)"),
                ("ZZ0000000016,fixed,0,101,2", "identifier: ", "periods: 0 ", "coupon: 101 ", "yield: 2 "),
                ("ZZ0000000033,bill,2,4,0", "identifier: ", "kind: 'bill' is neither zero nor fixed")):
            self.assert_refused(old, row, 3, *(f"row 5, column {line}" for line in lines))

    def test_faulty_books(self):
        """By their own number, whatever the row says."""
        good = book.make(LISTING_BOOK)
        for number, data in (
                (1, b""), (1, good[:3]), (2, b"\x01" + good[1:]), (2, good[:2] + b"\xff\xff"), (3, good[:-1]), (3, good + b"\0"), (3, good + bytes(5000)),
                (4, good[:14] + b"\xff" + good[15:]), (5, good[:15] + b"7" + good[16:]), (6, good[:16] + good[4:16] + good[28:]),
                (7, good[:28] + b"\x09" + good[29:])):
            for row in ("ZZ0000000032,fixed,2,4,0", "Z,bill"):
                self.assert_refused(data, row, 3, f"{self.folder / 'book.bin'} is a faulty book: ")
                self.assert_message(self.add(row), f"(refused {number})")

    def test_rows_without_meaning(self):
        old = book.make(LISTING_BOOK)
        expected = ", and a row has 5, or 6 with payments after periods"
        for row, line in (
                ("", "0 rows, and one is added at a time"), (" , ,", "0 rows"), ("ZZ0000000032,fixed,2,4,0\nZZ0000000040,fixed,2,4,0", "2 rows"),
                ("ZZ0000000032", f"row 5: 1 cell{expected}"), ("ZZ0000000032,fixed,2,4", f"row 5: 4 cells{expected}"),
                ("ZZ0000000032,fixed,2,,4,5,0", f"row 5: 7 cells{expected}; decimals are written with a point"),
                ("ZZ0000000032;fixed;2;4,5;0,05", "row 5: its cells are parted by semicolons, not by commas"),
                ("ZZ0000000032,fixed,2,4,0,", "row 5, column yield: an empty cell is not a number"),
                ("ZZ0000000032,bill,2,4,0", "row 5, column kind: 'bill' is neither zero nor fixed"),
                ("ZZ0000000032,2,2,4,0", "row 5, column kind: '2' is neither zero nor fixed"),
                ("ZZ0000000032,fixed,two,4,0", "row 5, column periods: 'two' is not a whole number"),
                ("ZZ0000000032,fixed,2,4.5%,0", "row 5, column coupon: '4.5%' is not a number; 4.5 percent is written 4.5"),
                ('ZZ0000000032,fixed,2,"4,5",0', "row 5, column coupon: '4,5' is not a number; decimals are written with a point"),
                ('"ZZ0000000032', "not a row of CSV: line 1: ")):
            self.assert_refused(old, row, 1, line)
        for row in ('"ZZ0000000032","Fixed",+2, 4e0 ,.0', "ZZ0000000032,fixed,2,,4,0,,", "\nZZ0000000032,fixed,2,4,0\n"):
            self.assert_added(old, row, book.make(LISTING_BOOK + "ZZ0000000032,fixed,2,4,0\n"))

    def test_rates_in_the_other_unit(self):
        """A warning stops nothing."""
        old = book.make(LISTING_BOOK)
        coupon = "warning: row 5, column coupon: 0.045 is taken as 0.045 per 100 of face; a coupon of 4.5 percent is written 4.5"
        ytm = "warning: row 5, column yield: 0.95 is taken as 95 percent; a yield of 0.95 percent is written 0.0095"
        path = self.file("book.bin", old)
        done = self.add("ZZ0000000032,fixed,2,0.045,0.95")
        self.assertEqual((done.returncode, done.stderr.decode()), (0, f"book.py: {coupon}\nbook.py: {ytm}\n"))
        self.assertEqual(path.read_bytes(), book.make(LISTING_BOOK + "ZZ0000000032,fixed,2,0.045,0.95\n"))

    def test_the_file_is_replaced_whole(self):
        """With its mode, also behind a link; on a full disk the old book stays."""
        old, row = book.make(LISTING_BOOK), "ZZ0000000032,fixed,2,4,0"
        path = self.file("far.bin", old)
        path.chmod(0o604)
        (self.folder / "book.bin").symlink_to("far.bin")
        done = tool("book.py", "add", self.folder / "book.bin", row, before=small_files)
        self.assert_lines(done, f"{self.folder / 'book.bin'} cannot be written: File too large")
        self.assertEqual((done.returncode, path.read_bytes()), (1, old))
        self.assertEqual(self.add(row).returncode, 0)
        self.assertEqual((path.read_bytes(), path.stat().st_mode & 0o7777), (book.make(LISTING_BOOK + row + "\n"), 0o604))
        self.assertEqual({file.name for file in self.folder.iterdir()}, {"book.bin", "far.bin"})

    def test_statuses(self):
        """1 where the book cannot be read, 2 for a wrong command."""
        none = self.folder / "none"
        self.assert_lines(tool("book.py", "add", none, GOOD), f"{none} cannot be read: No such file or directory")
        for arguments, status in (([none, GOOD], 1), ([self.folder, GOOD], 1), ([none], 2), (["", GOOD], 2), ([none, GOOD, GOOD], 2)):
            self.assertEqual(tool("book.py", "add", *arguments).returncode, status)
        self.assertFalse(none.exists())


class Events(Folder):
    def test_words(self):
        text = "admit 0\nsteal 2 from 0\ndeliver 1 to 0\nstart 2 job 0\ndone 2\ndie 3\nnotice 0 of 3\njoin 4\nraw 9 9 9\nraw 1 2\n"
        data = bytes([1, 0, 0, 2, 2, 0, 3, 1, 0, 4, 2, 0, 5, 2, 0, 6, 3, 0, 7, 0, 3, 8, 4, 0, 9, 9, 9, 1, 2])
        self.assertEqual(events.make(text), data)
        self.assertEqual(events.show(data), text)
        self.assertEqual(events.make("  admit   0 # one\r\n\r\n#none\n\tdone 2"), bytes([1, 0, 0, 5, 2, 0]))

    def test_any_bytes_come_back(self):
        rng = random.Random(1)
        self.assertEqual(events.make(events.show(b"")), b"")
        for _ in range(300):
            data = bytes(rng.choice([rng.randrange(9), rng.randrange(256)]) for _ in range(rng.randrange(40)))
            self.assertEqual(events.make(events.show(data)), data)

    def test_every_event_comes_back(self):
        data = b"".join(bytes([code, a, b]) for code in range(10) for a in (0, 1, 255) for b in (0, 1, 255))
        self.assertEqual(events.make(events.show(data)), data)

    def test_joins(self):
        """Document 02, 2.6: code 8, and b is unused: with another b than 0 no word stands for it."""
        for data, text in ((bytes([8, 4, 0]), "join 4\n"), (bytes([8, 255, 0]), "join 255\n"), (bytes([8, 1, 5]), "raw 8 1 5\n"),
                           (bytes([8, 1]), "raw 8 1\n")):
            self.assertEqual((events.show(data), events.make(text)), (text, data))
        self.assertEqual(events.make("raw 8 4 0\n"), bytes([8, 4, 0]))
        self.assertIn("    join 4 ", tool("events.py", "--help").stdout.decode())

    def test_faults(self):
        for line in ("admit", "admit x", "admit -1", "admit 256", "admit 0 0", "steal 1 0", "steal 1 to 0", "Admit 0", "raw", "raw 256", "raw 1 2 3 4",
                     "raw 1", "die", "notice 1 of", "join", "join 4 0", "join 256", "join machine 4", "admit 99999999999999999999", "admit \u0661",
                     "0 0 0"):
            path = self.file("e.txt", "admit 0\n\n" + line + "\nadmit 1\n")
            self.assert_message(tool("events.py", "make", path, self.folder / "events.bin"), "line 3", "not written")
            self.assertFalse((self.folder / "events.bin").exists())

    def test_faults_say_why(self):
        for line, words in (
                ("admit 256", "'256' is above 255"), ("raw 1 2 300", "'300' is above 255"), ("die " + "9" * 5000, "999...' is above 255"),
                ("Steal 1 from 0", "words are lower case; did you mean steal 1 from 0?"), ("steal 1 FROM 0", "did you mean steal 1 from 0?"),
                ("steal 1 0", "it is written steal MACHINE from MACHINE"), ("admit", "it is written admit ENTRY"),
                ("admit US0378331005", "'US0378331005' is not an entry number 0 to 255: the bond's place in the book, counted from 0"),
                ("start 1 job US0378331005", "'US0378331005' is not an entry number"), ("Admit zero", "'zero' is not an entry number"),
                ("admit -1", "'-1' is not an entry number"), ("steal one from 0", "'one' is not a machine number 0 to 255"),
                ("admit \uff10", "character 7 is fullwidth digit zero (U+FF10)"), ("admit 0\u200b", "character 8 is zero width space (U+200B)"),
                ("raw 1 2 3 4", "raw BYTE BYTE BYTE"), ("raw x", "'x' is not a byte"), ("RAW 1 2 3", "did you mean raw 1 2 3?"),
                ("ADMIT 256", "words are lower case, and '256' is above 255"), ("steal 256 FROM 0", "words are lower case, and '256' is above 255"),
                ("RAW 1 2", "words are lower case; did you mean raw 1 2?"),
                ("STEAL 1", "words are lower case, and it is written steal MACHINE from MACHINE"),
                ("join four", "'four' is not a machine number 0 to 255"), ("Join 4", "words are lower case; did you mean join 4?"),
                ("join 4 5", "it is written join MACHINE"),
                ("stael 1 from 0", "'stael' is none of admit, steal, deliver, start, done, die, notice, join, raw")):
            with self.assertRaises(desk.Stop) as found:
                events.make(line)
            self.assertIn("line 1: ", str(found.exception))
            self.assertIn(words, str(found.exception))
        self.assertEqual(events.make("admit " + "0" * 5000 + "7"), bytes([1, 7, 0]))

    def test_faults_are_in_the_order_of_lines(self):
        self.file("events.bin", b"old")
        done = tool("events.py", "make", self.file("e.txt", "admit\nraw 1\n\nraw 256\nraw 1 2\nsteal\n"), self.folder / "events.bin")
        self.assert_lines(done, "line 1", "line 2", "line 4", "line 5", "line 6", str(self.folder))
        self.assert_message(done, "events.bin is not written; the old one is left as it was")

    def test_the_first_faults_are_named(self):
        lines = [f"line {place}: " for place in range(1, 21)]
        for count, more in ((20, []), (21, ["and 1 more fault"]), (200000, ["and 199980 more faults"])):
            done = tool("events.py", "make", self.file("e.txt", "admit x\n" * count), self.folder / "events.bin")
            self.assert_lines(done, *lines, *more, str(self.folder))

    def test_commands(self):
        path = self.file("e.txt", LISTING_EVENTS)
        self.assertEqual(tool("events.py", "make", path, self.folder / "events.bin").returncode, 0)
        self.assertEqual((self.folder / "events.bin").read_bytes(), bytes(byte for event in LISTING_BYTES for byte in event))
        shown = tool("events.py", "show", self.folder / "events.bin").stdout.decode()
        self.assertEqual(shown.splitlines()[1], "steal 1 from 0")

    def test_a_list_too_long_is_told(self):
        for length, count in ((60000, None), (60001, 20001), (60003, 20001), (60004, 20002)):
            data = self.file("events.bin", bytes(length))
            told = f"warning: {data} has {count} events: the first 20000 are read\n" if count else ""
            made = tool("events.py", "make", self.file("e.txt", events.show(bytes(length))), data)
            shown = tool("events.py", "show", data)
            self.assertEqual([(done.returncode, done.stderr.decode()) for done in (made, shown)], [(0, "events.py: " * bool(count) + told)] * 2)

    def test_a_list_without_events_is_told(self):
        done = tool("events.py", "make", self.file("e.txt", "# none\n\n"), self.folder / "events.bin")
        self.assertEqual((done.returncode, done.stderr), (0, b"events.py: warning: no events\n"))
        self.assertEqual((self.folder / "events.bin").read_bytes(), b"")


class Model(Folder):
    def test_listing(self):
        self.file("book.bin", book.make(LISTING_BOOK))
        self.file("events.bin", events.make(LISTING_EVENTS))
        self.assertEqual(tool("model.py", self.folder).stdout.decode(), LISTING_PAGE)

    def test_programs(self):
        """The pages that the programs must print; test_no_files has no folder of data."""
        for crate, status in (("rakhvide", 0), ("rakhvide_sample", 0), ("test_refused_book", 3), ("test_long_list", 0), ("test_broken_event", 0),
                              ("test_turned_back", 0), ("test_full_channel", 0), ("test_empty_book", 0), ("test_still_open", 0), ("test_joins", 0)):
            done = tool("model.py", CRATES / crate / "data")
            self.assertEqual((done.stdout, done.returncode), ((CRATES / crate / "stdout").read_bytes(), status))
            self.assertEqual(b"events.bin has 20002 events: the first 20000 are read\n" in done.stderr, crate == "test_long_list")
            self.assertEqual(len(done.stderr.splitlines()), crate == "test_long_list")
        self.assertEqual(tool("model.py", self.folder).stdout, (CRATES / "test_no_files" / "stdout").read_bytes())
        self.assertFalse((CRATES / "test_no_files" / "data").exists())

    def test_program_files(self):
        """The bytes that the pages of test_long_list and test_broken_event are about."""
        data = (CRATES / "test_long_list" / "data" / "events.bin").read_bytes()
        self.assertEqual((len(data), events.show(data[59997:])), (60006, "die 0\nadmit 0\ndie 0\n"))
        self.assertEqual((CRATES / "test_broken_event" / "data" / "events.bin").read_bytes()[9:], bytes([1, 1]))

    def test_decimal(self):
        self.file("book.bin", book.make(LISTING_BOOK))
        self.file("events.bin", events.make(LISTING_EVENTS))
        shown = tool("model.py", self.folder, "--decimal").stdout.decode()
        self.assertEqual(shown, LISTING_PAGE.replace("405A000000000000 ", "405A000000000000 104.0 "))
        data = CRATES / "rakhvide_sample" / "data"
        lines = [line.split() for line in tool("model.py", "--decimal", data).stdout.decode().splitlines()]
        priced = [words for words in lines if words[1] == "priced"]
        self.assertTrue(priced)
        for _, _, bits, decimal, *_ in priced:
            self.assertEqual(struct.pack(">d", float(decimal)).hex().upper(), bits)

    def test_prices(self):
        terms = [(book_bytes.FIXED, 2, 0, 4.0, 0.0), (book_bytes.ZERO, 2, 0, 0.0, 0.5), (book_bytes.FIXED, 1, 0, 10.0, 0.5)]
        self.assertEqual([model.price_of(entry) for entry in entries_of(terms)], [104, 64, 84])
        terms = [(book_bytes.FIXED, 1, 0, 10.0, -0.25), (book_bytes.FIXED, 1, 0, 100.0, -0.5), (book_bytes.ZERO, 1, 0, 0.0, -0.4375)]
        self.assertEqual([model.price_of(entry) for entry in entries_of(terms)], [120, 200, 128])  # by hand: no step is rounded
        terms = [(book_bytes.ZERO, 1, 1, 0.0, -0.5), (book_bytes.FIXED, 2, 1, 50.0, -0.5), (book_bytes.ZERO, 2, 4, 0.0, 1.0),
                 (book_bytes.FIXED, 1, 4, 20.0, 1.0), (book_bytes.FIXED, 2, 12, 12.0, 0.0), (book_bytes.FIXED, 1, 12, 9.0, -0.375),
                 (book_bytes.FIXED, 2, 2, 4.0, 0.0), (book_bytes.ZERO, 2, 2, 0.0, 0.5)]
        self.assertEqual([model.price_of(entry) for entry in entries_of(terms)], [200, 700, 64, 84, 102, 104, 104, 64])  # by hand too

    def table(self, text, machines=3):
        """The table after a list of events, all of which are accepted."""
        table = model.Table(machines, book_bytes.parts(book.make(LISTING_BOOK))[1])
        for event in events.events_of(events.make(text)):
            self.assertEqual(table.step(event), (0, ""))
        return table

    def test_dead_thief(self):
        """Its REQ reaches a root already told: DENIED."""
        table = self.table("admit 0\nsteal 1 from 0\ndeliver 1 to 0\ndie 1\nnotice 0 of 1\n")
        self.assertEqual([m.kind for m in table.flight], ["REQ"])
        self.assertEqual(table.step(bytes([3, 0, 0])), (0, ""))
        self.assertEqual([m.kind for m in table.flight], ["DENIED"])

    def test_late_ack(self):
        """With an old replica: place unchanged. Bond 0 goes from 0 to 2 and on to 1, whose ACK comes after the notice that 2 is dead."""
        table = self.table("admit 0\nsteal 2 from 0\ndeliver 2 to 0\ndeliver 0 to 0\ndeliver 0 to 0\ndeliver 0 to 2\ndeliver 2 to 0\n"
                           "steal 1 from 2\ndeliver 1 to 2\ndeliver 2 to 0\ndeliver 0 to 2\ndeliver 2 to 1\ndie 2\nnotice 0 of 2\n")
        self.assertEqual([(m.kind, m.replica) for m in table.flight], [("ACK", 1)])
        self.assertEqual((table.jobs[0].replica, table.jobs[0].place), (2, (0,)))
        self.assertEqual(table.step(bytes([3, 1, 0])), (0, ""))
        self.assertEqual((table.jobs[0].replica, table.jobs[0].place), (2, (0,)))

    def test_first_result_wins(self):
        """Two copies of bond 0 run; the second RESULT finds it priced."""
        table = self.table("admit 0\nsteal 1 from 0\ndeliver 1 to 0\ndeliver 0 to 0\ndeliver 0 to 0\ndeliver 0 to 1\ndeliver 1 to 0\nsteal 2 from 1\n"
                           "deliver 2 to 1\ndeliver 1 to 0\ndeliver 0 to 1\ndeliver 1 to 2\ndie 1\nnotice 0 of 1\n"
                           "start 0 job 0\nstart 2 job 0\ndone 0\ndone 2\ndeliver 0 to 0\ndeliver 2 to 0\n")
        self.assertEqual([(m.kind, m.replica) for m in table.flight], [("RESULT", 1)])
        table.flight[0].price = 1.0
        self.assertEqual(table.step(bytes([3, 2, 0])), (0, ""))
        self.assertEqual((table.jobs[0].state, table.jobs[0].price, table.jobs[0].replica), (model.PRICED, 104.0, 2))

    def test_an_old_auth(self):
        """AUTH for a thief that died does nothing to the copy reserved now, which has the larger replica number."""
        table = self.table("admit 0\nsteal 1 from 0\ndeliver 1 to 0\ndeliver 0 to 0\ndie 1\nnotice 0 of 1\nsteal 2 from 0\ndeliver 2 to 0\n")
        self.assertEqual([(m.kind, m.replica, m.thief) for m in table.flight], [("AUTH", 1, 1), ("REQ", 2, 2)])
        self.assertEqual(table.step(bytes([3, 0, 0])), (0, ""))
        self.assertEqual(table.machines[0].reserved, (0, 2, 2))
        self.assertEqual([m.kind for m in table.flight], ["REQ"])

    def test_notice_ends_waiting(self):
        table = self.table("steal 1 from 2\nsteal 0 from 1\ndie 2\nnotice 1 of 2\nnotice 0 of 2\n")
        self.assertEqual([machine.waits for machine in table.machines], [1, None, None])

    def test_refusals(self):
        """The rows of the events: the last event of each list gets the number, those before it are accepted."""
        for number, last, *before in REFUSALS:
            table = self.table("".join(line + "\n" for line in before))
            self.assertEqual(table.step(events.make(last))[0], number, (before, last))

    def test_the_numbers_of_a_join(self):
        """Document 02, 2.6: of every machine count and every a; dead machines count, and 10 comes before."""
        for count in range(2, 17):
            for dead in ("", "die 1\n"):
                table = self.table(dead, count)
                for a in range(256):
                    self.assertEqual(table.refusal(bytes([8, a, 0]))[0], 26 if count == 16 else 0 if a == count else 27, (count, a))
                    self.assertEqual(table.refusal(bytes([8, a, 1]))[0], 10)

    def test_a_machine_that_joins(self):
        """It is "alive, with empty pool and told of no death", and all else is as it was."""
        for text in ("", "admit 0\nadmit 1\nsteal 1 from 0\nsteal 2 from 1\ndeliver 1 to 0\nstart 0 job 1\ndie 2\nnotice 0 of 2\n"):
            table, grown = self.table(text), self.table(text)
            self.assertEqual(grown.step(bytes([8, 3, 0])), (0, ""))
            self.assertEqual((len(grown.machines), grown.machines[3]), (4, model.Machine()))
            grown.machines.pop()
            self.assertEqual(self.content(grown), self.content(table))

    def test_a_machine_that_joins_is_like_any_other(self):
        """It is told of a death from before, steals, is stolen from, and dies with a bond in hand, which another that joined prices."""
        stolen = "steal {0} from {1}\ndeliver {0} to {1}\ndeliver {1} to 0\ndeliver 0 to {1}\ndeliver {1} to {0}\ndeliver {0} to 0\n"
        table = self.table("die 1\njoin 3\nsteal 3 from 1\nnotice 3 of 1\nadmit 0\njoin 4\n" + stolen.format(3, 0) + stolen.format(4, 3))
        self.assertEqual((table.jobs[0].place, table.machines[4].pool, table.machines[3].told, table.machines[4].told), ((4,), {0: 1}, {1}, set()))
        rest = "start 4 job 0\ndie 4\njoin 5\nnotice 0 of 4\n" + stolen.format(5, 0) + "start 5 job 0\ndone 5\ndeliver 5 to 0\n"
        for event in events.events_of(events.make(rest)):
            self.assertEqual(table.step(event), (0, ""))
        self.assertEqual((table.jobs[0].state, table.jobs[0].replica, table.jobs[0].place, table.jobs[0].price), (model.PRICED, 2, (5,), 104.0))

    def test_a_full_channel(self):
        """Every bond goes by way of 1 to 2, which runs it; its ACK and RESULT stay in flight: 128 messages."""
        moved = ("steal 1 from 0\ndeliver 1 to 0\ndeliver 0 to 0\ndeliver 0 to 0\ndeliver 0 to 1\ndeliver 1 to 0\n"
                 "steal 2 from 1\ndeliver 2 to 1\ndeliver 1 to 0\ndeliver 0 to 1\ndeliver 1 to 2\n")
        rows = "".join(f"{name.decode()},fixed,2,4,0\n" for name in names(64))
        text = "".join(f"admit {job}\n{moved}start 2 job {job}\ndone 2\n" for job in range(63)) + "admit 63\n" + moved + "start 2 job 63\n"
        last = "steal 0 from 1\ndone 2\nsteal 1 from 0\ndeliver 0 to 1\ndeliver 1 to 0\ndone 2\n"  # FISH makes 128, NOWORK is taken off
        page = model.page(book.make("# machines 3\n" + HEADER + rows), events.make(text + last))
        count = len(text.splitlines())
        self.assertEqual(page.splitlines()[:3], [f"event {count + 2} refused 16", f"event {count + 3} refused 16",
                                                 f"{names(1)[0].decode()} open replica 1"])
        self.assertEqual(page.splitlines()[-1], "open 64")

    def test_a_refused_event_changes_nothing(self):
        for seed in range(20):
            data, found = random_run(seed, 4, 5, 150)
            table = model.Table(*book_bytes.parts(data))
            for event in events.events_of(found):
                before = self.content(table)
                number, condition = table.step(event)
                self.assertEqual(number == 0, condition == "")
                if number:
                    self.assertEqual(self.content(table), before)

    def content(self, table):
        return repr((table.jobs, table.machines, table.flight, table.open_jobs))

    def test_open_jobs_by_hand(self):
        """Document 02, 2.4. The number after each event: an admission raises it, and a RESULT that finds its job open lowers it."""
        table = self.table("")
        for number, *lines in (
                (0, "steal 2 from 1", "deliver 2 to 1", "deliver 1 to 2"), (1, "admit 0"), (2, "admit 1"),
                (2, "steal 1 from 0", "deliver 1 to 0", "deliver 0 to 0", "deliver 0 to 0", "deliver 0 to 1", "deliver 1 to 0"),  # the last is an ACK
                (2, "steal 2 from 1", "deliver 2 to 1", "deliver 1 to 0", "deliver 0 to 1", "deliver 1 to 2"),
                (2, "die 1", "notice 0 of 1"),  # bond 0 is back on 0, as replica 2
                (2, "start 0 job 0", "start 2 job 0", "done 0", "done 2"),
                (1, "deliver 0 to 0"),  # RESULT
                (1, "deliver 2 to 0", "deliver 2 to 0"),  # a late ACK, and the RESULT of replica 1, which finds the bond priced
                (1, "start 0 job 1", "done 0"), (0, "deliver 0 to 0")):
            for line in lines:
                self.assertEqual((table.step(events.make(line)), table.open_jobs), ((0, ""), number), line)
        self.assertEqual((table.step(events.make("admit 0"))[0], table.open_jobs), (13, 0))

    def test_open_jobs_equal_a_recount(self):
        """"For every table reached from a fresh one it equals a full recount"; the page has both."""
        lowered = 0
        for seed in range(20):
            data, found = random_run(seed, 4, 30, 800)
            table, kept = model.Table(*book_bytes.parts(data)), []
            for event in events.events_of(found):
                self.assertNotEqual(table.step(event)[0], 9)
                kept.append(table.open_jobs)
            self.assertEqual(kept, recounts(data, found))
            page = model.page(data, found)
            self.assertEqual((page.splitlines()[-1], page.count(" open replica ")), (f"open {kept[-1]}", kept[-1]))
            lowered += sum(after < before for before, after in zip(kept, kept[1:]))
        self.assertGreater(lowered, 100)

    def test_a_wrong_number_is_refused_9(self):
        """"An event on a table whose kept number differs from the recount is refused 9": any event, before 10, and nothing changes."""
        for number in (0, 2, 64, 255):
            table = self.table("admit 0\nsteal 1 from 0\n")
            table.open_jobs = number
            before = self.content(table)
            for line in ("admit 1", "deliver 1 to 0", "admit 0", "admit 9", "raw 9 9 9", "raw 1", "die 0"):
                self.assertEqual((table.step(events.make(line))[0], self.content(table)), (9, before), line)
            table.open_jobs = 1
            self.assertEqual(table.step(events.make("admit 1")), (0, ""))
        for job, state, right in ((0, model.PRICED, 0), (0, model.NOT_ADMITTED, 0), (1, model.OPEN, 2), (1, model.PRICED, 1)):
            table = self.table("admit 0\nsteal 1 from 0\n")
            table.jobs[job].state = state
            for number in (0, 1, 2, 3):
                table.open_jobs = number
                self.assertEqual(table.refusal(events.make("deliver 1 to 0"))[0], 0 if number == right else 9)

    def test_the_last_line(self):
        """"After an accepted book the program prints "open" and this number as its last line"."""
        accepted = [data for number, data in book_cases() if number == 0]
        for data in accepted:
            for admitted in (0, data[2]):
                lines = model.page(data, b"".join(bytes([1, job, 0]) for job in range(admitted))).splitlines()
                self.assertEqual((len(lines), lines[-1]), (data[2] + 1, f"open {admitted}"))
        for crate, last in (("rakhvide", "open 0"), ("rakhvide_sample", "open 0"), ("test_long_list", "open 0"), ("test_broken_event", "open 1"),
                            ("test_turned_back", "open 0"), ("test_full_channel", "open 0"), ("test_empty_book", "open 0"),
                            ("test_still_open", "open 11"), ("test_joins", "open 1"), ("test_refused_book", "book refused 5"),
                            ("test_no_files", "book refused 1")):
            self.assertEqual((CRATES / crate / "stdout").read_text().splitlines()[-1], last)

    def test_a_book_without_bonds(self):
        """It has no other line but those of refused events."""
        self.file("book.bin", b"\2\0\0\0")
        self.file("events.bin", b"")
        self.assert_page("open 0\n", 0)
        self.file("events.bin", events.make("admit 0\nsteal 1 from 0\ndie 0\n"))
        self.assert_page("event 1 refused 11\nevent 3 refused 20\nopen 0\n", 0)

    def assert_page(self, page, status, *unread):
        """The folder's page and exit status, and the files that are named as not read."""
        done = tool("model.py", self.folder)
        said = [f"model.py: {self.folder / name} cannot be read: {why}; it counts as empty" for name, why in unread]
        self.assertEqual((done.stdout.decode(), done.returncode, done.stderr.decode().splitlines()), (page, status, said))

    def test_files_that_are_not_there(self):
        none, bare = "No such file or directory", "ZZ0000000016 not admitted\nZZ0000000024 not admitted\nopen 0\n"
        self.assert_page("book refused 1\n", 1, ("book.bin", none), ("events.bin", none))
        self.file("book.bin", book.make(LISTING_BOOK))
        self.assert_page(bare, 1, ("events.bin", none))
        self.file("events.bin", b"")
        self.assert_page(bare, 0)
        self.file("book.bin", b"")
        self.assert_page("book refused 1\n", 3)
        (self.folder / "book.bin").unlink()
        self.assert_page("book refused 1\n", 1, ("book.bin", none))
        (self.folder / "book.bin").mkdir()
        self.assert_page("book refused 1\n", 1, ("book.bin", "Is a directory"))
        self.assert_lines(tool("model.py", self.folder / "none"), f"there is no folder {self.folder / 'none'}")
        self.assert_lines(tool("model.py", self.file("file", "")), f"{self.folder / 'file'} is not a folder")

    def test_refused_books_and_long_lists(self):
        for number, data in book_cases():
            if number:
                self.assertEqual(model.page(data, b""), f"book refused {number}\n")
        self.file("book.bin", book.make(LISTING_BOOK))
        self.file("events.bin", bytes(60000) + bytes([1, 0, 0]))
        done = tool("model.py", self.folder)
        lines = done.stdout.decode().splitlines()
        self.assertIn(b"warning: %b has 20001 events: the first 20000 are read\n" % bytes(self.folder / "events.bin"), done.stderr)
        self.assertEqual((len(lines), lines[19999], lines[20000]), (20003, "event 20000 refused 10", "ZZ0000000016 not admitted"))
        self.file("book.bin", book.make(LISTING_BOOK) + bytes(100000))
        self.file("events.bin", bytes(desk.MOST_BYTES + 1))
        done = tool("model.py", self.folder)
        self.assertEqual((done.stdout, done.returncode), (b"book refused 3\n", 3))
        self.assertIn(b"has 1333334 or more events: the first 20000 are read\n", done.stderr)


class Samples(unittest.TestCase):
    def made(self, folder):
        return book.make((folder / "book.csv").read_text()), events.make((folder / "events.txt").read_text())

    def test_sample_close_is_the_data_of_the_program(self):
        self.assertEqual(self.made(SAMPLE), model.read_folder(CRATES / "rakhvide_sample" / "data")[:2])

    def test_the_sample_close(self):
        """A machine joins when half of the bonds are priced; another dies, and its bonds come back; the one that joined prices some of both."""
        data, found = self.made(SAMPLE)
        run = history.History(*book_bytes.parts(data), found)
        (joined, row), (dead, end) = *run.joins.items(), *run.deaths.items()
        self.assertEqual((joined, dead, len(run.rows)), (4, 2, 360))
        self.assertEqual((run.rows[row].text, run.rows[row].open_jobs, run.rows[end].text), ("join 4", 10, "die 2"))
        self.assertLess(row, end)
        self.assertEqual({flight.message.replica for flight in run.flights if flight.priced and flight.message.sender == joined}, {1, 2})
        self.assertEqual([(place, row.number) for place, row in enumerate(run.rows, 1) if row.text.startswith("join")], [(188, 27), (189, 0), (190, 27)])

    def test_page_of_the_first_run(self):
        """As the README prints it; 104 is document 01's price."""
        self.assertEqual(model.page(*self.made(FIRST)), FIRST_PAGE)

    def test_pictures_are_those_in_docs(self):
        for folder, (name, title) in PICTURES.items():
            self.assertEqual((ROOT / "docs" / name).read_text(encoding="utf-8"), svg.document(picture.picture(*self.made(folder), title)))


@unittest.skipUnless(shutil.which("mypy"), "mypy is not there (Debian: mypy)")
class Types(Folder):
    def test_annotations(self):
        command = ["mypy", "--strict", "--cache-dir", str(self.folder), *(str(ROOT / "tools" / name) for name in ANNOTATED)]
        done = subprocess.run(command, stdout=subprocess.PIPE, stderr=subprocess.STDOUT, timeout=120, check=False)
        self.assertEqual(done.returncode, 0, done.stdout.decode())


class Picture(Folder):
    def drawn(self, data, found):
        """The words of a picture, which is well-formed."""
        tree = xml.etree.ElementTree.fromstring(svg.document(picture.picture(data, found)))
        return ["".join(node.itertext()) for node in tree.iter(SVG_TEXT)]

    def assert_complete(self, data, found):
        machines, entries = book_bytes.parts(data)
        words = self.drawn(data, found)
        for machine in range(machines + len(history.History(machines, entries, found).joins)):
            self.assertTrue(any(text.startswith(f"machine {machine}") for text in words))
        for entry in entries:
            self.assertIn(entry.identifier.decode(), words)
        numbers = [line.split()[3] for line in model.page(data, found).splitlines() if line.startswith("event ")]
        self.assertEqual(sum(f"refused {number}:" in text for number in set(numbers) for text in words), len(numbers))

    def test_programs(self):
        for crate in ("rakhvide", "rakhvide_sample", "test_turned_back", "test_joins"):
            self.assert_complete(*model.read_folder(CRATES / crate / "data")[:2])

    def test_a_turned_back_steal_says_why(self):
        words = self.drawn(*model.read_folder(CRATES / "test_turned_back" / "data")[:2])
        for count, note in ((3, "refused 14: the thief is the victim"), (3, "refused 24: the thief waits already"),
                            (2, "refused 25: the thief was told the victim is dead")):
            self.assertEqual(sum(text.startswith(note) for text in words), count)

    def test_a_steal_from_the_dead_on_a_full_channel(self):
        """Document 02, 2.10: "such a steal is accepted, nothing is stored, and the thief waits for its notice"."""
        data, found = model.read_folder(CRATES / "test_full_channel" / "data")[:2]
        run = history.History(*book_bytes.parts(data), found)
        lost = [row for row in run.rows if row.note == "FISH lost: 3 is dead"]
        self.assertEqual([(row.text, row.number) for row in lost], [("steal 0 from 3", 0), ("steal 4 from 3", 0), ("steal 1 from 3", 0)])
        notices = {machine: row for row, machine, _ in run.notices}
        waits = {wait.machine: wait.end for wait in run.waits if wait.victim == 3}
        self.assertEqual(waits, notices)
        self.assertEqual(sum(row.note == "128 messages in flight" and row.text == "done 1" for row in run.rows), 2)

    def laid_out(self, data, found):
        layout = picture.Layout(history.History(*book_bytes.parts(data), found))
        layout.place_rows(0)
        return layout

    def corners(self, element):
        """Of the rectangles and lines that are drawn; those of a dead machine's shade too."""
        for node in element.iter():
            x, y, width, height, *ends = [float(node.get(name, 0)) for name in ("x", "y", "width", "height", "x1", "y1", "x2", "y2")]
            if node.tag == "rect":
                yield from ((x, y), (x + width, y + height))
            if node.tag == "line":
                yield from (ends[:2], ends[2:])

    def test_a_lane_begins_where_its_machine_joins(self):
        """Above it there is paper, and the name with the word that it comes later. A lane that is not there has no pill."""
        runs = [model.read_folder(CRATES / crate / "data")[:2] for crate in ("rakhvide_sample", "test_joins")]
        runs += [random_run(seed, 3, 9, 400) for seed in range(5)]
        for data, found in runs:
            layout = self.laid_out(data, found)
            self.assertEqual(len(layout.lanes), data[0] + len(layout.history.joins))
            names = [(node.text, float(node.get("x"))) for node in picture.heads(layout) if node.text and node.text.startswith("machine ")]
            for machine, row in layout.history.joins.items():
                lane, top = layout.lanes[machine], layout.tops[row]
                self.assertEqual([layout.edge(at) for at in range(row + 1)][-2:], [lane.x, lane.end][-row - 1:])
                for part in (picture.ground, picture.bars, picture.lifelines, picture.pills):
                    for x, y in (corner for element in part(layout) for corner in self.corners(element)):
                        self.assertFalse(x > lane.x + 0.1 and y < top - 0.1, (part, x, y))
                shown = [text for text, _ in names[machine::len(layout.lanes)]]
                later = sum(y + picture.HEAD < top for y in layout.heads)
                self.assertEqual([text == f"machine {machine} later" for text in shown], [at < later for at in range(len(layout.heads))])
                self.assertIn("joins", [pill.words for pill in layout.pills[row, machine]])
        self.assertGreater(sum(len(self.laid_out(*run).history.joins) for run in runs), 20)

    def test_a_lane_that_begins_at_the_first_event(self):
        """Its name stands above it from the start."""
        words = self.drawn(book.make(LISTING_BOOK), events.make("join 2\nsteal 2 from 0\n"))
        self.assertIn("machine 2", words)
        self.assertNotIn("machine 2 later", words)

    def test_refused_joins(self):
        """A refusal stands in the lane of the machine only where there is one by then."""
        found = events.make("join 4\njoin 200\nsteal 3 from 0\njoin 2\njoin 3\njoin 4\njoin 4\nraw 8 5 1\n")
        run = history.History(*book_bytes.parts(book.make(LISTING_BOOK.replace("machines 2", "machines 3"))), found)
        self.assertEqual([(row.number, row.machine) for row in run.rows],
                         [(27, None), (27, None), (11, None), (27, 2), (0, 3), (0, 4), (27, 4), (10, None)])
        self.assertEqual([row.note for row in run.rows][3:6], ["it is not the next number", "4 machines now", "5 machines now"])
        self.assertEqual(run.joins, {3: 4, 4: 5})
        words = self.drawn(*model.read_folder(CRATES / "test_joins" / "data")[:2])
        for count, note in ((3, "refused 26: there are 16 machines already"), (7, "refused 27: it is not the next number")):
            self.assertEqual(sum(text.startswith(note) for text in words), count)

    def test_joins_above_the_lanes(self):
        """They are counted, and in the title where none is given."""
        data = book.make(LISTING_BOOK)
        for text, title, counted in (("", "2 bonds on 2 machines", "0 joins, 0 deaths"),
                                     ("join 2\n", "2 bonds on 3 machines, 1 of which joins later", "1 join, 0 deaths"),
                                     ("join 2\njoin 3\njoin 3\n", "2 bonds on 4 machines, 2 of which join later", "2 joins, 0 deaths")):
            words = self.drawn(data, events.make(text))
            self.assertEqual((words[0], counted in words[1]), (title, True))
            self.assertEqual(words.count("joins"), 1 + text.count("join 2") + (text.count("join 3") > 0))  # the legend has one

    def test_open_bonds(self):
        """Document 02, 2.4: the number after each event, as a recount has it, and at the end above the lanes."""
        first = book.make((FIRST / "book.csv").read_text()), events.make((FIRST / "events.txt").read_text())
        self.assertEqual(recounts(*first), FIRST_OPEN)
        for data, found in (first, random_run(7, 4, 64, 500), random_run(8, 3, 2, 100), model.read_folder(CRATES / "rakhvide_sample" / "data")[:2]):
            counts, words = recounts(data, found), self.drawn(data, found)
            self.assertEqual([row.open_jobs for row in history.History(*book_bytes.parts(data), found).rows], counts)
            self.assertEqual([text for text in words if text.startswith("bonds open after event ")],
                             [f"bonds open after event {place}{count}" for place, count in enumerate(counts, 1)])
            self.assertEqual(sum(f" priced, {counts[-1]} open, " in text for text in words), 1)

    def test_open_bonds_have_room(self):
        """The numbers and their heads stand between the notes and the first lane, and are bold where the number changes."""
        data, found = random_run(9, 16, 64, 300)
        counts = recounts(data, found)
        self.assertGreater(max(counts), 9)
        layout = picture.Layout(history.History(*book_bytes.parts(data), found))
        layout.place_rows(0)
        shown, heads = list(picture.open_bonds(layout)), [node for node in picture.heads(layout) if node.text == "open"]
        self.assertEqual([node.get("font-weight") == "bold" for node in shown], [after != before for before, after in zip([0, *counts], counts)])
        self.assertEqual((len(shown), len(heads)), (300, len(layout.heads)))
        notes = picture.MARGIN + picture.PLACE + picture.EVENT + picture.NOTE
        for node in shown + heads:
            words, x, size = node.text or node[0].tail, float(node.get("x")), float(node.get("font-size"))
            half = svg.width_of(words, svg.BOLD * size) / 2
            self.assertTrue(notes < x - half and x + half < layout.lanes[0].x, words)

    def test_random_runs(self):
        for seed, machines, entries, count in ((1, 2, 1, 80), (2, 2, 0, 5), (3, 16, 64, 300), (4, 5, 9, 400), (5, 3, 4, 0), (6, 8, 20, 200)):
            self.assert_complete(*random_run(seed, machines, entries, count))

    def test_no_pill_covers_another(self):
        for seed in range(5):
            data, found = random_run(seed, 6, 10, 200)
            layout = picture.Layout(history.History(*book_bytes.parts(data), found))
            layout.place_rows(0)
            for lane in layout.lanes:
                places = sorted(pill.y for (_, machine), pills in layout.pills.items() if machine == lane.machine for pill in pills)
                self.assertTrue(all(below - above >= picture.LINE for above, below in zip(places, places[1:])))
                self.assertTrue(all(head - pill >= 9 or pill - head >= picture.HEAD for head in layout.heads for pill in places))

    def test_commands(self):
        self.file("book.bin", book.make(LISTING_BOOK))
        self.file("events.bin", events.make(LISTING_EVENTS))
        done = tool("picture.py", self.folder, self.folder / "out.svg", "--title", "A & <b>")
        self.assertEqual((done.returncode, done.stderr), (0, b""))
        self.assertIn("A & <b>", "".join(xml.etree.ElementTree.parse(self.folder / "out.svg").getroot().itertext()))

    def test_titles_that_are_no_xml(self):
        self.file("book.bin", book.make(LISTING_BOOK))
        for title in ("a\udcffb", "a\x01b", "\x1b[1m", "\ufffe"):
            done = tool("picture.py", self.folder, self.folder / "out.svg", "--title", title)
            self.assert_lines(done, "character ", str(self.folder))
            self.assertIn(b"which XML does not have", done.stderr)
            self.assertFalse((self.folder / "out.svg").exists())

    def test_long_titles(self):
        data = book.make(LISTING_BOOK)
        for title in ("A long title of a run " * 9, "\u503a" * 80, "i" * 100000):
            tree = xml.etree.ElementTree.fromstring(svg.document(picture.picture(data, b"", title)))
            shown = next(tree.iter(SVG_TEXT))
            self.assertTrue(shown.text.endswith("\u2026") and title.startswith(shown.text[:-1]))
            self.assertLess(float(shown.get("x")) + svg.width_of(shown.text, svg.BOLD * 21), float(tree.get("width")) - 20)
            self.assertGreater(len(shown.text), 30)
            self.assertEqual(tree[0].text, title)

    def test_long_rates(self):
        """Terms and states are whole, and none covers another or leaves the picture."""
        terms = [(book_bytes.FIXED, 240, 12, 100 / 3, 1 / 3), (book_bytes.FIXED, 240, 12, 2.2250738585072014e-308, 1.2345678901234568e-300),
                 (book_bytes.FIXED, 240, 0, 100.0, 0.0), (book_bytes.ZERO, 1, 4, 0.0, 0.5), (book_bytes.FIXED, 1, 1, 4.0, -0.5),
                 (book_bytes.FIXED, 240, 2, 100.0, -0.5)]
        bonds = entries_of(terms)
        found = "".join(f"admit {i}\nstart 0 job {i}\ndone 0\ndeliver 0 to 0\n" for i in range(len(terms)))
        tree = xml.etree.ElementTree.fromstring(svg.document(picture.picture(book_bytes.book_of(2, bonds), events.make(found))))
        texts = {node.text: node for node in tree.iter(SVG_TEXT)}
        self.assertIn(f"coupon {100 / 3!r}, 240 payments, 12 a year, at {1 / 3!r}", texts)
        self.assertIn("coupon 2.2250738585072014e-308, 240 payments, 12 a year, at 1.2345678901234568e-300", texts)
        self.assertIn("coupon 100.0, 240 payments, 2 a year, at 0.0", texts)
        self.assertIn("zero, 1 period, 4 a year, at 0.5", texts)
        self.assertIn("coupon 4.0, 1 payment, 1 a year, at -0.5", texts)
        end = {words: float(node.get("x")) + svg.width_of(words, float(node.get("font-size"))) for words, node in texts.items() if words}
        terms_at = {float(node.get("x")) for words, node in texts.items() if words and " a year, at " in words}
        states = [words for words in texts if words and words.startswith("priced ")]
        self.assertIn("priced 12100.000000, replica 1", states)
        self.assertEqual(max(map(len, states)), len("priced .000000, replica 1") + 33)  # at a yield of -0.5 the price has 33 digits
        self.assertLess(max(end[words] for words in states), min(terms_at))
        self.assertLess(max(place for words, place in end.items() if " a year, at " in words), float(tree.get("width")) - picture.MARGIN)

    def test_a_picture_too_high_is_told(self):
        self.file("book.bin", book.make(LISTING_BOOK))
        for count, told in ((1500, False), (2000, True)):
            self.file("events.bin", bytes(3 * count))
            done = tool("picture.py", self.folder, self.folder / "out.svg")
            self.assertEqual((done.returncode, b"32767" in done.stderr), (0, told))
            self.assertTrue((self.folder / "out.svg").exists())
        self.file("events.bin", bytes(60001))
        self.assertIn(b"events.bin has 20001 events: the first 20000 are read\n", tool("picture.py", self.folder, self.folder / "out.svg").stderr)

    def test_widths(self):
        """They are the same in each version of Python, of which some add up floats more exactly than others."""
        self.assertEqual([svg.width_of("i" * 10, 1), svg.width_of("fox" * 10, 100)], [3.4, 1720])

    def test_statuses(self):
        """A file that is not read is 1, a refused book 3; without events there is a picture all the same."""
        out = self.folder / "out.svg"
        for data, found, status, lines in (
                (None, None, 1, ["/", "/", "book refused 1: there is no run to draw", str(out)]), (None, b"", 1, ["/", "book refused 1", str(out)]),
                (b"\x02\0\x01\0", b"", 3, ["book refused 3", str(out)]), (b"\x02\0\x01\0", None, 1, ["/", "book refused 3", str(out)]),
                (book.make(LISTING_BOOK), None, 1, [f"{self.folder / 'events.bin'} cannot be read: No such file"]),
                (book.make(LISTING_BOOK), b"", 0, [])):
            for name, content in (("book.bin", data), ("events.bin", found)):
                (self.folder / name).unlink(missing_ok=True)
                if content is not None:
                    self.file(name, content)
            out.unlink(missing_ok=True)
            done = tool("picture.py", self.folder, out)
            said = [line.split(": ", 1)[1] for line in done.stderr.decode().splitlines()]
            self.assertEqual((done.returncode, len(said)), (status, len(lines)), said)
            self.assertTrue(all(line.startswith(start) for line, start in zip(said, lines)), said)
            self.assertEqual(out.exists(), "there is no run" not in done.stderr.decode())


def small_files():
    """For a process: no file longer than 8 bytes can be written, as on a full disk."""
    resource.setrlimit(resource.RLIMIT_FSIZE, (8, 8))


@contextlib.contextmanager
def no_root():
    """Root may write everywhere."""
    user = os.geteuid()
    if user == 0:
        os.seteuid(65534)
    try:
        yield
    finally:
        os.seteuid(user)


class Writing(Folder):
    """An output is whole, or as it was before."""

    def making(self, out):
        """A command for each kind of output, and what it writes."""
        rows, lines, run = self.file("b.csv", LISTING_BOOK), self.file("e.txt", LISTING_EVENTS), CRATES / "rakhvide" / "data"
        drawn = svg.document(picture.picture(book.make(LISTING_BOOK), events.make(LISTING_EVENTS)))
        return ((["book.py", "make", rows, out], book.make(LISTING_BOOK)), (["events.py", "make", lines, out], events.make(LISTING_EVENTS)),
                (["picture.py", run, out], drawn.encode("utf-8")))

    def assert_untouched(self, out, old):
        self.assertEqual(out.read_bytes() if out.exists() else None, old)
        self.assertEqual({path.name for path in self.folder.iterdir()} - {out.name}, {"b.csv", "e.txt"})

    def test_a_full_disk(self):
        out = self.folder / "out"
        for old in (None, b"old and longer than eight bytes"):
            for command, _ in self.making(out):
                if old is not None:
                    out.write_bytes(old)
                self.assert_lines(tool(*command, before=small_files), f"{out} cannot be written: File too large")
                self.assert_untouched(out, old)

    def test_modes(self):
        out = self.folder / "out"
        for command, data in self.making(out):
            self.assertEqual(tool(*command, before=lambda: os.umask(0o027)).returncode, 0)
            self.assertEqual((out.read_bytes(), out.stat().st_mode & 0o7777), (data, 0o640))
            out.chmod(0o604)
            out.write_bytes(b"old")
            self.assertEqual(tool(*command).returncode, 0)
            self.assertEqual((out.read_bytes(), out.stat().st_mode & 0o7777), (data, 0o604))
            out.unlink()

    @unittest.skipUnless(os.geteuid() == 0, "only root gives files away")
    def test_owners(self):
        out = self.file("out", "old")
        os.chown(out, 4321, 8765)
        desk.write_bytes(out, b"new", [])
        self.assertEqual((out.read_bytes(), out.stat().st_uid, out.stat().st_gid), (b"new", 4321, 8765))

    def test_links(self):
        """The file that a link points to is replaced, or made, and the link stays."""
        (self.folder / "far").mkdir()
        link, far = self.folder / "link", self.folder / "far" / "out"
        link.symlink_to("far/out")
        for command, data in self.making(link):
            self.assertEqual(tool(*command).returncode, 0)
            self.assertEqual((os.readlink(link), far.is_symlink(), far.read_bytes()), ("far/out", False, data))
        self.assertEqual(list((self.folder / "far").iterdir()), [far])
        loop = self.folder / "loop"
        loop.symlink_to("loop")
        self.assert_message(tool("book.py", "make", self.folder / "b.csv", loop), "loop cannot be written")
        self.assertTrue(loop.is_symlink())

    def test_outputs_that_are_no_files(self):
        out = self.folder / "out"
        for command, data in self.making("/dev/stdout"):
            done = tool(*command)
            self.assertEqual((done.returncode, done.stdout), (0, data))
            with open(out, "wb") as output:
                self.assertEqual(tool(*command, output=output).returncode, 0)
                self.assertEqual(os.fstat(output.fileno()).st_size, len(data))  # the file that is open, and not another in its place
            self.assertEqual(out.read_bytes(), data)
            for descriptor in (1, 2):
                out.write_bytes(b"old")
                with open(out, "ab") as output:
                    done = tool(*command[:-1], f"/dev/fd/{descriptor}", **{("output", "errors")[descriptor - 1]: output})
                self.assertEqual((done.returncode, out.read_bytes()), (0, b"old" + data))
            done = tool(*command, output=None, before=lambda: os.close(1))
            self.assert_lines(done, "/dev/stdout cannot be written: standard output is closed")

    def test_a_pipe(self):
        pipe = self.folder / "pipe"
        os.mkfifo(pipe)
        for command, data in self.making(pipe):
            with subprocess.Popen(["cat", pipe], stdout=subprocess.PIPE) as reader:
                done = tool(*command)
                if not stat.S_ISFIFO(os.lstat(pipe).st_mode):
                    reader.kill()
                    self.fail("a file took the place of the pipe")
                self.assertEqual((done.returncode, reader.communicate(timeout=60)[0]), (0, data))

    @unittest.skipUnless(os.path.exists("/dev/full"), "a device of Linux")
    def test_a_device_that_is_full(self):
        """Not as root, who could put a file in the place of the device."""
        with no_root(), self.assertRaisesRegex(desk.Stop, "^/dev/full cannot be written: No space left on device$"):
            desk.write_bytes("/dev/full", b"data", [])

    def test_files_and_folders_that_are_protected(self):
        out = self.file("out", "old")
        for file_mode, folder_mode, words in ((0o444, 0o777, "out cannot be written: Permission denied"),
                                              (0o666, 0o555, "takes no new file: Permission denied")):
            out.chmod(file_mode)
            self.folder.chmod(folder_mode)
            with no_root(), self.assertRaisesRegex(desk.Stop, words):
                desk.write_bytes(out, b"new", [])
            self.folder.chmod(0o700)
            self.assertEqual((out.read_bytes(), list(self.folder.iterdir())), (b"old", [out]))


class Bench(Folder):
    """bench/run says what it needs before it begins."""

    def run_bench(self, *arguments, path=None):
        environment = dict(os.environ) if path is None else {**os.environ, "PATH": str(path)}
        return subprocess.run([ROOT / "bench" / "run", *arguments], env=environment, stdout=subprocess.PIPE, stderr=subprocess.PIPE,
                              timeout=120, check=False)

    def assert_said(self, done, status, line):
        self.assertEqual((done.returncode, done.stderr.decode().splitlines(), done.stdout), (status, [f"bench/run: {line}"], b""))

    def test_usage(self):
        for arguments in (["load"], ["load", self.folder, self.folder], ["beside"], ["draw"], ["draw", self.folder]):
            self.assert_said(self.run_bench(*arguments), 2, "usage: bench/run, bench/run beside FILE, or bench/run load FOLDER")
        self.assert_said(self.run_bench("load", self.folder / "none"), 1, f"{self.folder / 'none'} is not a folder")
        self.assert_said(self.run_bench("beside", self.folder), 1, f"{self.folder} is not a file")

    def test_what_is_not_there(self):
        commands = self.folder / "bin"
        commands.mkdir()
        for name in ("bash", "env", "dirname", "realpath"):
            (commands / name).symlink_to(shutil.which(name))
        self.assert_said(self.run_bench("load", self.folder, path=commands), 1, "cargo is not there (Debian: cargo)")
        for name, package in (("cargo", "Debian: cargo"), ("gcc", "Debian: gcc"), ("rt", "the Rattle kit")):
            self.assert_said(self.run_bench(path=commands), 1, f"{name} is not there ({package})")
            (commands / name).symlink_to(shutil.which("false"))

    @unittest.skipUnless(shutil.which("cargo"), "cargo is not there (Debian: cargo)")
    def test_load(self):
        """It asks for cargo alone."""
        done = self.run_bench("load", self.folder)
        self.assertEqual((done.returncode, done.stdout, done.stderr), (0, b"", b""))
        files = model.read_folder(self.folder)
        self.assertEqual((book_bytes.number_of(files.book), len(files.book), len(files.events)), (0, 4 + 31 * 64, 60000))


class Compare(Folder):
    def test_a_program_that_is_not_built(self):
        (self.folder / "compare").mkdir()
        script = shutil.copy(ROOT / "compare" / "program", self.folder / "compare")
        done = subprocess.run([script], stdout=subprocess.PIPE, stderr=subprocess.PIPE, timeout=60, check=False)
        said = b"compare/program: the program is not built; rt run in crates/rakhvide builds it\n"
        self.assertEqual((done.returncode, done.stdout, done.stderr), (2, b"", said))


class Damage(Folder):
    def test_help(self):
        """It is the whole docstring: formats, numbers, exit statuses."""
        for command in (["book.py"], ["book.py", "make"], ["book.py", "add"], ["book.py", "show"], ["events.py"], ["events.py", "make"], ["events.py", "show"],
                        ["model.py"], ["picture.py"]):
            shown = " ".join(tool(*command, "--help").stdout.decode().split())
            self.assertRegex(shown, "The exit status is 0 where .* 1 where .* 2 for a wrong command.* 130 where the tool is interrupted")
            self.assertEqual("3 where the book is refused" in shown, command[0] != "events.py")
            self.assertIn('docs/PROTOCOL.md, "The numbers"', shown)
            self.assertIn({"book.py": book, "events.py": events, "model.py": model, "picture.py": picture}[command[0]].__doc__.strip(),
                          tool(*command, "--help").stdout.decode())

    def test_files_that_cannot_be_read_or_written(self):
        none, good = self.folder / "none", self.file("good.csv", LISTING_BOOK)
        lines = self.file("e.txt", LISTING_EVENTS)
        for command in (["book.py", "make", none, none], ["book.py", "show", none], ["book.py", "show", self.folder],
                        ["book.py", "make", good, none / "b"], ["events.py", "make", none, none], ["events.py", "show", none],
                        ["events.py", "make", lines, none / "e"], ["model.py", none], ["model.py", good], ["picture.py", none, none],
                        ["book.py"], ["events.py", "draw"], ["picture.py"], ["model.py"], ["book.py", "make", good, none, "--machines", "x"]):
            self.assert_message(tool(*command))
        (self.folder / "book.bin").write_bytes(book.make(LISTING_BOOK))
        self.assert_lines(tool("picture.py", self.folder, none / "p.svg"), "/", f"{none / 'p.svg'} cannot be written: there is no folder {none}")
        for command in (["book.py", "make", "", none], ["book.py", "make", good, ""], ["book.py", "show", ""], ["events.py", "make", "", none],
                        ["events.py", "make", lines, ""], ["events.py", "show", ""], ["model.py", ""], ["picture.py", "", none],
                        ["picture.py", none, ""]):
            done = tool(*command)
            self.assert_message(done, "the path is empty")
            self.assertEqual(done.returncode, 2)

    def test_an_input_is_not_written_over(self):
        data, rows, lines = self.file("book.bin", book.make(LISTING_BOOK)), self.file("b.csv", LISTING_BOOK), self.file("e.txt", LISTING_EVENTS)
        (self.folder / "soft.svg").symlink_to(data)
        os.link(rows, self.folder / "hard.csv")
        before = {path: path.read_bytes() for path in (data, rows, lines)}
        for command in (["book.py", "make", rows, rows], ["book.py", "make", rows, self.folder / "hard.csv"], ["events.py", "make", lines, lines],
                        ["events.py", "make", lines, f"{self.folder}/./e.txt"], ["picture.py", self.folder, data],
                        ["picture.py", self.folder, self.folder / "soft.svg"], ["picture.py", self.folder, self.folder / "events.bin"]):
            self.assert_message(tool(*command), "same file as the input")
            self.assertEqual({path: path.read_bytes() for path in before}, before)
        self.assertFalse((self.folder / "events.bin").exists())

    def printing(self):
        """Commands that print: one line, and more than is kept back until the end."""
        self.file("book.bin", book.make(LISTING_BOOK))
        self.file("events.bin", bytes(60000))
        few = self.file("few.bin", bytes(3))
        return (["book.py", "show", self.folder / "book.bin"], ["events.py", "show", few], ["events.py", "show", self.folder / "events.bin"],
                ["model.py", self.folder], ["model.py", CRATES / "rakhvide" / "data"])

    def assert_output_fails(self, command, **how):
        done = tool(*command, **how)
        self.assertEqual(done.returncode, 1)
        self.assert_lines(done, "standard output cannot be written")

    def assert_made(self, **how):
        """make prints nothing, so that any standard output is good."""
        done = tool("book.py", "make", self.file("b.csv", HEADER + GOOD), self.folder / "new.bin", **how)
        self.assertEqual((done.returncode, len(done.stderr.splitlines())), (0, 1), done.stderr)
        self.assertEqual((self.folder / "new.bin").read_bytes(), book.make(HEADER + GOOD))

    @unittest.skipUnless(os.path.exists("/dev/full"), "a device of Linux")
    def test_output_that_is_full(self):
        with open("/dev/full", "wb") as full:
            for unbuffered in ("", "1"):
                how = {"output": full, "before": lambda value=unbuffered: os.environ.update(PYTHONUNBUFFERED=value)}
                for command in [*self.printing(), ["model.py", "--help"], ["book.py", "make", "--help"]]:
                    self.assert_output_fails(command, **how)
                self.assert_made(**how)

    @unittest.skipUnless(os.path.exists("/dev/full"), "a device of Linux")
    def test_warnings_that_cannot_be_said(self):
        """The exit status is the same without them."""
        rows = self.file("b.csv", LISTING_BOOK.replace(",4,", ",0.04,"))
        with open("/dev/full", "wb") as full:
            for how in ({"errors": full}, {"errors": None, "before": lambda: os.close(2)}):
                self.assertEqual(tool("book.py", "make", rows, self.folder / "new.bin", **how).returncode, 0)
                self.assertEqual(tool("model.py", CRATES / "test_refused_book" / "data", **how).returncode, 3)
                self.assertEqual(tool("model.py", self.folder, **how).returncode, 1)

    def test_output_that_is_closed(self):
        for command in self.printing():
            self.assert_output_fails(command, output=None, before=lambda: os.close(1))
        self.assert_made(output=None, before=lambda: os.close(1))

    def test_an_interrupt(self):
        """While a tool reads."""
        pipe = self.folder / "pipe"
        os.mkfifo(pipe)
        how = {"stdout": subprocess.PIPE, "stderr": subprocess.PIPE, "preexec_fn": lambda: signal.signal(signal.SIGINT, signal.SIG_DFL)}
        for name in ("book.py", "events.py"):
            with subprocess.Popen([sys.executable, ROOT / "tools" / name, "show", pipe], **how) as run:
                with open(pipe, "wb"):  # once the tool has opened it too
                    run.send_signal(signal.SIGINT)
                    self.assertEqual((*run.communicate(timeout=60), run.returncode), (b"", b"", 130))

    def test_too_little_memory(self):
        def fail():
            raise MemoryError
        with contextlib.redirect_stderr(io.StringIO()) as said, self.assertRaises(SystemExit) as end:
            desk.run(fail)
        self.assertEqual((end.exception.code, said.getvalue().split(": ", 1)[1]), (1, "there is too little memory\n"))

    def test_files_too_long(self):
        """They are read as far as the longest that has a use."""
        path = self.file("long", b" " * (desk.MOST_BYTES + 1))
        for command in (["book.py", "make", path, self.folder / "out"], ["events.py", "make", path, self.folder / "out"], ["events.py", "show", path]):
            self.assert_message(tool(*command), f"{path} is longer than any book or list of events: it has more than 4000000 bytes")
        self.file("long", b"\n" * desk.MOST_BYTES)
        self.assertEqual(tool("events.py", "make", path, self.folder / "out").returncode, 0)
        self.assertEqual(len(desk.read_bytes(path, 1988)), 1989)

    def test_files_that_are_no_texts(self):
        for data, words in ((b"a\r\nb\rc\nd\xe9", "not UTF-8 text: line 4 has the byte 233"), (b"\xff", "not UTF-8 text: line 1 has the byte 255"),
                            (b"\xff\xfea\0", "UTF-16: save it as UTF-8"), (b"\xfe\xff\0a", "UTF-16: save it as UTF-8"),
                            (b"PK\3\4\0\xff", "a spreadsheet file: save it as CSV (UTF-8)"), (b"a\nb\0", "not a text: line 2 has a NUL"),
                            (b"\xd0\xcf\x11\xe0\0", "a spreadsheet file: save it as CSV (UTF-8)")):
            for name in ("book.py", "events.py"):
                path = self.file("n", data)
                self.assert_lines(tool(name, "make", path, self.folder / "out"), f"{path} is {words}", f"{self.folder / 'out'} is not written")

    def test_an_older_python(self):
        """A sentence, before anything that it does not have, as dataclasses."""
        older = "import runpy, sys; sys.version_info = (3, 6, 15); sys.modules['dataclasses'] = None; runpy.run_path(sys.argv[1], run_name='__main__')"
        for name in ("book.py", "events.py", "model.py", "picture.py"):
            done = subprocess.run([sys.executable, "-c", older, ROOT / "tools" / name], env={**os.environ, "PYTHONPATH": str(ROOT / "tools")},
                                  stdout=subprocess.PIPE, stderr=subprocess.PIPE, timeout=60, check=False)
            self.assertEqual((done.returncode, done.stdout, done.stderr), (1, b"", b"Python 3.10 or later is needed, and this is 3.6\n"))

    def test_noise(self):
        """Any bytes are read or refused in words."""
        rng = random.Random(2)
        for _ in range(400):
            noise = bytes(rng.randrange(256) for _ in range(rng.randrange(80)))
            for read in (lambda: book.make(desk.read_text(self.file("n", noise))), lambda: book.show(noise) if not book_bytes.shape_fault(noise) else "",
                         lambda: events.make(desk.read_text(self.file("n", noise)))):
                try:
                    read()
                except desk.Stop as stop:
                    self.assertTrue(str(stop))

    def test_damaged_texts(self):
        rng = random.Random(3)
        text = (SAMPLE / "book.csv").read_bytes()
        for _ in range(200):
            damaged = bytearray(text)
            for _ in range(rng.randint(1, 3)):
                damaged[rng.randrange(len(damaged))] = rng.choice([0, 10, 34, 44, 48, 65, 195, rng.randrange(256)])
            try:
                self.assertEqual(book_bytes.number_of(book.make(desk.read_text(self.file("d.csv", bytes(damaged))))), 0)
            except desk.Stop as stop:
                self.assertTrue(str(stop))

    def test_commands(self):
        for name, noise in (("book.py", b"\xff\xfe\x00"), ("book.py", b"\0"), ("events.py", b"\xff")):
            self.assert_message(tool(name, "make", self.file("noise", noise), self.folder / "out.bin"), "not written")
            self.assertFalse((self.folder / "out.bin").exists())


if __name__ == "__main__":
    unittest.main()
