#!/usr/bin/python3
"""A book as a CSV file, and as the book.bin that the program reads; a bond added to a book.

    python3 tools/book.py make BOOK.csv book.bin [--machines N] [--anyway]
    python3 tools/book.py add book.bin ROW
    python3 tools/book.py show book.bin

It needs Python 3.10 or later, and its standard library only.

The CSV has the header identifier,kind,periods,payments,coupon,yield and then a row for each bond. The kind is zero or fixed.
The payments are those of a year: 1, 2, 4 or 12, and an empty cell is 2; for a zero they say how often the yield is compounded.
A file without this column has two payments a year throughout. The periods count payments, 1 to 240: a bond of ten years has 10,
20, 40 or 120 of them. The coupon is a year's per 100 of face (empty or 0 for a zero), the yield is a year's as a fraction, from
-0.5 to 1. Rates are decimal texts, read as Python's float() reads them, but without its underscores and digits of other scripts.
A text of more than 4,000,000 bytes is not read.

A row whose first mark is # is a comment; the comment "# machines 4" states the machine count. Small and capital letters, a colon
or an equals sign after the word, and the number in the next cell are read too ("#Machines: 4", "# machines,4"). Any other
comment that begins with the word, or has the word machine or machines and a digit, stops the tool, and so do two that state
different counts. --machines goes before what the comment states; where neither states a count it is 4, and make says so.

make writes nothing where the book would be refused, and names the faulty cells, from the first row to the last: rows are
counted as a spreadsheet counts them, the header among them, and docs/PROTOCOL.md, "The numbers", has what a number means. A
cell without a meaning, as a kind that is no word of the list, has no number. Of more than 20 faults the first 20 are named; of
more than 64 bonds none is looked at. --anyway writes the faulty book all the same, as far as it has a place for what the cells
say: a kind is then a number from 0 to 255 too, so are the payments, and an identifier is filled with spaces or cut to 12 bytes.

A rate that the rules accept may still be in the other unit. make writes the book and warns of a coupon above 0 and below 0.25,
which may be meant as a fraction, and of a yield below -0.01 or above 0.5, which may be meant in percent. It warns of a book
without bonds too.

add puts one bond at the end of a book, which keeps its machine count and its other bonds. ROW is a row of the CSV as one word of
the command: five cells, or six with the payments after the periods, as in 'US0378331005,fixed,20,4.5,0.0425'. Its cells are
read, refused and warned of as those of make; rows are counted as show prints them, so that the new one is the last. To a book
that is refused, or has 64 bonds, nothing is added, whatever the row says. The book to begin with is what make makes of a CSV
that ends with its header.

show prints the CSV of a book, from which make makes the same bytes again where the book is accepted; the column of payments is
there where a bond states them. A refused book may have bytes that a CSV does not hold, as an identifier that is no text.

The exit status is 0 where the book is written or shown, by --anyway a faulty one too; 1 where a file cannot be read or
written, or where all that is wrong is text without a meaning; 2 for a wrong command; 3 where the book is refused or would be;
130 where the tool is interrupted.
"""
import argparse
import collections.abc
import csv
import decimal
import io
import re
import typing

import book_bytes as books
import desk
from book_bytes import Entry, Fault

COLUMNS = ["identifier", "kind", "periods", "payments", "coupon", "yield"]
NEEDED = [column for column in COLUMNS if column != "payments"]
KINDS = {"zero": books.ZERO, "fixed": books.FIXED}
MACHINES = 4  # where nothing else is stated
LEAST_COUPON, MOST_YIELD = 0.25, 0.5  # beyond which a rate may be in the other unit
DOUBTED_BELOW = -0.01  # below which a yield may be in percent: markets seldom go there
OTHER_MARKS = {";": "semicolons", "\t": "tabs"}  # which part the cells of other files
POINT = "decimals are written with a point"

Rows = list[tuple[int, list[str]]]  # each with its number: a spreadsheet's, from 1
T = typing.TypeVar("T")


# Reading the CSV.


def read_csv(text: str, what: str = "a CSV file") -> Rows:
    """The rows that have a cell which is not empty."""
    reader = csv.reader(io.StringIO(text, newline=""), strict=True)
    try:
        rows = list(enumerate(reader, 1))
    except csv.Error as fault:
        raise desk.Stop(f"not {what}: line {reader.line_num}: {fault}") from None
    return [(number, row) for number, row in rows if any(cell.strip() for cell in row)]


def without_end(row: list[str], columns: list[str]) -> list[str]:
    """Without the empty cells after the last other one, as far as they go beyond the columns."""
    last = max(place for place, cell in enumerate(row, 1) if cell.strip())
    return row[:max(last, len(columns))]


def stated_machines(rows: Rows) -> tuple[int | None, list[Fault]]:
    """The machine count that a comment states, or none, and the faults of comments that should state it and do not."""
    stated, first, found = None, None, []
    for number, row in rows:
        comment = " ".join(row).strip()
        if not is_comment(row) or not is_of_machines(comment):
            continue
        count = re.fullmatch(r"#\s*machines(?:\s*[:=]\s*|\s+)([0-9]+)", comment, re.IGNORECASE)
        if not count:
            text = f"{desk.quoted(comment)} states no machine count; it is written # machines 4"
            found.append(Fault(None, number, None, text + desk.strange(comment)))
        elif stated is None:
            stated, first = whole(count[1]), number
        elif whole(count[1]) != stated:
            found.append(Fault(None, number, None, f"{desk.quoted(comment)}, and row {first} states {books.digits_of(stated)} machines"))
    return stated, found


def is_comment(row: list[str]) -> bool:
    return row[0].lstrip().startswith("#")


def is_of_machines(comment: str) -> bool:
    """Whether it may be meant to state the machine count: it begins with the word, or has it and a digit."""
    comment = comment.lower()
    return bool(re.match(r"#\s*machines", comment) or re.search(r"(?<![a-z])machines?(?![a-z])", comment) and re.search(r"\d", comment))


def with_columns(rows: Rows) -> tuple[list[str], Rows]:
    """The columns that the header names, and the rows after it."""
    rows = [(number, row) for number, row in rows if not is_comment(row)]
    header = ",".join(COLUMNS)
    if not rows:
        raise desk.Stop(f"the header {header} is missing, and so is every other row")
    number, first = rows[0][0], without_end(rows[0][1], [])
    cells = [cell.strip().lower() for cell in first]
    columns = COLUMNS if "payments" in cells else NEEDED
    if cells != columns:
        found = desk.quoted(",".join(first))
        raise desk.Stop(f"row {number}: {found} is not the header {header}, of which payments may be left out: {why_no_header(cells, columns)}")
    return columns, [(number, without_end(row, columns)) for number, row in rows[1:]]


def why_no_header(cells: list[str], columns: list[str]) -> str:
    missing = [column for column in columns if column not in cells]
    if parted_otherwise(cells):
        return parted_otherwise(cells)
    if len(missing) == len(columns):
        return "it has none of the columns"
    if missing:
        return "it has no " + " and no ".join(missing)
    place = next((i for i, column in enumerate(columns) if cells[i] != column), len(columns))
    names = "payments or coupon" if columns == NEEDED and place == COLUMNS.index("payments") else "".join(columns[place:place + 1])
    expected = names + " is expected there" if names else f"there are {len(columns)} columns"
    return f"column {place + 1} is {desk.quoted(cells[place])}, and {expected}"


def parted_otherwise(cells: list[str]) -> str:
    """What to say of a row that another mark parts into more cells than commas do, and otherwise nothing."""
    mark = next((mark for mark in OTHER_MARKS if "".join(cells).count(mark) >= len(cells)), None)
    return f"its cells are parted by {OTHER_MARKS[mark]}, not by commas" if mark else ""


class Row:
    """A row of the header's length: the entry that it states, and the faults of its cells without a meaning.

    Such a cell has no number and cannot be written. In the entry stands a value that the rules accept, so that the other cells
    can be held against them.
    """

    def __init__(self, number: int, cells: dict[str, str], anyway: bool) -> None:
        self.number, self.cells = number, cells
        self.faults: list[Fault] = []
        bare = not self.cells["coupon"].strip()
        likely = books.ZERO if bare else books.FIXED
        kind = self.read("kind", lambda text: kind_of(text, anyway), "is neither zero nor fixed", likely)
        periods = self.read("periods", whole, "is not a whole number", 1)
        coupon = 0.0 if bare and kind == books.ZERO else self.read_rate("coupon")
        payments = self.read_payments(anyway)
        identifier = self.cells["identifier"].encode("utf-8", "surrogateescape")  # a word of a command may have bytes that are no UTF-8
        self.entry = Entry(identifier, kind, periods, payments, coupon, self.read_rate("yield"))

    def read(self, column: str, meaning: collections.abc.Callable[[str], T], fault: str, accepted: T) -> T:
        text = self.cells[column]
        try:
            return meaning(text)
        except (KeyError, ValueError):
            shown = desk.quoted(text) if text.strip() else "an empty cell"
            self.faults.append(Fault(None, self.number, column, f"{shown} {fault}{desk.strange(text)}"))
            return accepted

    def read_payments(self, anyway: bool) -> int:
        """The byte, which is 0 where nothing is stated. A cell of 0 states no payments, and not two: it has no meaning."""
        if not self.cells.get("payments", "").strip():
            return 0
        payments = self.read("payments", whole, "is not a whole number", 2)
        if payments == 0 and not anyway:
            self.faults.append(Fault(None, self.number, "payments", books.no_payments("0")))
        return payments

    def read_rate(self, column: str) -> float:
        hint = rate_hint(column, self.cells[column].strip())
        return self.read(column, lambda text: float(plain(text)), f"is not a number{hint}", 0.0)

    def stated(self) -> books.Stated:
        return books.Stated(self.number, self.entry, {column: cell.strip() for column, cell in self.cells.items()})

    def doubts(self) -> collections.abc.Iterator[Fault]:
        """Rates that the rules accept, and that may be in the other unit."""
        _, entry, texts = self.stated()
        shown = {column: desk.shortened(text) for column, text in texts.items()}
        if 0 < entry.coupon < LEAST_COUPON:
            percent = books.shifted(texts["coupon"], 2)
            text = f"{shown['coupon']} is taken as {shown['coupon']} per 100 of face; a coupon of {percent} percent is written {percent}"
            yield Fault(None, self.number, "coupon", text)
        if books.LOWEST_YIELD <= entry.ytm < DOUBTED_BELOW or MOST_YIELD < entry.ytm <= books.HIGHEST_YIELD:
            percent, fraction = books.shifted(texts["yield"], 2), books.shifted(texts["yield"], -2)
            text = f"{shown['yield']} is taken as {percent} percent; a yield of {shown['yield']} percent is written {fraction}"
            yield Fault(None, self.number, "yield", text)


def rate_hint(column: str, text: str) -> str:
    """What is said of a rate that is no number, where it may be meant as one."""
    if "," in text:
        return f"; {POINT}"
    number = text[:-1].rstrip()
    if not text.endswith("%") or not re.fullmatch(r"-?[0-9]+(\.[0-9]+)?", number):
        return ""
    return books.percent_hint(column, number, float(number))


def kind_of(text: str, anyway: bool) -> int:
    text = text.strip().lower()
    return whole(text) if anyway and text.isdecimal() else KINDS[text]


def whole(text: str) -> int:
    """A whole number of any length, which int() does not read."""
    if not re.fullmatch("[+-]?[0-9]+", plain(text)):
        raise ValueError
    return int(decimal.Decimal(plain(text)))


def plain(text: str) -> str:
    """The text of a number. float() reads 2_0 as 20, and digits of other scripts, which a cell hardly means."""
    text = text.strip()
    if "_" in text or not text.isascii():
        raise ValueError
    return text


def read_rows(columns: list[str], rows: Rows, anyway: bool) -> tuple[list[Row], list[Fault]]:
    """The rows that have the header's length, and the faults of the others and of cells without a meaning."""
    read = [Row(number, dict(zip(columns, row)), anyway) for number, row in rows if len(row) == len(columns)]
    expected = f"the header has {len(columns)}"
    found = [Fault(None, number, None, length_text(row, len(columns), expected)) for number, row in rows if len(row) != len(columns)]
    return read, found + [fault for row in read for fault in row.faults]


def length_text(row: list[str], length: int, expected: str) -> str:
    more = f"; {POINT}" if len(row) > length else ""
    return parted_otherwise(row) or f"{desk.plural(len(row), 'cell')}, and {expected}{more}"


def read_row(text: str, number: int) -> Row:
    """The one row of a text without a header, by its cells with the payments or without."""
    rows = read_csv(text, "a row of CSV")
    if len(rows) != 1:
        raise desk.Stop(f"{desk.plural(len(rows), 'row')}, and one is added at a time")
    columns = COLUMNS if len(rows[0][1]) > len(NEEDED) else NEEDED
    cells = without_end(rows[0][1], columns)
    if len(cells) != len(columns):
        expected = f"a row has {len(NEEDED)}, or {len(COLUMNS)} with payments after periods"
        refuse([Fault(None, number, None, length_text(cells, len(COLUMNS), expected))])
    return Row(number, dict(zip(columns, cells)), False)


# Faults as messages.


def told(fault: Fault) -> str:
    """A fault as a line: the row and the column, what is wrong, and the number."""
    where = f"row {fault.row}" + (f", column {fault.column}" if fault.column else "") + ": " if fault.row else ""
    return where + fault.text + (f" (refused {fault.number})" if fault.number else "")


def place(fault: Fault) -> tuple[int, int]:
    """For the order of the lines: the sizes, then row by row and from left to right."""
    return fault.row or 0, [None, *COLUMNS].index(fault.column)


def refuse(found: list[Fault]) -> None:
    """Stops where there are faults."""
    if found:
        status = desk.REFUSED if any(fault.number for fault in found) else desk.FAULTY
        raise desk.Stop(desk.listed([told(fault) for fault in sorted(found, key=place)], "fault"), status)


# From the CSV to the bytes, and back.


class Sheet:
    """What a CSV states: a machine count, if any, and the bonds."""

    def __init__(self, text: str) -> None:
        rows = read_csv(text)
        self.machines, self.faults = stated_machines(rows)
        self.columns, self.rows = with_columns(rows)

    def book(self, machines: int | None = None, anyway: bool = False) -> tuple[bytes, list[Fault]]:
        """The bytes of the book, and the doubts about its rates."""
        machines = next(count for count in (machines, self.machines, MACHINES) if count is not None)
        if not anyway and len(self.rows) > books.MOST_ENTRIES:
            refuse([*self.faults, *books.size_faults(machines, len(self.rows))])
        read, found = read_rows(self.columns, self.rows, anyway)
        stated = [row.stated() for row in read]
        rules = books.place_faults(machines, stated) if anyway else [*books.size_faults(machines, len(read)), *books.entry_faults(stated)]
        refuse([*self.faults, *found, *rules])
        return books.book_of(machines, [row.entry for row in read]), [doubt for row in read for doubt in row.doubts()]


def make(text: str) -> bytes:
    """The bytes of the book that a CSV states."""
    return Sheet(text).book()[0]


def add(book: bytes, text: str) -> tuple[bytes, list[Fault]]:
    """The bytes of an accepted book with a row's bond last, and the doubts about its rates."""
    old = books.stated_in(book)
    refuse(list(books.size_faults(book[0], len(old) + 1)))
    row = read_row(text, books.SHOWN_ROWS[len(old)])
    refuse([*row.faults, *books.entry_faults([*old, row.stated()])])
    term = books.TERM.pack(*row.entry[1:])
    number, grown = books.added(book + bytes(books.ENTRY_BYTES), len(book), row.entry.identifier, term)
    assert number == 0  # by the two lists of faults
    return grown, list(row.doubts())


def show(book: bytes) -> str:
    """The CSV of a book without shape_fault."""
    machines, entries = books.parts(book)
    out = io.StringIO(newline="")
    writer = csv.writer(out, lineterminator="\n")
    out.write(f"# machines {machines}\n")
    columns = COLUMNS if any(entry.payments for entry in entries) else NEEDED
    writer.writerow(columns)
    for entry in entries:
        cells = shown_cells(entry)
        writer.writerow([cells[column] for column in columns])
    return out.getvalue()


def shown_identifier(identifier: bytes) -> str:
    """A byte that is no character of ASCII, or one that a terminal would act on, is shown by its number."""
    return "".join(chr(byte) if 32 <= byte < 127 else f"\\x{byte:02x}" for byte in identifier)


def shown_cells(entry: Entry) -> dict[str, str]:
    cells = {"identifier": shown_identifier(entry.identifier), **books.texts_of(entry)}
    cells["kind"] = {number: name for name, number in KINDS.items()}.get(entry.kind, cells["kind"])
    if entry.payments == 0:
        cells["payments"] = ""
    if entry.kind == books.ZERO and books.is_bare(entry):
        cells["coupon"] = ""
    return cells


# The commands.


def command_make(args: argparse.Namespace) -> None:
    with desk.making(args.book):
        sheet = Sheet(desk.read_text(args.csv))
        data, doubts = sheet.book(args.machines, args.anyway)
    desk.write_bytes(args.book, data, [args.csv])
    unstated = args.machines is None and sheet.machines is None
    warnings = [f"no machine count is stated: {MACHINES} machines are taken"] if unstated else []
    warnings += [] if sheet.rows else ["no bonds"]
    warn_of([*warnings, *map(told, doubts)])
    if books.number_of(data) != 0:
        desk.warn(f"{args.book} is a faulty book: refused {books.number_of(data)}")


def warn_of(texts: list[str]) -> None:
    desk.warn(desk.listed([f"warning: {text}" for text in texts], "warning"))


def command_add(args: argparse.Namespace) -> None:
    book = desk.read_bytes(args.book, books.MOST_BYTES)
    with desk.making(args.book):
        for fault in books.faults(book):  # the first has the book's number; show names them all
            raise desk.Stop(f"{args.book} is a faulty book: {told(fault)}", desk.REFUSED)
        data, doubts = add(book, args.row)
    desk.write_bytes(args.book, data, [])
    warn_of(list(map(told, doubts)))


def command_show(args: argparse.Namespace) -> None:
    book = desk.read_bytes(args.book, books.MOST_BYTES)
    shape = books.shape_fault(book)
    if shape:
        raise desk.Stop(f"{args.book}: {told(shape)}", desk.REFUSED)
    desk.say(show(book))
    refuse(list(books.faults(book)))


def whole_number(text: str) -> int:
    try:
        return whole(text)
    except ValueError:
        raise argparse.ArgumentTypeError(f"{desk.quoted(text)} is not a whole number") from None


def main() -> int:
    parser = desk.Parser(description=__doc__)
    commands = parser.add_subparsers(required=True, metavar="make|add|show")
    making = commands.add_parser("make", help="make book.bin from a CSV file", description=parser.description)
    making.add_argument("csv", metavar="BOOK.csv", type=desk.stated_path)
    making.add_argument("book", metavar="book.bin", type=desk.stated_path)
    making.add_argument("--machines", type=whole_number, metavar="N", help="machine count, 2 to 16")
    making.add_argument("--anyway", action="store_true", help="write a faulty book too")
    making.set_defaults(command=command_make)
    adding = commands.add_parser("add", help="add one bond to book.bin", description=parser.description)
    adding.add_argument("book", metavar="book.bin", type=desk.stated_path)
    adding.add_argument("row", metavar="ROW")
    adding.set_defaults(command=command_add)
    showing = commands.add_parser("show", help="print a book as CSV", description=parser.description)
    showing.add_argument("book", metavar="book.bin", type=desk.stated_path)
    showing.set_defaults(command=command_show)
    args = parser.parse_args()
    args.command(args)
    return desk.DONE


if __name__ == "__main__":
    desk.run(main)
