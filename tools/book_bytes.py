"""The bytes of a book, the rules of documents 01 and 02 for them, and adding an entry. For the desk's tools and make_sample.py.

It is not run by itself, and needs Python's standard library only. This is the one place where they read or write the bytes of
a book. make_book_cases.py has functions of its own, so that what it decides is a test of these (test_desk.py).
"""
import collections.abc
import decimal
import string
import struct
import typing
import unicodedata

import desk

ZERO, FIXED = 1, 2  # the kinds
MOST_ENTRIES = 64
SIZES = struct.Struct("<HH")  # machine count, entry count
TERM = struct.Struct("<BBBdd")  # kind, periods, payments per year, coupon, yield
ENTRY_BYTES = 12 + TERM.size
MOST_BYTES = SIZES.size + ENTRY_BYTES * MOST_ENTRIES
NO_ROOM = 23  # "buffer shorter than the grown book" (document 02, 2.2)
MOST_SIZE, MOST_BYTE = 0xFFFF, 0xFF  # that there is a place for
LOWEST_YIELD, HIGHEST_YIELD = -0.5, 1.0  # "A yield now lies from -0.5 to 1, ends included" (document 02, 2.1)
A_YEAR = {0: 2, 1: 1, 2: 2, 4: 4, 12: 12}  # "the payments per year: 1, 2, 4 or 12, and 0 reads as 2" (document 02, 2.3)
LETTERS, DIGITS = (string.ascii_uppercase, "A to Z"), (string.digits, "0 to 9")
EITHER = (LETTERS[0] + DIGITS[0], "A to Z or 0 to 9")
FORM = [LETTERS] * 2 + [EITHER] * 9 + [DIGITS]  # of an identifier: for each place the characters, and how they are called
DOUBLED = [0, 2, 4, 6, 8, 1, 3, 5, 7, 9]
SHOWN_ROWS = range(3, 3 + MOST_ENTRIES)  # of the entries as book.py shows them, after the machine count and the header


class Entry(typing.NamedTuple):
    identifier: bytes
    kind: int
    periods: int  # they count payments; a zero has one, at the end of the last
    payments: int  # the byte
    coupon: float
    ytm: float

    @property
    def a_year(self) -> int:
        """The payments per year that an accepted entry's byte stands for."""
        return A_YEAR[self.payments]


class Stated(typing.NamedTuple):
    """An entry, where it stands, and the numbers of its term as they are told, by column."""
    row: int
    entry: Entry
    texts: dict[str, str]


class Fault(typing.NamedTuple):
    number: int | None  # document 01's; none where a cell has no meaning
    row: int | None  # of the CSV; none where a size is at fault
    column: str | None  # none where it is not of one cell
    text: str


# "The identifier".


def check_digit(base: bytes) -> int:
    """The digit that brings the total over the eleven characters and itself to a multiple of ten."""
    digits = [int(d) for character in base.decode("ascii") for d in str(int(character, 36))]
    total = sum(DOUBLED[d] if place % 2 == 0 else d for place, d in enumerate(reversed(digits)))
    return -total % 10


def with_check_digit(base: bytes) -> bytes:
    return base + b"%d" % check_digit(base)


def form_fault(text: str) -> str:
    """What is wrong with the form of an identifier; nothing where it is right."""
    for place, (allowed, words) in enumerate(FORM):
        if place == len(text):
            return f"it has {desk.plural(place, 'character')}, and an identifier has {len(FORM)}"
        if text[place] not in allowed:
            return f"character {place + 1} is {desk.named(text[place])}, and {words} is expected there"
    more = text[len(FORM):]
    return f"character {len(FORM) + 1} is {desk.named(more[0])}, and an identifier has {len(FORM)}" if more else ""


def meant_by(text: str) -> str:
    """The identifier that a text of another form may stand for: in capitals, without blanks. Empty where none would pass."""
    plain = "".join(c for c in unicodedata.normalize("NFKC", text) if not c.isspace() and unicodedata.category(c) != "Cf").upper()
    if form_fault(plain):
        return ""
    return plain if str(check_digit(plain[:-1].encode("ascii"))) == plain[-1] else ""


def identifier_fault(identifier: bytes, rows: dict[bytes, int], row: int) -> tuple[int, str] | None:
    """4, 5 or 6, and why. An identifier stands first, or is meant first, in the row that is in rows."""
    text = identifier.decode("utf-8", "surrogateescape")
    why = form_fault(text)
    if why:
        return 4, f"{desk.quoted(text)} is no identifier: {why}{identifier_hint(meant_by(text), rows, row)}"
    digit = check_digit(identifier[:-1])
    if int(text[-1]) != digit:
        return 5, f"the check digit of {text} is {digit}"
    return (6, f"{text} is the identifier of row {rows[identifier]} too") if rows[identifier] != row else None


def identifier_hint(meant: str, rows: dict[bytes, int], row: int) -> str:
    if not meant:
        return ""
    other = rows.setdefault(meant.encode("ascii"), row)
    return f"; did you mean {meant}?" if other == row else f"; as {meant} it is the identifier of row {other} too"


# Numbers as texts.


def texts_of(entry: Entry) -> dict[str, str]:
    """Where no cell states them."""
    return {"kind": str(entry.kind), "periods": str(entry.periods), "payments": str(entry.payments),
            "coupon": repr(entry.coupon), "yield": repr(entry.ytm)}


def shifted(text: str, places: int) -> str:
    """The text of a decimal number times a power of ten, with all its digits."""
    return desk.shortened(f"{decimal.Decimal(text).scaleb(places, decimal.Context(prec=decimal.MAX_PREC)):f}")


def digits_of(number: int) -> str:
    """Of a whole number of any length, which Python's str() does not take."""
    return desk.shortened(f"{decimal.Decimal(number):f}")


# The rules of "The book", and the places Book and Lowest faulty entry of the refusals.


def term_faults(entry: Entry, texts: dict[str, str]) -> collections.abc.Iterator[tuple[str, str]]:
    """The columns of a term that are outside the rules; all of them are 7. A NaN fails each comparison."""
    shown = {column: desk.shortened(text) for column, text in texts.items()}
    if entry.kind not in (ZERO, FIXED):
        yield "kind", f"{shown['kind']} is neither 1 (zero) nor 2 (fixed)"
    if not 1 <= entry.periods <= 240:
        yield "periods", f"{shown['periods']} is outside 1 to 240"
    if entry.payments not in A_YEAR:
        yield "payments", no_payments(shown["payments"])
    if not 0 <= entry.coupon <= 100:
        yield "coupon", f"{shown['coupon']} is outside 0 to 100"
    elif entry.kind == ZERO and not is_bare(entry):
        yield "coupon", f"a zero has no coupon, and this is {shown['coupon']}"
    if not LOWEST_YIELD <= entry.ytm <= HIGHEST_YIELD:
        yield "yield", f"{shown['yield']} is outside {LOWEST_YIELD:g} to {HIGHEST_YIELD:g}{percent_hint('yield', texts['yield'], entry.ytm)}"


def no_payments(text: str) -> str:
    return f"{text} is none of 1, 2, 4 and 12 payments a year; an empty cell is 2"


def percent_hint(column: str, text: str, number: float) -> str:
    """How a percentage is written, where it is one that a rate may be."""
    least, most, places = (100 * LOWEST_YIELD, 100 * HIGHEST_YIELD, -2) if column == "yield" else (0, 100, 0)
    return f"; {desk.shortened(text)} percent is written {shifted(text, places)}" if least <= number <= most else ""


def is_bare(entry: Entry) -> bool:
    """Whether the coupon has all 64 bits clear."""
    return struct.pack("<d", entry.coupon) == bytes(8)


def size_faults(machines: int, n: int) -> collections.abc.Iterator[Fault]:
    if not 2 <= machines <= 16:
        yield Fault(2, None, None, f"machines: {digits_of(machines)} is outside 2 to 16")
    if not 0 <= n <= MOST_ENTRIES:
        yield Fault(2, None, None, f"{n} bonds, and a book has {MOST_ENTRIES} at most")


def entry_faults(stated: list[Stated]) -> collections.abc.Iterator[Fault]:
    """Every fault of the entries. The number of a book of the right sizes is that of the first one."""
    first: dict[bytes, int] = {}
    for row, entry, _ in stated:
        first.setdefault(entry.identifier, row)
    for row, entry, texts in stated:
        fault = identifier_fault(entry.identifier, first, row)
        if fault:
            yield Fault(fault[0], row, "identifier", fault[1])
        yield from (Fault(7, row, column, text) for column, text in term_faults(entry, texts))


def place_faults(machines: int, stated: list[Stated]) -> collections.abc.Iterator[Fault]:
    """The numbers that even a faulty book has no place for."""
    for name, size in (("machines", machines), ("bonds", len(stated))):
        if not 0 <= size <= MOST_SIZE:
            yield Fault(None, None, None, f"{name}: {digits_of(size)} does not fit into its place, which takes 0 to {MOST_SIZE}")
    for row, entry, texts in stated:
        for column, number in (("kind", entry.kind), ("periods", entry.periods), ("payments", entry.payments)):
            if not 0 <= number <= MOST_BYTE:
                text = f"{desk.shortened(texts[column])} does not fit into its place, which takes 0 to {MOST_BYTE}"
                yield Fault(None, row, column, text)


def shape_fault(book: bytes) -> Fault | None:
    """The refusals 1, 2 and 3, after which a book has no entries to look at."""
    if len(book) < SIZES.size:
        return Fault(1, None, None, f"{len(book)} bytes, and a book has {SIZES.size} at least")
    machines, n = SIZES.unpack_from(book)
    for fault in size_faults(machines, n):
        return fault
    if len(book) != 4 + 31 * n:
        length = len(book) if len(book) <= MOST_BYTES else f"more than {MOST_BYTES}"
        return Fault(3, None, None, f"{length} bytes, and a book of {n} bonds has {4 + 31 * n}")
    return None


def faults(book: bytes) -> collections.abc.Iterator[Fault]:
    """Every fault of a book, as far as it has a shape."""
    shape = shape_fault(book)
    if shape:
        yield shape
    else:
        yield from entry_faults(stated_in(book))


def stated_in(book: bytes) -> list[Stated]:
    """The entries of a book without shape_fault, with the rows that book.py shows them in."""
    return [Stated(row, entry, texts_of(entry)) for row, entry in zip(SHOWN_ROWS, parts(book)[1])]


def number_of(book: bytes) -> int:
    """0, or the number of the book's refusal."""
    return next((fault.number for fault in faults(book) if fault.number), 0)


# The bytes.


def parts(book: bytes) -> tuple[int, list[Entry]]:
    """Machine count and entries of a book without shape_fault."""
    machines, n = SIZES.unpack_from(book)
    names = [book[4 + 12 * i:16 + 12 * i] for i in range(n)]
    terms = [TERM.unpack_from(book, 4 + 12 * n + 19 * i) for i in range(n)]
    return machines, [Entry(name, *term) for name, term in zip(names, terms)]


def book_of(machines: int, entries: list[Entry]) -> bytes:
    """The book of these entries; an identifier is filled with spaces or cut to 12 bytes."""
    names = b"".join(entry.identifier.ljust(12)[:12] for entry in entries)
    return SIZES.pack(machines, len(entries)) + names + b"".join(TERM.pack(*entry[1:]) for entry in entries)


# "Adding an entry to a book" (document 02, 2.2).


def added(buffer: bytes, count: int, identifier: bytes, term: bytes) -> tuple[int, bytes]:
    """The number of the writer, and the buffer after it, whose first count bytes are a book. Where the number is not 0 it is as it was."""
    number = adding_number(buffer, count, identifier, term)
    if number:
        return number, buffer
    machines, n = SIZES.unpack_from(buffer)
    names = SIZES.size + 12 * n  # where the old identifiers end and the old terms begin
    grown = SIZES.pack(machines, n + 1) + buffer[SIZES.size:names] + identifier + buffer[names:count] + term
    return 0, grown + buffer[len(grown):]


def adding_number(buffer: bytes, count: int, identifier: bytes, term: bytes) -> int:
    """By the stated count, which "past the buffer's end is refused 3 before all else", then the book, the entry, and last the room."""
    if count > len(buffer):
        return 3
    number = number_of(buffer[:count])
    if number:
        return number
    entries = parts(buffer[:count])[1]
    if len(entries) == MOST_ENTRIES:
        return 2
    no_room = NO_ROOM if len(buffer) - count < ENTRY_BYTES else 0
    return new_entry_number(entries, identifier, term) or no_room


def new_entry_number(entries: list[Entry], identifier: bytes, term: bytes) -> int:
    """As entry_faults has it; besides, "an identifier not of 12 bytes is refused 4, terms not of 19 bytes 7"."""
    rows = {entry.identifier: row for row, entry in zip(SHOWN_ROWS, entries)}
    row = SHOWN_ROWS[len(entries)]
    fault = identifier_fault(identifier, {identifier: row, **rows}, row)
    if fault:
        return fault[0]
    if len(term) != TERM.size:
        return 7
    entry = Entry(identifier, *TERM.unpack(term))
    return 7 if any(term_faults(entry, texts_of(entry))) else 0
