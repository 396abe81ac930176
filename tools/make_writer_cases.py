#!/usr/bin/python3
"""Writes the books and the calls of the writer that the program test_book is run on, and what it must print.

To run, at the root of the repository: /usr/bin/python3 tools/make_writer_cases.py
It needs Python's standard library only (last run with Python 3.11).

The functions of the first part implement document 02's "Adding an entry to a book" over the reader of make_book_cases.py. They share
nothing with the crates, nor with book_bytes.py of the desk's tools, which has the same rules: what they decide tests both (test_desk.py for
the latter). Each case that is not random has its number stated beside it; the script fails where these functions have another.

The books are those of make_book_cases.py. A call is seven bytes, then the buffer, the identifier, the terms, and the buffer as it must be
afterwards. The seven are the length of the buffer in two; the expected number; the stated count in two; the lengths of the identifier and of
the terms. All is little-endian.

The result depends on nothing else: the random choices have a fixed seed.
"""
import math
import random
import struct
import typing

import make_book_cases as books
from make_book_cases import BAD_DIGIT, BAD_FORM, BAD_TERM, TOO_LOW, name, plain, plain_term, term, with_parts
from vector_files import ROOT, fail_unless

CRATE = ROOT / "crates" / "test_book"
NUMBERS = [0, 1, 2, 3, 4, 5, 6, 7, 23]  # accepted, and the refusals
ENTRY = 31  # bytes of an entry: an identifier and its terms


class Case(typing.NamedTuple):
    buffer: bytes
    count: int
    identifier: bytes
    terms: bytes


# Document 02, 2.2.


def number_of(case: Case) -> int:
    """The conditions in the order of their sentences."""
    if case.count > len(case.buffer):  # "A stated count past the buffer's end is refused 3 before all else."
        return 3
    book = case.buffer[:case.count]
    number = books.number_of(book)  # "a faulty book is refused by its own number, a 65th entry by 2, a faulty entry by 4 to 7"
    if number != 0:
        return number
    names, _ = books.parts(book)
    if len(names) == 64:
        return 2
    number = entry_number(names, case.identifier, case.terms)
    if number != 0:
        return number
    return 23 if len(case.buffer) < case.count + ENTRY else 0  # "23, buffer shorter than the grown book, checked last"


def entry_number(names: list[bytes], identifier: bytes, terms: bytes) -> int:
    fault = books.identifier_fault(identifier)  # 4 for another length too: the form is twelve characters
    if fault != 0:
        return fault
    if identifier in names:
        return 6
    return 0 if len(terms) == 19 and books.is_term(terms) else 7


def after(case: Case) -> bytes:
    """The buffer with "the book with that entry last"; "the bytes past the grown book are untouched"."""
    if number_of(case) != 0:
        return case.buffer
    names, terms = books.parts(case.buffer[:case.count])
    machines = int.from_bytes(case.buffer[:2], "little")
    grown = books.book([*names, case.identifier], [*terms, case.terms], machines)
    return grown + case.buffer[len(grown):]


# The parts of the cases.

REST = bytes(range(131, 256)) * 2  # what follows a book: no byte of it is 0
GOOD_NAME, GOOD_TERM = name(70), term(1, 9, 0.0, 0.0349, 1)  # in no plain book


def call(book: bytes, identifier: bytes = GOOD_NAME, terms: bytes = GOOD_TERM, room: int = ENTRY + 3, count: int | None = None) -> Case:
    """The entry added to a book that has so many bytes of room after it."""
    return Case(book + REST[:room], len(book) if count is None else count, identifier, terms)


Stated = typing.Iterator[tuple[int, Case]]  # each with its number


def counts() -> Stated:
    """The stated count, and the numbers of a book that come of it."""
    for count in range(4):
        yield 1, call(plain(1), count=count)
        yield 1, Case(plain(0)[:count], count, GOOD_NAME, GOOD_TERM)
    for book in (b"", plain(0), plain(1)):
        for room in (0, 1, 34):
            length = len(book) + room
            yield from ((3, call(book, room=room, count=count)) for count in (length + 1, length + ENTRY, 256 + length, 32768, 65535))
            yield 3, call(book, BAD_FORM, BAD_TERM, room, length + 1)  # before all else
    yield 3, Case(bytes(3), 4, GOOD_NAME, GOOD_TERM)  # and not 1
    yield 3, Case(b"\1\0\0\0", 5, GOOD_NAME, GOOD_TERM)  # and not 2, which the book would get
    for book in (plain(1), plain(2)):
        yield from ((3, call(book, count=count)) for count in (4, len(book) - 1, len(book) + 1, len(book) + ENTRY))  # a book of another length
    yield 3, call(plain(2), room=0, count=len(plain(2)) - 1)
    yield 3, call(plain(2), BAD_FORM, BAD_TERM, 0, len(plain(2)) + 1)


def faulty_books() -> Stated:
    """A faulty book by its own number, whatever else is wrong."""
    for entry in ((GOOD_NAME, GOOD_TERM), (BAD_FORM, BAD_TERM)):
        for room in (0, ENTRY):
            for machines in (0, 1, 17, 258):
                yield 2, call(plain(1, machines), *entry, room)
            yield 2, call(struct.pack("<HH", 2, 65), *entry, room)
            yield 3, call(plain(1) + b"\0", *entry, room)
            yield 4, call(with_parts(2, names={1: BAD_FORM}), *entry, room)
            yield 5, call(with_parts(2, names={1: BAD_DIGIT}), *entry, room)
            yield 6, call(with_parts(2, names={1: name(0)}), *entry, room)
            yield 7, call(with_parts(2, terms={0: BAD_TERM}), *entry, room)
    yield 5, call(with_parts(2, {1: BAD_FORM, 0: BAD_DIGIT}), name(1), BAD_TERM, 0)
    yield 7, call(with_parts(2, {1: BAD_FORM}, {0: BAD_TERM}), name(0), GOOD_TERM, 0)


def rooms() -> Stated:
    """What follows the book."""
    for n in (0, 1, 3):
        for room in (0, 1, 12, 19, 30):
            yield 23, call(plain(n), room=room)
        for room in (31, 32, 33, 62):
            yield 0, call(plain(n), room=room)
        yield 0, Case(plain(n) + bytes(40), len(plain(n)), GOOD_NAME, GOOD_TERM)
    yield 0, call(plain(1) + plain(1), count=len(plain(1)))  # a second book after the first


def entries() -> Stated:
    """The entry: its identifier and its terms, and two faults at once in the order of the chain."""
    for length in (0, 1, 11, 13, 255):
        yield 4, call(plain(1), (GOOD_NAME * 22)[:length])
    yield from ((4, call(plain(0), text)) for text in books.FORM_FAULTS)
    yield from ((5, call(plain(0), text)) for text in books.DIGIT_FAULTS)
    for i in (0, 1, 2):
        yield 6, call(plain(3), name(i))
        yield 6, call(plain(3), name(i), BAD_TERM, 0)
    yield 0, call(plain(2), name(2))
    for length in (0, 1, 18, 20, 38, 255):
        yield 7, call(plain(1), terms=(GOOD_TERM * 14)[:length])
    yield from ((0 if text in books.ONCE_A_YEAR else 7, call(plain(0), terms=text)) for text in books.TERM_FAULTS)
    yield from ((0, call(plain(0), terms=text)) for text in books.GOOD_TERMS)
    yield from ((0, call(plain(1), text)) for text in books.GOOD_NAMES[2:])
    for byte in (0, 1, 2, 3, 4, 5, 6, 11, 12, 13, 24, 255):
        for kind in (1, 2):
            yield 0 if byte in (0, 1, 2, 4, 12) else 7, call(plain(1), terms=books.paid(kind, byte))
    for ytm in (-0.5, TOO_LOW, math.nextafter(-0.5, 0.0)):
        yield 7 if ytm == TOO_LOW else 0, call(plain(0), terms=term(2, 240, 100.0, ytm, 12))


def pairs() -> Stated:
    """Two faults at once, neighbours in the chain: the first has the number."""
    long_name, long_terms = GOOD_NAME + b"0", GOOD_TERM + b"\0"
    for identifier, number in ((BAD_FORM, 4), (long_name, 4), (b"", 4), (BAD_DIGIT, 5), (name(0), 6)):
        for terms in (BAD_TERM, long_terms, b""):
            yield number, call(plain(1), identifier, terms)
            yield number, call(plain(1), identifier, terms, 30)
        yield number, call(plain(1), identifier, room=0)
    for terms in (BAD_TERM, long_terms, GOOD_TERM[:18], b""):
        yield from ((7, call(plain(1), terms=terms, room=room)) for room in (0, 30))
    yield 5, call(with_parts(1, names={0: BAD_DIGIT}), BAD_DIGIT, GOOD_TERM)  # the book's 5, not the entry's 5 or 6
    yield 7, call(with_parts(1, terms={0: BAD_TERM}), name(0))


def full() -> Stated:
    """63 and 64 entries."""
    yield 0, call(plain(63), room=32)
    yield 23, call(plain(63), room=30)
    yield 2, call(plain(64), room=31)
    yield 2, call(plain(64), name(63), BAD_TERM, 0)


def rules() -> Stated:
    for cases in (counts, faulty_books, rooms, entries, pairs, full):
        yield from cases()


def building(machines: int, names: list[bytes], terms: list[bytes], rest: bytes, shown: typing.Container[int] = range(64)) -> Stated:
    """From the book of no entry, with this rest after the place of the last one: the calls of the entries shown.

    Fails where what is built is not the book of these entries, or not the rest is left.
    """
    buffer = books.book([], [], machines) + REST[:1] * (ENTRY * len(names)) + rest
    for i, entry in enumerate(zip(names, terms)):
        case = Case(buffer, 4 + ENTRY * i, *entry)
        if i in shown:
            end = 4 + ENTRY * (i + 1) + len(rest)  # as much of the buffer as the file has a place for
            yield 0, case._replace(buffer=buffer[:end])
        buffer = after(case)
    fail_unless(buffer == books.book(names, terms, machines) + rest, "a book that is not built")


def built() -> Stated:
    """Books built entry by entry from their empty ones; of the one of 64 entries the first, some, and the last calls."""
    paid = [books.paid(1 + i % 2, (0, 1, 2, 4, 12)[i % 5], i + 1) for i in range(64)]
    plain_names, plain_terms = [name(i) for i in range(64)], [plain_term(i) for i in range(64)]
    yield from building(2, plain_names[:5], plain_terms[:5], b"")
    yield from building(3, books.GOOD_NAMES, books.GOOD_TERMS[-7:], REST[:9])
    yield from building(16, plain_names[10:22], paid[:12], REST[50:57])
    some = [*range(6), 10, 15, 20, 25, 30, 35, 40, 45, 50, 55, 60, 61, 62, 63]
    yield from building(16, plain_names[::-1], paid[::-1], REST[:20], some)
    yield 2, call(books.book(plain_names[::-1], paid[::-1], 16))


def random_book(rng: random.Random) -> bytes:
    """An accepted book, or one that may have faults."""
    if rng.random() < 0.5:
        return plain(rng.randrange(6), rng.randint(2, 16))
    book = books.random_book(rng, [0, 1, 2, 3, 4, 5], rng.choice([1, -0.5]))
    return books.with_third_bytes(rng, book) if books.number_of(book) in (0, 7) and rng.random() < 0.5 else book


def random_entry(rng: random.Random, book: bytes) -> tuple[bytes, bytes]:
    """An identifier, in a third of them with a fault or one of the book, and terms, in a third of them with a fault."""
    identifier, terms = books.random_name(rng), books.random_term(rng, rng.choice([1, -0.5]))
    how = rng.randrange(12)
    if how == 0 and len(book) >= 16:
        identifier = book[4:16]
    elif how < 3:
        identifier = books.damaged_name(rng, [identifier], 0)
    elif how == 3:
        identifier = (identifier * 2)[:rng.choice([0, 11, 13, 24, rng.randrange(24)])]
    if rng.random() < 0.25:
        terms = books.damaged_term(rng, terms)
    elif rng.random() < 0.1:
        terms = (terms * 2)[:rng.choice([0, 18, 20, 38, rng.randrange(38)])]
    return identifier, terms


def random_call(rng: random.Random) -> Case:
    book = random_book(rng)
    room = rng.choice([ENTRY, 30, ENTRY + rng.randrange(30), rng.randrange(61)])
    buffer = book + bytes(rng.randrange(256) for _ in range(room))
    other = rng.choice([rng.randrange(len(buffer) + 40), len(buffer) + 1, 65535])
    return Case(buffer, len(book) if rng.random() < 0.9 else other, *random_entry(rng, book))


def random_calls() -> Stated:
    rng = random.Random(22)
    for _ in range(240):
        case = random_call(rng)
        yield number_of(case), case


# The files.


def record(case: Case) -> bytes:
    head = len(case.buffer), number_of(case), case.count, len(case.identifier), len(case.terms)
    return struct.pack("<HBHBB", *head) + b"".join([case.buffer, case.identifier, case.terms, after(case)])


def write_file(file: str, stated: list[tuple[int, Case]]) -> list[str]:
    """Writes a data file, and answers the lines that the program prints of it."""
    cases, lines = books.write_records(file, stated, number_of, record, NUMBERS)
    return [*lines, f"calls: {len(cases)}", "differences: 0"]


def main() -> None:
    lines = books.write_files()
    for file, stated in (("writer_rules.bin", rules()), ("writer_built.bin", built()), ("writer_random.bin", random_calls())):
        lines += write_file(file, list(stated))
    (CRATE / "stdout").write_text("\n".join(lines) + "\n")
    print("\n".join(lines))


if __name__ == "__main__":
    main()
