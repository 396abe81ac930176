"""Writes the books that the program test_book is run on, and tells what it must print of them.

make_writer_cases.py runs it, adds the calls of the writer, and writes all that the program must print.
It needs Python's standard library only (last run with Python 3.11).

The functions of the first part implement document 01's "The book", "The identifier" and "The price", and the rows Book and Lowest faulty
entry of its table of refusals, with the yields of document 02, 2.1, and the payments per year of 2.3. They share nothing with the crates,
nor with book_bytes.py of the desk's tools, which has the same rules: what they decide tests both (test_desk.py for the latter), and no
reading of the two documents tests itself. Each case that is not random has its number stated beside it; the script fails where these
functions have another.

The result depends on nothing else: the random choices have a fixed seed.
"""
import math
import random
import re
import struct

from vector_files import ROOT, fail_unless

CRATE = ROOT / "crates" / "test_book"
MOST = 65536  # bytes that the program reads of a file
NUMBERS = [0, 1, 2, 3, 4, 5, 6, 7]  # accepted, and the refusals of a book
TOO_LARGE = 11  # the number of an entry number of n or more

# Document 01, and of document 02 the range of a yield and the payments per year.

FORM = re.compile(rb"[A-Z]{2}[A-Z0-9]{9}[0-9]")
DOUBLED = [0, 2, 4, 6, 8, 1, 3, 5, 7, 9]
A_YEAR = {1: 1, 2: 2, 4: 4, 12: 12, 0: 2}  # "the payments per year: 1, 2, 4 or 12, and 0 reads as 2" (document 02, 2.3)


def total_of(base):
    """The sum over the expanded digits of eleven characters."""
    digits = [int(d) for character in base.decode("ascii") for d in str(int(character, 36))]
    return sum(DOUBLED[d] if place % 2 == 0 else d for place, d in enumerate(reversed(digits)))


def identifier_fault(text):
    if not FORM.fullmatch(text):
        return 4
    return 0 if (total_of(text[:11]) + int(text[11:])) % 10 == 0 else 5


def is_term(text):
    """A NaN fails each comparison, and negative zero equals 0. "A yield now lies from -0.5 to 1, ends included" (document 02, 2.1)."""
    kind, periods, payments, coupon, ytm = struct.unpack("<BBBdd", text)
    if kind not in (1, 2) or not 1 <= periods <= 240 or payments not in A_YEAR:
        return False
    if not (0 <= coupon <= 100 and -0.5 <= ytm <= 1):
        return False
    return kind == 2 or text[3:11] == bytes(8)


def parts(book):
    """The identifiers and terms of a book whose length is 4 + 31n."""
    n = int.from_bytes(book[2:4], "little")
    names, terms = book[4:4 + 12 * n], book[4 + 12 * n:]
    return [names[12 * i:12 * i + 12] for i in range(n)], [terms[19 * i:19 * i + 19] for i in range(n)]


def number_of(book):
    if len(book) < 4:
        return 1
    machines, n = struct.unpack("<HH", book[:4])
    if not (2 <= machines <= 16 and n <= 64):
        return 2
    if len(book) != 4 + 31 * n:
        return 3
    names, terms = parts(book)
    for i in range(n):
        fault = identifier_fault(names[i])
        if fault != 0:
            return fault
        if names[i] in names[:i]:
            return 6
        if not is_term(terms[i]):
            return 7
    return 0


def identifier_of(book, i):
    """The number, and the part of the book."""
    number = number_of(book)
    if number != 0:
        return number, b""
    names, _ = parts(book)
    return (0, names[i]) if i < len(names) else (TOO_LARGE, b"")


def price_of(term):
    """Python's float is a binary64, and each operation on it is rounded once.

    "Both divisions by 2 in the formula become divisions by that number, also for a zero" (document 02, 2.3).
    """
    kind, periods, payments, coupon, ytm = struct.unpack("<BBBdd", term)
    d = 1 + ytm / A_YEAR[payments]
    p = 100.0
    for _ in range(periods):
        p = (p + coupon / A_YEAR[payments]) / d if kind == 2 else p / d
    return p


# The parts of the cases.

LETTERS = "ABCDEFGHIJKLMNOPQRSTUVWXYZ"
DIGITS = "0123456789"


def with_check_digit(base):
    base = base.encode("ascii")
    return base + str(-total_of(base) % 10).encode("ascii")


def name(i):
    """The identifier of number i: ZZ0000000016, ZZ0000000024 and so on."""
    return with_check_digit("ZZ%09d" % (i + 1))


def term(kind=2, periods=2, coupon=4.0, ytm=0.0, payments=0):
    return struct.pack("<BBBdd", kind, periods, payments, coupon, ytm)


def plain_term(i):
    """A term for each entry number below 64, no two of one price."""
    return term(1, i + 1, 0.0, 0.05) if i % 2 == 0 else term(2, i + 1, i / 8, 0.0375)


def book(names, terms, machines=2, n=None):
    """The sizes and the two arrays; n where another entry count is to stand there."""
    fail_unless(all(len(text) == 12 for text in names) and all(len(text) == 19 for text in terms), "the size of a part")
    return struct.pack("<HH", machines, len(names) if n is None else n) + b"".join(names) + b"".join(terms)


def plain(n, machines=2):
    """An accepted book."""
    return book(list(map(name, range(n))), list(map(plain_term, range(n))), machines)


def with_parts(n, names=None, terms=None):
    """A plain book of n entries with other identifiers and terms at the entry numbers given."""
    names, terms = names or {}, terms or {}
    return book([names.get(i, name(i)) for i in range(n)], [terms.get(i, plain_term(i)) for i in range(n)])


BAD_FORM = b"ZZ000000016 "
BAD_DIGIT = b"ZZ0000000017"
BAD_TERM = term(periods=241)
NAN = math.nan
TINY = math.nextafter(0.0, 1.0)
TOO_LOW = math.nextafter(-0.5, -1.0)
LOW_TERM = term(ytm=TOO_LOW)

FORM_FAULTS = [
    BAD_FORM, b" ZZ000000016", b"zz0000000016", b"Zz0000000016", b"Z00000000016", b"000000000016", b"ZZ00000a0016", b"ZZ000-000016",
    b"ZZ000000001A", b"ZZ0000000\x0016", b"ZZ00000\xc10016", b"ZZ0000000\xb116", b"ZZ000000001:", b"ZZ000000001/", b"@Z0000000016",
    b"[Z0000000016", bytes(12), b"\xff" * 12,
]
DIGIT_FAULTS = [b"ZZ000000001" + d.encode("ascii") for d in DIGITS if d != "6"] + [b"US0378331006", b"US0738331005"]
TERM_FAULTS = [
    term(kind=0), term(kind=3), term(kind=255), term(kind=0, coupon=0.0), term(kind=3, coupon=0.0),
    term(periods=0), term(periods=241), term(periods=255), term(1, 0, 0.0), term(1, 241, 0.0),
    term(payments=1), term(payments=255), term(1, 2, 0.0, 0.5, payments=1),
    term(coupon=-TINY), term(coupon=math.nextafter(100.0, math.inf)), term(coupon=-4.0), term(coupon=math.inf),
    term(coupon=-math.inf), term(coupon=NAN), term(coupon=-NAN),
    LOW_TERM, term(ytm=math.nextafter(1.0, 2.0)), term(ytm=-1.0), term(ytm=math.inf), term(ytm=-math.inf), term(ytm=NAN),
    term(1, 2, 0.0, TOO_LOW), term(1, 2, 0.0, math.nextafter(1.0, 2.0)), term(1, 2, 0.0, NAN), term(1, 2, 0.0, -NAN),
    term(1, 2, -0.0), term(1, 2, TINY), term(1, 2, 4.0), term(1, 2, NAN), term(1, 2, 0.0, -1.0),
]
ONCE_A_YEAR = [term(payments=1), term(1, 2, 0.0, 0.5, payments=1)]  # of the list above; accepted by document 02, 2.3
GOOD_TERMS = [
    term(periods=1), term(periods=240), term(1, 1, 0.0), term(1, 240, 0.0), term(coupon=0.0), term(coupon=-0.0), term(coupon=100.0),
    term(coupon=TINY), term(ytm=0.0), term(ytm=-0.0), term(ytm=1.0), term(ytm=TINY), term(ytm=0.5), term(1, 2, 0.0, 0.5),
    term(1, 2, 0.0, -0.0), term(1, 2, 0.0, 1.0), term(2, 1, 10.0, 0.5),
    term(ytm=-TINY), term(1, 2, 0.0, -TINY), term(ytm=-0.5), term(1, 2, 0.0, -0.5), term(ytm=math.nextafter(-0.5, 0.0)),
    term(2, 1, 10.0, -0.25), term(2, 240, 100.0, -0.5), term(ytm=-1e-310),
]
GOOD_NAMES = [b"ZZ0000000016", b"ZZ0000000024", b"US0378331005", b"AU0000XVGZA3", b"GB00BYXJL758", b"KYG875721634"]
GOOD_NAMES.append(with_check_digit("ZZZZZZZZZZZ"))

# The cases, each with its number.


def sizes():
    """The rows of the place Book."""
    for length in range(4):
        yield 1, plain(1)[:length]
        yield 1, bytes(length)
        yield 1, b"\xff" * length
    yield 0, plain(0)
    yield 0, plain(0, 16)
    yield 3, plain(0) + b"\0"
    yield 3, plain(1)[:5]
    for n in (0, 1, 2, 3):
        for machines in (2, 3, 15, 16):
            yield 0, plain(n, machines)
        for machines in (0, 1, 17, 255, 256, 258, 512, 65535):  # 258 has a low byte of 2, and 512 is 2 with its bytes in the other order
            yield 2, plain(n, machines)
            yield 2, plain(n, machines) + b"\0"  # a wrong length too
            yield 2, plain(n, machines)[:4 + 31 * n // 2]
    for n in (1, 2, 3, 64):
        yield 3, plain(n)[:-1]
        yield 3, plain(n) + b"\0"
        yield 3, plain(n)[:4]
    yield 3, plain(2)[:-31]
    yield 3, plain(2) + plain(1)[4:]
    for stated in (0, 1, 3, 4, 63, 64):
        yield 3, book([name(0), name(1)], [plain_term(0), plain_term(1)], n=stated)
    yield 0, plain(64)
    yield 0, plain(64, 16)
    yield 0, plain(63)
    yield 2, plain(65)
    yield 2, plain(64, 17)
    for stated in (65, 128, 256, 257, 258, 512, 65535):
        yield 2, struct.pack("<HH", 2, stated)
        yield 2, book([name(0)], [plain_term(0)], n=stated)
    yield 2, struct.pack("<HH", 0, 65535)
    yield 2, book([BAD_FORM], [BAD_TERM], machines=1)
    yield 3, book([BAD_FORM], [BAD_TERM]) + b"\0"
    yield 3, book([name(0), name(0)], [BAD_TERM, BAD_TERM])[:-1]


def at_entry(n, i, number):
    """A book of n entries whose one fault is this number at entry i."""
    if number == 4:
        return with_parts(n, names={i: BAD_FORM})
    if number == 5:
        return with_parts(n, names={i: BAD_DIGIT})
    if number == 6:
        return with_parts(n, names={i: name(i // 2)})
    return with_parts(n, terms={i: BAD_TERM})


def faults():
    """One fault: each number at the first, a middle and the last entry, and each way in which it comes about."""
    for n in (1, 2, 3, 5, 64):
        for number in (4, 5, 6, 7):
            places = {0, n // 2, n - 1} - ({0} if number == 6 else set())  # no entry is before entry 0
            for i in sorted(places):
                yield number, at_entry(n, i, number)
    for i in (0, 1):
        yield from ((4, with_parts(2, names={i: text})) for text in FORM_FAULTS)
        yield from ((5, with_parts(2, names={i: text})) for text in DIGIT_FAULTS)
        yield from ((0 if text in ONCE_A_YEAR else 7, with_parts(2, terms={i: text})) for text in TERM_FAULTS)
        yield from ((0, with_parts(2, terms={i: text})) for text in GOOD_TERMS)
    yield 0, book(GOOD_NAMES[:6], GOOD_TERMS[:6])
    yield 0, book(GOOD_NAMES, GOOD_TERMS[:7], 16)
    yield 0, book([name(0), name(1)], [plain_term(0), plain_term(0)])  # equal terms are no fault
    yield 0, book([name(0), name(1)], [term(), term(1, 2, 0.0, 0.5)])  # the book of document 01's listing
    low = [term(1 + i % 2, i + 1, i % 2 * i / 8, -(i + 1) / 128) for i in range(64)]
    yield 0, book(list(map(name, range(64))), low, 16)  # yields from just below 0 down to the end


def of_two(first, second):
    """Faults of these numbers at two entries, the lower one first. Entry 0 has none, and its identifier is the one repeated."""
    for n, i, k in ((3, 1, 2), (5, 1, 3), (5, 2, 4)):
        names = {at: {4: BAD_FORM, 5: BAD_DIGIT, 6: name(0)}[f] for at, f in ((i, first), (k, second)) if f != 7}
        terms = {at: BAD_TERM for at, f in ((i, first), (k, second)) if f == 7}
        yield first, with_parts(n, names, terms)


def pairs():
    """Two faults in a book, two in an entry, and repeated identifiers."""
    for first in (4, 5, 6, 7):
        for second in (4, 5, 6, 7):
            yield from of_two(first, second)
    yield 7, with_parts(2, {1: BAD_FORM}, {0: BAD_TERM})
    yield 4, with_parts(2, {0: BAD_FORM}, {1: BAD_TERM})
    yield 5, with_parts(3, {0: BAD_DIGIT, 2: name(1)})
    yield 6, with_parts(4, {1: name(0), 3: BAD_DIGIT})
    yield 7, with_parts(64, {63: BAD_FORM}, {0: BAD_TERM})
    yield 4, with_parts(64, {0: BAD_FORM}, {63: BAD_TERM})
    yield 7, with_parts(64, {63: BAD_FORM}, {0: LOW_TERM})
    yield 4, with_parts(64, {0: BAD_FORM}, {63: LOW_TERM})
    yield 5, with_parts(2, {1: BAD_DIGIT}, {0: term(ytm=-0.1)})  # the first entry was a fault while a yield lay from 0 on
    for n, i in ((1, 0), (3, 0), (3, 1), (3, 2), (64, 63)):  # in one entry
        yield 4, with_parts(n, {i: BAD_FORM}, {i: BAD_TERM})
        yield 5, with_parts(n, {i: BAD_DIGIT}, {i: BAD_TERM})
        if i > 0:
            yield 6, with_parts(n, {i: name(0)}, {i: BAD_TERM})
    for n in (2, 3, 5, 64):
        yield 6, with_parts(n, {n - 1: name(0)})
        yield 6, with_parts(n, {0: name(n - 1)})
        yield 6, with_parts(n, {n - 1: name(n - 2)})
        yield 6, book([name(0)] * n, list(map(plain_term, range(n))))
    for n, i in ((3, 0), (5, 1), (5, 3)):  # an entry equal to a faulty one: the faulty one is lower
        yield 4, with_parts(n, {i: BAD_FORM, n - 1: BAD_FORM})
        yield 5, with_parts(n, {i: BAD_DIGIT, n - 1: BAD_DIGIT})
        yield 7, with_parts(n, {n - 1: name(i)}, {i: BAD_TERM})
    base = name(0)[:11].decode("ascii")
    for at in range(11):  # identifiers that differ at one place and in the check digit
        other = with_check_digit(base[:at] + ("A" if at < 2 else "7") + base[at + 1:])
        yield 0, with_parts(2, {1: other})
        yield 6, with_parts(3, {1: other, 2: other})
    yield 0, with_parts(2, {0: with_check_digit("ZZ000000090"), 1: with_check_digit("ZZ000000009")})  # the same check digit


def paid(kind, payments, periods=2):
    """A term whose price depends on the payments."""
    return term(kind, periods, 6.0 if kind == 2 else 0.0, 0.05, payments)


def every_third_byte():
    """In a book of one entry, with a fixed coupon and, near those that are allowed, as a zero."""
    for byte in range(256):
        number = 0 if byte in (0, 1, 2, 4, 12) else 7
        yield number, with_parts(1, terms={0: paid(2, byte)})
        if byte < 16 or byte in (24, 52, 128, 252, 255):
            yield number, with_parts(1, terms={0: paid(1, byte)})


def payments():
    """The payments per year of document 02, 2.3."""
    yield from every_third_byte()
    for i in range(3):
        yield 7, with_parts(3, terms={i: paid(2, 3)})
        yield 0, with_parts(3, terms={i: paid(2, 12), (i + 1) % 3: paid(1, 4), (i + 2) % 3: paid(2, 1)})
    for first in range(5):  # the entries that are asked about have each of the five
        terms = [paid(1 + (i + first) % 2, list(A_YEAR)[(i + first) % 5], i + 1) for i in range(64)]
        yield 0, book(list(map(name, range(64))), terms, 16)
    yield 7, with_parts(64, terms={63: paid(1, 6)})
    for allowed in (1, 2, 4, 12):
        for kind, low, high in ((1, 0.0, 0.0), (2, 0.0, 100.0)):
            yield 0, with_parts(2, terms={0: term(kind, 240, high, -0.5, allowed), 1: term(kind, 1, low, 1.0, allowed)})
            yield 7, with_parts(2, terms={0: term(kind, 241, high, -0.5, allowed)})
            yield 7, with_parts(2, terms={1: term(kind, 240, high, TOO_LOW, allowed)})
        yield 7, with_parts(2, terms={0: term(1, 2, -0.0, 0.05, allowed)})
        yield 5, with_parts(2, {1: BAD_DIGIT}, {0: paid(2, allowed)})  # 7 while the third byte had to be 0
    for number, text in ((4, BAD_FORM), (5, BAD_DIGIT), (6, name(0))):
        yield number, with_parts(3, {1: text}, {1: paid(2, 3)})  # two faults in one entry
        yield number, with_parts(3, {1: text}, {2: paid(2, 3)})
        yield 7, with_parts(3, {2: text}, {1: paid(2, 3)})


def random_name(rng):
    letters = rng.choice([0.0, 0.2, 0.8])
    rest = "".join(rng.choice(LETTERS if rng.random() < letters else DIGITS) for _ in range(9))
    return with_check_digit(rng.choice(LETTERS) + rng.choice(LETTERS) + rest)


def random_term(rng, end):
    """A term with a yield from 0 to an end."""
    if rng.random() < 0.4:
        return term(1, rng.randint(1, 240), 0.0, end * rng.random())
    return term(2, rng.randint(1, 240), rng.choice([rng.randint(0, 800) / 8, 100 * rng.random()]), end * rng.random())


def damaged_name(rng, names, i):
    """Another byte at one place, another character of the same class, or the identifier of another entry."""
    text, at, how = bytearray(names[i]), rng.randrange(12), rng.randrange(4)
    if how == 0:
        text[at] = rng.randrange(256)
    elif how < 3:
        text[at] = ord(rng.choice(LETTERS if chr(text[at]) in LETTERS else DIGITS))
    else:
        text = rng.choice(names)
    return bytes(text)


def damaged_term(rng, text):
    """Another byte at one place, one of the first three places as often as the sixteen of the rates."""
    text, at = bytearray(text), rng.choice([rng.randrange(3), rng.randrange(3, 19)])
    text[at] = rng.choice([0, 1, 2, 240, 241, rng.randrange(256)])
    return bytes(text)


def damaged_bytes(rng, text):
    """A byte less or more, or another byte at any place."""
    how = rng.randrange(4)
    if how == 0:
        return text[:-1]
    if how == 1:
        return text + bytes([rng.randrange(256)])
    at = rng.randrange(len(text)) if how == 2 else rng.randrange(min(4, len(text)))
    return text[:at] + bytes([rng.randrange(20)]) + text[at + 1:]


def random_book(rng, sizes, end):
    """A valid book with yields from 0 to an end, or one with as many as three parts of it damaged."""
    n = rng.choice(sizes)
    names, terms = [random_name(rng) for _ in range(n)], [random_term(rng, end) for _ in range(n)]
    machines, tail = rng.randint(2, 16), 0
    for _ in range(rng.choice([0, 0, 1, 1, 1, 2, 2, 3])):
        how = rng.randrange(9)
        if how < 4 and n > 0:
            i = rng.randrange(n)
            names[i] = damaged_name(rng, names, i)
        elif how < 8 and n > 0:
            i = rng.randrange(n)
            terms[i] = damaged_term(rng, terms[i])
        else:
            tail += 1
    text = book(names, terms, machines)
    for _ in range(tail):
        text = damaged_bytes(rng, text)
    return text


def random_books():
    rng = random.Random(31)
    texts = [random_book(rng, [0, 1, 2, 3, 4, 5, 6, 8, 12], 1) for _ in range(220)]
    texts += [random_book(rng, [1, 2, 3], -0.5) for _ in range(16)]
    return [(number_of(text), text) for text in texts]


def with_third_bytes(rng, text):
    """A book with other third bytes, most of them allowed."""
    text = bytearray(text)
    for at in range(4 + 12 * text[2] + 2, len(text), 19):
        text[at] = rng.choice([0, 1, 2, 4, 12] if rng.random() < 0.9 else range(256))
    return bytes(text)


def random_payments():
    rng = random.Random(23)
    for end in (1, -0.5):
        for _ in range(12):
            text = with_third_bytes(rng, random_book(rng, [1, 2, 3, 4], end))
            yield number_of(text), text


# The files.


def asked(text):
    """The entry numbers that are asked about: of a refused book some, of an accepted one also those just below and above n."""
    if number_of(text) != 0:
        return [0, 1, 65535]
    n = text[2]
    near = {i for i in (0, 1, 2, n // 2, n - 2, n - 1, n, n + 1) if i >= 0}
    return sorted(near | {256, 65535, 65536, 2 ** 32 - 1})


def question(text, i):
    """The entry number, the number that goes with its identifier, the identifier, and the bits of the price: 25 bytes."""
    number, identifier = identifier_of(text, i)
    price = price_of(parts(text)[1][i]) if number == 0 else 0.0
    return struct.pack("<IB12sd", i, number, identifier, price)


def record(text):
    number = number_of(text)
    machines, n = (text[0], text[2]) if number == 0 else (0, 0)
    questions = [question(text, i) for i in asked(text)]
    return struct.pack("<HBBBB", len(text), number, machines, n, len(questions)) + text + b"".join(questions)


def write_records(file, stated, number_of_case, record_of, numbers):
    """Writes a data file of cases, each with its stated number; answers them, none twice, and the lines of their numbers."""
    for at, (number, case) in enumerate(stated):
        fail_unless(number_of_case(case) == number, f"{file}, record {at}: {number_of_case(case)}, and {number} is stated")
    cases = list(dict.fromkeys(case for _, case in stated))
    data = b"".join(map(record_of, cases))
    fail_unless(len(data) <= MOST, f"{len(data)} bytes in {file}")
    (CRATE / "data").mkdir(parents=True, exist_ok=True)
    (CRATE / "data" / file).write_bytes(data)
    found = [number_of_case(case) for case in cases]
    labels = {number: f"refused {number}" if number else "accepted" for number in numbers}
    return cases, [file] + [f"{labels[number]}: {found.count(number)} of {found.count(number)}" for number in numbers]


def write_file(file, cases):
    """Writes a data file, and answers the lines that the program prints of it."""
    texts, lines = write_records(file, cases, number_of, record, NUMBERS)
    identifiers = sum(len(asked(text)) for text in texts)
    return lines + [f"books: {len(texts)}", f"identifiers: {identifiers}", "differences: 0"]


def write_files():
    """Writes the data files, and answers the lines that the program prints of them."""
    fail_unless(name(0) == b"ZZ0000000016" and name(1) == b"ZZ0000000024", "the identifiers of document 01")
    for bond, price in ((term(), 104.0), (term(1, 2, 0.0, 0.5), 64.0), (term(2, 1, 10.0, 0.5), 84.0)):
        fail_unless(price_of(bond) == price, "the prices of document 01")
    for bond, price in ((term(1, 1, 0.0, -0.5, 1), 200.0), (term(2, 1, 20.0, 1.0, 4), 84.0), (term(2, 2, 12.0, 0.0, 12), 102.0)):
        fail_unless(price_of(bond) == price, "prices by hand, no step of which is rounded")
    fail_unless(len({price_of(paid(kind, k)) for kind in (1, 2) for k in (1, 2, 4, 12)}) == 8, "payments that do not tell in the price")
    fail_unless(len({price_of(plain_term(i)) for i in range(64)}) == 64, "two plain terms of one price")
    *most, last = random_books()  # random.bin has no room for the last one
    lines = []
    for file, cases in (("sizes.bin", sizes()), ("faults.bin", faults()), ("pairs.bin", pairs()), ("random.bin", most),
                        ("payments.bin", [*payments(), last, *random_payments()])):
        lines += write_file(file, list(cases))
    return lines
