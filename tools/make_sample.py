#!/usr/bin/python3
"""Writes the data and the output of the programs that print a page: rakhvide, rakhvide_sample and nine more.

To run, at the root of the repository: /usr/bin/python3 tools/make_sample.py
It needs Python's standard library only (last run with Python 3.11).

Each is the same program on other data:

    rakhvide            the listing of document 01, "Examples", with the output printed there, and the last line
    rakhvide_sample     a book of 20 municipal and corporate bonds, a short one at a yield below 0 among them and some that pay yearly,
                        quarterly and monthly, and a list of events in which three machines steal from the root and from each other,
                        a fourth joins them late, one of the three dies with bonds in hand, its bonds come back under the next
                        replica number, and every bond is priced in the end; a few events of the list are refused
    test_no_files       neither book.bin nor events.bin
    test_refused_book   a book whose second entry has a wrong check digit and whose third has another form
    test_long_list      20,000 events, of which the last is refused, and two more that are not read
    test_broken_event   a last event of two bytes
    test_turned_back    steals that are turned back, for each reason alone and for two at once
    test_full_channel   128 messages in flight, and then steals from a dead machine and from living ones
    test_empty_book     a book without entries
    test_still_open     twelve bonds admitted, of which one is priced, and gets a second RESULT
    test_joins          a book of two machines that grow to sixteen, two of which die, and joins that are refused

The events of rakhvide_sample are chosen at random, with a fixed seed, by way of the table of model.py, which is documents 01 and 02
in Python and shares nothing with the crates; its page is the model's, but the prices are decided by exact rational arithmetic whose
every operation is rounded once to the nearest binary64, ties to even. The other pages are written here by hand from document 01's
text, "The program's page", and those of test_turned_back, test_full_channel and test_joins from document 02's, 2.5, 2.10 and 2.6; the last
line after an accepted book, and what test_empty_book and test_still_open are about, is that of 2.4. The script fails where a price or a
page of the model differs.

The bonds are invented; their identifiers have the form and the check digit of ISO 6166. The result depends on nothing else.
"""
import random
import typing
from fractions import Fraction

import book_bytes as books
import events as lists
import model
from book_bytes import FIXED, ZERO, Entry
from vector_files import ROOT, fail_unless


def entry(base: str, kind: int, periods: int, coupon: float, ytm: float, payments: int = 0) -> Entry:
    """The entry of an identifier's first eleven characters, periods, annual coupon, annual yield and the byte of the payments per year."""
    return Entry(books.with_check_digit(base.encode("ascii")), kind, periods, payments, coupon, ytm)


LISTING_BONDS = [entry("ZZ000000001", FIXED, 2, 4.0, 0.0), entry("ZZ000000002", ZERO, 2, 0.0, 0.5)]
LISTING_EVENTS = bytes([1, 0, 0, 2, 1, 0, 3, 1, 0, 3, 0, 0, 3, 0, 0, 3, 0, 1, 4, 1, 0, 5, 1, 0, 3, 1, 0, 3, 1, 0, 6, 0, 0])
LISTING = """event 11 refused 20
ZZ0000000016 priced 405A000000000000 replica 1
ZZ0000000024 not admitted
open 0
"""

SAMPLE_BONDS = [
    entry("USMUN001301", FIXED, 40, 5.0, 0.0385),
    entry("USMUN001318", FIXED, 20, 4.0, 0.0342),
    entry("USMUN001335", FIXED, 60, 5.25, 0.0431),
    entry("USMUN001352", FIXED, 1, 3.0, -0.0015),
    entry("USMUN001369", ZERO, 30, 0.0, 0.0377),
    entry("USMUN001386", ZERO, 24, 0.0, 0.0361),
    entry("USMUN001403", FIXED, 50, 4.5, 0.0402),
    entry("USMUN001420", FIXED, 34, 5.5, 0.0489),
    entry("USMUN001437", FIXED, 26, 4.0, 0.0355),
    entry("USMUN001454", FIXED, 48, 5.0, 0.0394),
    entry("USMUN001471", ZERO, 40, 0.0, 0.0418),
    entry("USCRP002660", FIXED, 120, 6.875, 0.0575, 2),
    entry("USCRP002683", FIXED, 7, 3.3, 0.0441, 1),
    entry("USCRP002706", FIXED, 16, 2.375, 0.0427, 4),
    entry("USCRP002729", FIXED, 58, 4.7, 0.0512, 2),
    entry("USCRP002752", FIXED, 60, 4.75, 0.0465, 4),
    entry("USCRP002775", FIXED, 96, 5.717, 0.0533, 12),
    entry("USCRP002798", FIXED, 132, 2.355, 0.0478, 12),
    entry("XSCRP005641", FIXED, 6, 1.875, 0.0325, 1),
    entry("XSCRP005670", ZERO, 9, 0.0, 0.0349, 1),
]
SAMPLE_MACHINES = 4
JOINING, DYING = SAMPLE_MACHINES, 2


class Program(typing.NamedTuple):
    """A crate, the content of its files, and its page."""
    crate: str
    book: bytes | None
    events: bytes | None
    page: str


# The pages by hand.


def listing() -> Program:
    return Program("rakhvide", books.book_of(2, LISTING_BONDS), LISTING_EVENTS, LISTING)


def no_files() -> Program:
    """A file that cannot be opened counts as empty, and a book has 4 bytes at least."""
    return Program("test_no_files", None, None, "book refused 1\n")


def refused_book() -> Program:
    """The number is that of the lowest faulty entry, and nothing more is printed, though event 3 would be refused."""
    first, second = LISTING_BONDS
    bonds = [first, second._replace(identifier=b"ZZ0000000025"), second._replace(identifier=b"ZZ000000016 ")]
    return Program("test_refused_book", books.book_of(2, bonds), lists.make("admit 0\nsteal 1 from 0\ndie 0\n"), "book refused 5\n")


def long_list() -> Program:
    """At most 60,000 bytes are read: event 20,000 has its line, and the two events after it have none and admit no bond."""
    idle = "steal 1 from 0\ndeliver 1 to 0\ndeliver 0 to 1\n"  # FISH, and NOWORK from an empty pool
    text = 6666 * idle + "steal 1 from 0\ndie 0\n" + "admit 0\ndie 0\n"
    page = "event 20000 refused 20\nZZ0000000016 not admitted\nopen 0\n"
    return Program("test_long_list", books.book_of(2, LISTING_BONDS[:1]), lists.make(text), page)


def broken_event() -> Program:
    """An event of too few bytes is refused 10: 1 1 is not the admission of the second bond."""
    page = "event 4 refused 10\nZZ0000000016 open replica 1\nZZ0000000024 not admitted\nopen 1\n"
    text = "admit 0\nsteal 1 from 0\ndeliver 1 to 0\nraw 1 1\n"
    return Program("test_broken_event", books.book_of(2, LISTING_BONDS), lists.make(text), page)


def turned_back() -> Program:
    """14 thief is victim, 24 thief already waits, 25 thief was told the victim is dead, in this order and after 12."""
    listed = [
        (0, "admit 0"),
        (14, "steal 1 from 1"),
        (0, "steal 1 from 0"),
        (24, "steal 1 from 2"),  # it waits
        (14, "steal 1 from 1"),  # and is the victim: 14 comes first
        (0, "die 2"), (0, "notice 1 of 2"),
        (24, "steal 1 from 2"),  # it waits, and was told: 24 comes first
        (0, "deliver 1 to 0"), (0, "deliver 0 to 0"), (0, "deliver 0 to 0"), (0, "deliver 0 to 1"),  # it has the bond and waits no more
        (25, "steal 1 from 2"),
        (14, "steal 1 from 1"),
        (12, "steal 2 from 2"),  # dead, and the victim: 12 comes first
        (0, "steal 0 from 2"),  # the victim is dead, but the root was not told
        (24, "steal 0 from 2"),
        (0, "notice 0 of 2"),  # it waits no more
        (25, "steal 0 from 2"),
        (0, "start 1 job 0"), (0, "done 1"), (0, "deliver 1 to 0"), (0, "deliver 1 to 0"),  # ACK and RESULT
    ]
    rest = "ZZ0000000016 priced 405A000000000000 replica 1\nZZ0000000024 not admitted\nopen 0\n"
    return answered("test_turned_back", books.book_of(3, LISTING_BONDS), listed, rest)


def full_channel() -> Program:
    """With 128 in flight a steal from a dead machine is accepted, nothing is stored, and the thief waits for its notice. From a living one
    it is refused 16, and Done is. Every bond goes by way of 2 to 1, which runs it: an ACK and a RESULT each. The root gets none of them
    before the end: 128 messages. Machine 3 is dead, and nobody was told."""
    to_2 = ["steal 2 from 0", "deliver 2 to 0", "deliver 0 to 0", "deliver 0 to 0", "deliver 0 to 2", "deliver 2 to 0"]
    to_1 = ["steal 1 from 2", "deliver 1 to 2", "deliver 2 to 0", "deliver 0 to 2", "deliver 2 to 1"]
    before = [f"admit {job}" for job in range(64)] + ["die 3"] + 64 * to_2 + 64 * to_1
    before += [event for job in range(63) for event in (f"start 1 job {job}", "done 1")] + ["start 1 job 63"]  # 127 messages
    listed = [(0, event) for event in before] + [
        (0, "steal 2 from 4"),  # FISH: 128
        (16, "done 1"),  # to the root, which lives
        (16, "steal 0 from 4"),
        (0, "steal 0 from 3"),  # dead, and the root was not told
        (15, "deliver 0 to 3"),  # nothing is stored,
        (24, "steal 0 from 4"),  # and the root waits
        (16, "steal 4 from 0"),
        (0, "steal 4 from 3"),
        (24, "steal 2 from 3"),  # it waits on 4
        (14, "steal 1 from 1"),
        (12, "steal 3 from 3"),
        (0, "notice 4 of 3"),  # it waits no more
        (25, "steal 4 from 3"),
        (16, "steal 4 from 2"),
        (0, "notice 0 of 3"),
        (16, "steal 0 from 2"),
        (0, "deliver 2 to 4"),  # FISH is taken off, and NOWORK is sent: 128
        (16, "done 1"),
        (0, "deliver 4 to 2"),  # 127
        (0, "done 1"),  # 128
        (0, "steal 1 from 3"), (0, "notice 1 of 3"),
    ] + 128 * [(0, "deliver 1 to 0")]
    bonds = [entry(f"ZZ{number:09}", FIXED, 2, 4.0, 0.0) for number in range(1, 65)]
    entries = "".join(f"{bond.identifier.decode('ascii')} priced 405A000000000000 replica 1\n" for bond in bonds)
    return answered("test_full_channel", books.book_of(5, bonds), listed, entries + "open 0\n")


def empty_book() -> Program:
    """No entry has a line, and no bond can be admitted; the last line is printed all the same."""
    return answered("test_empty_book", books.book_of(2, []), [(11, "admit 0"), (0, "steal 1 from 0")], "open 0\n")


def still_open() -> Program:
    """Two copies of bond 0 run: 1 dies while the bond moves from it to 2, and the root, told of the death, issues it anew. The first RESULT
    finds it open, and there is one fewer; the second finds it priced, and there are as many."""
    to_1 = ["steal 1 from 0", "deliver 1 to 0", "deliver 0 to 0", "deliver 0 to 0", "deliver 0 to 1", "deliver 1 to 0"]
    to_2 = ["steal 2 from 1", "deliver 2 to 1", "deliver 1 to 0", "deliver 0 to 1", "die 1", "deliver 1 to 2"]
    twice = ["notice 0 of 1", "start 2 job 0", "done 2", "start 0 job 0", "done 0"]
    results = ["deliver 2 to 0", "deliver 2 to 0", "deliver 0 to 0"]  # a late ACK, RESULT, and RESULT again
    listed = [(0, event) for event in [f"admit {job}" for job in range(12)] + to_1 + to_2 + twice + results]
    bonds = [entry(f"ZZ{number:09}", FIXED, 2, 4.0, 0.0) for number in range(1, 13)]
    first, *others = [bond.identifier.decode("ascii") for bond in bonds]
    entries = f"{first} priced 405A000000000000 replica 2\n" + "".join(f"{bond} open replica 1\n" for bond in others)
    return answered("test_still_open", books.book_of(3, bonds), listed, entries + "open 11\n")


def joins() -> Program:
    """A join is judged by 10, then by 26, there are 16 already, and 27, a is not the next number; every other event by 11, against the count as
    it is then. Who joins is told of no death, and a dead machine's number is not free."""
    listed = [
        (0, "admit 0"), (0, "admit 1"), (0, "admit 2"),
        (11, "steal 2 from 0"), (11, "steal 1 from 2"), (11, "deliver 2 to 0"), (11, "notice 0 of 2"),  # there are 0 and 1
        (10, "raw 8 2 1"),  # unused b
        (10, "raw 9 2 0"),
        (27, "join 3"),  # a gap
        (27, "join 1"), (27, "join 0"),  # there already
        (27, "join 255"),  # not 11
        (0, "join 2"),
        (27, "join 2"),
        (11, "steal 3 from 0"),  # there are 0 to 2
        *stolen(2), (0, "start 2 job 0"), (0, "done 2"), (0, "deliver 2 to 0"),  # the first to join prices bond 0
        (0, "die 1"),
        (27, "join 1"),  # dead, and its number is not free
        (0, "notice 2 of 1"),
        (25, "steal 2 from 1"),
        (0, "join 3"),
        (0, "steal 3 from 1"),  # it was not told, and waits
        (24, "steal 3 from 0"),
        (0, "notice 3 of 1"),
        (25, "steal 3 from 1"),
        *stolen(3), (0, "start 3 job 1"), (0, "die 3"),  # with bond 1 in hand
        (27, "join 3"),
        (0, "notice 0 of 3"),  # bond 1 is back on the root, replica 2
        *((0, f"join {machine}") for machine in range(4, 16)),
        (26, "join 16"),  # two of the sixteen are dead
        (26, "join 3"), (26, "join 255"),  # not the next number either: 26 comes first
        (10, "raw 8 16 1"),  # unused b: 10 comes first
        (11, "steal 16 from 0"),
        (0, "steal 15 from 3"), (0, "notice 15 of 3"), (25, "steal 15 from 3"), (0, "steal 15 from 1"), (0, "notice 15 of 1"),
        *stolen(15), (0, "start 15 job 1"), (0, "done 15"), (0, "deliver 15 to 0"),  # the last to join prices bond 1
        (10, "raw 8 16"),  # two bytes
    ]
    bonds = [entry(f"ZZ{number:09}", FIXED, 2, 4.0, 0.0) for number in range(1, 4)]
    entries = ("ZZ0000000016 priced 405A000000000000 replica 1\nZZ0000000024 priced 405A000000000000 replica 2\n"
               "ZZ0000000032 open replica 1\n")
    return answered("test_joins", books.book_of(2, bonds), listed, entries + "open 1\n")


def stolen(thief: int) -> list[tuple[int, str]]:
    """It steals a bond from the root: FISH, REQ, AUTH, SCHEDULE, ACK."""
    steal = [f"steal {thief} from 0", f"deliver {thief} to 0", "deliver 0 to 0", "deliver 0 to 0", f"deliver 0 to {thief}", f"deliver {thief} to 0"]
    return [(0, event) for event in steal]


def answered(crate: str, book: bytes, listed: list[tuple[int, str]], rest: str) -> Program:
    """A list of events, each with its number, and the rest of the page: the lines of the entries and the last line."""
    refused = "".join(f"event {place} refused {number}\n" for place, (number, _) in enumerate(listed, 1) if number)
    return Program(crate, book, lists.make("".join(event + "\n" for _, event in listed)), refused + rest)


# The sample close.


def rounded(x: Fraction) -> float:
    """The binary64 nearest to a rational, ties to even: Python divides two integers so."""
    return x.numerator / x.denominator


def exact_price(bond: Entry) -> float:
    a_year = bond.payments or 2  # "0 reads as 2" (document 02, 2.3)
    d = rounded(1 + Fraction(rounded(Fraction(bond.ytm) / a_year)))
    coupon = rounded(Fraction(bond.coupon) / a_year)
    p = 100.0
    for _ in range(bond.periods):
        if bond.kind == FIXED:
            p = rounded(Fraction(p) + Fraction(coupon))
        p = rounded(Fraction(p) / Fraction(d))
    return p


def priced(table: model.Table) -> int:
    return sum(job.state == model.PRICED for job in table.jobs)


def holds(machine: model.Machine) -> bool:
    """Whether it has a bond to work on."""
    return bool(machine.pool) or machine.running is not None


class Close:
    """Events until every bond is priced. Machine JOINING joins once half of them are. Machine DYING dies after that, once both hold bonds,
    and the living are told of it one after another."""

    def __init__(self, rng: random.Random) -> None:
        self.rng, self.events = rng, b""
        self.table = model.Table(SAMPLE_MACHINES, SAMPLE_BONDS)
        admissions = [(1, job, 0) for job in range(len(SAMPLE_BONDS))]
        admissions.insert(3, (1, 1, 0))  # admitted already
        for event in admissions:
            self.happens(*event)
        while any(job.state != model.PRICED for job in self.table.jobs):
            self.go_on()
        while self.table.flight:
            self.happens(3, self.table.flight[0].sender, self.table.flight[0].to)
        self.happens(6, model.ROOT, 0)  # the root never dies
        self.happens(3, 1, 3)  # nothing is in flight

    def happens(self, *event: int) -> None:
        self.events += bytes(event)
        self.table.step(bytes(event))

    def go_on(self) -> None:
        machines, dying = self.table.machines, self.table.machines[DYING]
        if len(machines) == JOINING and 2 * priced(self.table) >= len(SAMPLE_BONDS):
            self.happens(8, JOINING + 2, 0)  # not the next number
            self.happens(8, JOINING, 0)
            self.happens(8, JOINING, 0)  # there already
        elif len(machines) > JOINING and holds(machines[JOINING]) and dying.pool and dying.running is not None:
            self.happens(6, DYING, 0)
            self.happens(2, DYING, model.ROOT)  # a dead thief
        else:
            self.happens(*self.rng.choice(self.choices()))

    def choices(self) -> list[tuple[int, int, int]]:
        """What may happen next; the root starts bonds seldom, work takes a while, and most thieves ask the root."""
        rng, machines = self.rng, self.table.machines
        living = [(m, machine) for m, machine in enumerate(machines) if machine.alive]
        found = [(3, m.sender, m.to) for m in self.table.flight]
        found += [(2, a, b) for a, thief in living for b in range(len(machines))
                  if a != model.ROOT and a != b and thief.waits is None and b not in thief.told and (b == model.ROOT or rng.random() < 0.3)]
        found += [(4, m, min(machine.pool)) for m, machine in living
                  if machine.pool and machine.running is None and (m != model.ROOT or rng.random() < 0.05)]
        found += [(5, m, 0) for m, machine in living if machine.running is not None and rng.random() < 0.25]
        found += [(7, m, DYING) for m, machine in living if not machines[DYING].alive and DYING not in machine.told]
        return found


def sample_close() -> Program:
    for bond in SAMPLE_BONDS:
        same = model.price_bits(model.price_of(bond)) == model.price_bits(exact_price(bond))
        fail_unless(same, f"the model has another price of {bond.identifier.decode('ascii')}")
    book, events = books.book_of(SAMPLE_MACHINES, SAMPLE_BONDS), Close(random.Random(428)).events
    page = model.page(book, events)
    all_priced = page.count(" priced ") == len(SAMPLE_BONDS) and page.endswith("\nopen 0\n")
    fail_unless(all_priced and " replica 2\n" in page, "a bond is not priced, or none came back")
    check_story(events)
    return Program("rakhvide_sample", book, events, page)


def check_story(events: bytes) -> None:
    """A machine joins late, and works; then another dies with bonds in hand, which are issued anew, and the one that joined prices some."""
    table = model.Table(SAMPLE_MACHINES, SAMPLE_BONDS)
    story: list[str] = []
    results: list[int] = []  # the replica numbers of the bonds that the machine prices
    for event in lists.events_of(events):
        before, dying = priced(table), table.machines[DYING]
        if table.step(event)[0]:
            continue
        if event[0] == 8:
            story.append("joins")
            fail_unless(2 * before >= len(SAMPLE_BONDS), "the machine joins early")
        if event[0] == 6:
            story.append("dies")
            fail_unless(bool(dying.pool) and dying.running is not None and holds(table.machines[JOINING]), "no bond in hand at the death")
        story += ["issued anew" for _ in table.again]
        results += [m.replica for word, m in table.log if word == "priced" and m.sender == JOINING]
    fail_unless(story == ["joins", "dies", "issued anew", "issued anew"], f"the close has another story: {story}")
    fail_unless({1, 2} <= set(results), "the machine that joined does not price a bond, and one that was issued anew")


# The files.


def write(program: Program) -> None:
    page = model.page(program.book or b"", (program.events or b"")[:3 * lists.MOST_EVENTS])
    fail_unless(page == program.page, f"the model has another page of {program.crate}")
    folder = ROOT / "crates" / program.crate
    folder.mkdir(parents=True, exist_ok=True)
    for name, content in (("book.bin", program.book), ("events.bin", program.events)):
        if content is not None:
            (folder / "data").mkdir(exist_ok=True)
            (folder / "data" / name).write_bytes(content)
    (folder / "stdout").write_text(program.page)
    print(f"{program.crate}: {len(program.book or b'')} bytes of book, {len(program.events or b'')} of events")


def main() -> None:
    by_hand = listing, no_files, refused_book, long_list, broken_event, turned_back, full_channel, empty_book, still_open, joins
    for make in (*by_hand, sample_close):
        write(make())


if __name__ == "__main__":
    main()
