#!/usr/bin/python3
"""The dispatcher in Python: the table, its eight events, and the page.

    python3 tools/model.py FOLDER [--decimal]

prints the page of the folder's book.bin and events.bin, which the program prints too. With --decimal a price's 16 digits are
followed by the price as a decimal number, which the program does not print. What the number of a refusal means is in
docs/PROTOCOL.md, "The numbers". It needs Python 3.10 or later, and its standard library only.

It is written from the text of documents 01 and 02 and shares nothing with the crates. It is the desk's second opinion, and it
tells picture.py what happened at each event. It holds tables of runs only, which are never refused 9; of check 9 it has the
recount of the open jobs alone.

A file that cannot be read counts as empty, as it does in the program, and is named on standard error. Of a list the first
20,000 events are read; of a longer one the tool warns.

The exit status is 0 where the page is that of an accepted book and a list of events; 1 where one of the two files cannot be
read, though the page is printed, or where the page cannot be written; 2 for a wrong command; 3 where the book is refused;
130 where the tool is interrupted.
"""
import desk  # first: it stops an older Python

import collections.abc
import dataclasses
import os
import pathlib
import struct
import typing

import book_bytes as books
import events as lists

ROOT = 0
MOST_MACHINES, MOST_IN_FLIGHT = 16, 128
NOT_ADMITTED, OPEN, PRICED = "not admitted", "open", "priced"


@dataclasses.dataclass(eq=False)  # two messages with the same parts are two messages
class Message:
    kind: str
    sender: int
    to: int
    job: int = 0
    replica: int = 0  # at least 1 where it carries a job
    thief: int = 0
    price: float = 0.0


@dataclasses.dataclass
class Job:
    state: str = NOT_ADMITTED
    replica: int = 0
    place: tuple[int, ...] = ()  # (p,), or (v, t) where it is moving
    price: float = 0.0


@dataclasses.dataclass
class Machine:
    alive: bool = True
    told: set[int] = dataclasses.field(default_factory=set)
    pool: dict[int, int] = dataclasses.field(default_factory=dict)  # job to replica
    reserved: tuple[int, int, int] | None = None  # (job, replica, thief)
    running: tuple[int, int] | None = None  # (job, replica)
    waits: int | None = None

    def add(self, job: int, replica: int) -> None:
        """Adding a copy to a pool keeps the larger replica number."""
        self.pool[job] = max(replica, self.pool.get(job, 0))

    def give_back(self, job: int, replica: int) -> None:
        """This copy, which is the reserved one, returns to the pool."""
        self.reserved = None
        self.add(job, replica)


def price_of(entry: books.Entry) -> float:
    """Python's float is a binary64, and each operation on it is rounded once."""
    d = 1 + entry.ytm / entry.a_year
    p = 100.0
    for _ in range(entry.periods):
        p = (p + entry.coupon / entry.a_year) / d if entry.kind == books.FIXED else p / d
    return p


# "Where each refusal is checked": the rows of the events, each from left to right, as number, condition and test. 24 and 25 are
# document 02's, 2.5: "24, thief already waits, after 14; 25, thief was told the victim is dead, after 24". That a steal gets 16
# only where its victim lives is 2.10: "A message to a dead machine takes no place", and this line "now goes first". The row of a
# join is 2.6: "26, there are 16 already; 27, a is not the next number; in that order"; dead machines count.
Refusal = tuple[int, str, collections.abc.Callable[["Table", int, int], bool]]
REFUSALS: dict[str, list[Refusal]] = {
    "admit": [
        (13, "already admitted", lambda t, a, b: t.jobs[a].state != NOT_ADMITTED)],
    "steal": [
        (12, "the thief is dead", lambda t, a, b: not t.machines[a].alive),
        (14, "the thief is the victim", lambda t, a, b: a == b),
        (24, "the thief waits already", lambda t, a, b: t.machines[a].waits is not None),
        (25, "the thief was told the victim is dead", lambda t, a, b: b in t.machines[a].told),
        (16, "128 messages in flight", lambda t, a, b: t.machines[b].alive and t.is_full())],
    "deliver": [
        (15, "none in flight", lambda t, a, b: not t.between(a, b))],
    "start": [
        (12, "the machine is dead", lambda t, a, b: not t.machines[a].alive),
        (17, "it is running already", lambda t, a, b: t.machines[a].running is not None),
        (18, "the job is not in its pool", lambda t, a, b: b not in t.machines[a].pool)],
    "done": [
        (12, "the machine is dead", lambda t, a, b: not t.machines[a].alive),
        (19, "nothing is running", lambda t, a, b: t.machines[a].running is None),
        (16, "128 messages in flight", lambda t, a, b: t.is_full())],
    "die": [
        (20, "the root never dies", lambda t, a, b: a == ROOT),
        (12, "it is dead already", lambda t, a, b: not t.machines[a].alive)],
    "notice": [
        (12, "the machine is dead", lambda t, a, b: not t.machines[a].alive),
        (21, "the other is alive", lambda t, a, b: t.machines[b].alive),
        (22, "it was told already", lambda t, a, b: b in t.machines[a].told)],
    "join": [
        (26, "there are 16 machines already", lambda t, a, b: len(t.machines) >= MOST_MACHINES),
        (27, "it is not the next number", lambda t, a, b: a != len(t.machines))],
}
EVENTS = ["admit", "steal", "deliver", "start", "done", "die", "notice", "join"]  # codes 1 to 8
WITHOUT_B = ["admit", "done", "die", "join"]


class Table:
    """The table of a run. After an event, log and again tell what it did."""

    def __init__(self, machines: int, entries: list[books.Entry]) -> None:
        self.entries = entries
        self.jobs: list[Job] = [Job() for _ in entries]
        self.machines: list[Machine] = [Machine() for _ in range(machines)]
        self.flight: list[Message] = []  # in order of sending
        self.open_jobs = 0  # "The table keeps the number of open jobs" (document 02, 2.4)
        self.log: list[tuple[str, Message]] = []  # what became of messages, each after a word
        self.again: list[int] = []  # the jobs that got a new replica number

    def step(self, event: bytes) -> tuple[int, str]:
        """0 and an empty text, or the number of the refusal and its condition."""
        self.log, self.again = [], []
        number, condition = self.refusal(event)
        if number == 0:
            getattr(self, EVENTS[event[0] - 1])(event[1], event[2])
        return number, condition

    def refusal(self, event: bytes) -> tuple[int, str]:
        # "An event on a table whose kept number differs from the recount is refused 9." (document 02, 2.4)
        if self.open_jobs != self.recount():
            return 9, "the number of open jobs is not the recount"
        if len(event) < 3:
            return 10, "fewer than three bytes"
        code, a, b = event[:3]
        if not 1 <= code <= 8:
            return 10, "code not 1 to 8"
        name = EVENTS[code - 1]
        if name in WITHOUT_B and b != 0:
            return 10, "unused b not 0"
        # "11 is judged against the current count, except that Join's own a is judged only by the new numbers." (document 02, 2.6)
        counts = {"entry": len(self.jobs), "machine": len(self.machines)}
        first, second = "entry" if name == "admit" else "machine", "entry" if name == "start" else "machine"
        if name != "join" and a >= counts[first]:
            return 11, f"no {first} {a}"
        if name not in WITHOUT_B and b >= counts[second]:
            return 11, f"no {second} {b}"
        return next(((number, words) for number, words, holds in REFUSALS[name] if holds(self, a, b)), (0, ""))

    def recount(self) -> int:
        """How many jobs are open, job by job."""
        return sum(job.state == OPEN for job in self.jobs)

    def is_full(self) -> bool:
        return len(self.flight) >= MOST_IN_FLIGHT

    def between(self, sender: int, to: int) -> list[Message]:
        """The messages in flight from one machine to another, the oldest first."""
        return [m for m in self.flight if (m.sender, m.to) == (sender, to)]

    def send(self, message: Message) -> None:
        """A message to a dead machine is stored nowhere."""
        if self.machines[message.to].alive:
            self.flight.append(message)
            self.log.append(("sent", message))
        else:
            self.log.append(("lost", message))

    def drop(self, dropped: collections.abc.Callable[[Message], bool]) -> None:
        """The messages of which the test holds are dropped."""
        self.log += [("dropped", m) for m in self.flight if dropped(m)]
        self.flight = [m for m in self.flight if not dropped(m)]

    # The eight events.

    def admit(self, a: int, _: int) -> None:
        self.jobs[a] = Job(OPEN, 1, (ROOT,))
        self.open_jobs += 1
        self.machines[ROOT].add(a, 1)

    def steal(self, a: int, b: int) -> None:
        self.send(Message("FISH", a, b))
        self.machines[a].waits = b

    def deliver(self, a: int, b: int) -> None:
        message = self.between(a, b)[0]
        self.flight.remove(message)
        self.log.append(("delivered", message))
        getattr(self, "on_" + message.kind.lower())(message, self.machines[b])

    def start(self, a: int, b: int) -> None:
        machine = self.machines[a]
        machine.running = (b, machine.pool.pop(b))

    def done(self, a: int, _: int) -> None:
        copy, self.machines[a].running = self.machines[a].running, None
        assert copy is not None  # otherwise it is refused 19
        self.send(Message("RESULT", a, ROOT, *copy, price=price_of(self.entries[copy[0]])))

    def die(self, a: int, _: int) -> None:
        """Its pool, reserved, running and waiting are cleared; a dead machine keeps what it was told."""
        self.machines[a] = Machine(alive=False, told=self.machines[a].told)
        self.drop(lambda m: m.to == a)

    def notice(self, a: int, b: int) -> None:
        machine = self.machines[a]
        machine.told.add(b)
        self.drop(lambda m: (m.sender, m.to) == (b, a))
        if machine.waits == b:
            machine.waits = None
        if machine.reserved is not None and machine.reserved[2] == b:
            machine.give_back(*machine.reserved[:2])
        if a == ROOT:
            self.replicate(b)

    def replicate(self, dead: int) -> None:
        """Each open job on the dead machine, or moving from or to it, gets the next replica number and is on the root."""
        for number, job in enumerate(self.jobs):
            if job.state == OPEN and dead in job.place:
                job.replica, job.place = job.replica + 1, (ROOT,)
                self.machines[ROOT].add(number, job.replica)
                self.again.append(number)

    def join(self, a: int, _: int) -> None:
        """Machine a is there, alive, with empty pool and told of no death."""
        assert a == len(self.machines)  # otherwise it is refused 27
        self.machines.append(Machine())

    # Handling, by kind: the message, and the machine that it came to.

    def on_fish(self, m: Message, machine: Machine) -> None:
        if machine.reserved is not None or not machine.pool:
            self.send(Message("NOWORK", m.to, m.sender))
            return
        job = min(machine.pool)
        machine.reserved = (job, machine.pool.pop(job), m.sender)
        self.send(Message("REQ", m.to, ROOT, *machine.reserved))

    def on_req(self, m: Message, root: Machine) -> None:
        job = self.jobs[m.job]
        if job.state == PRICED or job.replica != m.replica:
            answer = "OBSOLETE"
        elif m.thief in root.told or len(job.place) == 2:
            answer = "DENIED"
        else:
            answer = "AUTH"
            job.place = (m.sender, m.thief)
        self.send(Message(answer, ROOT, m.sender, m.job, m.replica, m.thief))

    def matches(self, m: Message, machine: Machine) -> bool:
        """Unless job, replica and thief all match the reserved copy, the answer does nothing."""
        if machine.reserved == (m.job, m.replica, m.thief):
            return True
        self.log.append(("idle", m))
        return False

    def on_auth(self, m: Message, machine: Machine) -> None:
        if self.matches(m, machine):
            machine.reserved = None
            self.send(Message("SCHEDULE", m.to, m.thief, m.job, m.replica))

    def on_denied(self, m: Message, machine: Machine) -> None:
        if self.matches(m, machine):
            machine.give_back(m.job, m.replica)
            self.send(Message("NOWORK", m.to, m.thief))

    def on_obsolete(self, m: Message, machine: Machine) -> None:
        if self.matches(m, machine):
            machine.reserved = None
            self.send(Message("NOWORK", m.to, m.thief))

    def on_schedule(self, m: Message, machine: Machine) -> None:
        machine.add(m.job, m.replica)
        machine.waits = None
        self.send(Message("ACK", m.to, ROOT, m.job, m.replica))

    def on_nowork(self, _: Message, machine: Machine) -> None:
        machine.waits = None

    def on_ack(self, m: Message, _: Machine) -> None:
        job = self.jobs[m.job]
        if job.state == OPEN and job.replica == m.replica:
            job.place = (m.sender,)
        else:
            self.log.append(("idle", m))

    def on_result(self, m: Message, _: Machine) -> None:
        job = self.jobs[m.job]
        if job.state == OPEN:
            job.state, job.price = PRICED, m.price
            self.open_jobs -= 1
            self.log.append(("priced", m))
        else:
            self.log.append(("idle", m))


# The page.


class Files(typing.NamedTuple):
    """The two files of a folder, as the program reads them."""
    book: bytes
    events: bytes
    unread: bool  # whether one of them cannot be read and counts as empty

    def status(self) -> int:
        """The exit status: that a file cannot be read goes before what its being empty leads to."""
        if self.unread:
            return desk.FAULTY
        return desk.REFUSED if books.number_of(self.book) else desk.DONE


def files_of(folder: desk.Path) -> tuple[pathlib.Path, pathlib.Path]:
    return pathlib.Path(folder) / "book.bin", pathlib.Path(folder) / "events.bin"


def read_folder(folder: desk.Path) -> Files:
    """What the folder has; a file that cannot be read is named on standard error."""
    if not pathlib.Path(folder).is_dir():
        raise desk.Stop(f"{folder} is not a folder" if os.path.exists(folder) else f"there is no folder {folder}")
    paths = files_of(folder)
    book, events = content(paths[0], books.MOST_BYTES), content(paths[1], desk.MOST_BYTES)
    return Files(book or b"", lists.as_read(paths[1], events or b""), book is None or events is None)


def content(path: pathlib.Path, most: int) -> bytes | None:
    try:
        return desk.read_bytes(path, most)
    except desk.Stop as stop:
        desk.warn(f"{stop}; it counts as empty")
        return None


def price_bits(price: float) -> str:
    return struct.pack(">d", price).hex().upper()


def job_line(entry: books.Entry, job: Job, decimal: bool) -> str:
    if job.state == PRICED:
        price = price_bits(job.price) + (f" {job.price!r}" if decimal else "")
        shown = f"priced {price} replica {job.replica}"
    else:
        shown = f"open replica {job.replica}" if job.state == OPEN else "not admitted"
    return f"{entry.identifier.decode('ascii')} {shown}\n"


def page(book: bytes, events: bytes, decimal: bool = False) -> str:
    """"After an accepted book the program prints "open" and this number as its last line" (document 02, 2.4)."""
    number = books.number_of(book)
    if number != 0:
        return f"book refused {number}\n"
    table = Table(*books.parts(book))
    numbers = [table.step(event)[0] for event in lists.events_of(events)]
    refused = [f"event {place} refused {number}\n" for place, number in enumerate(numbers, 1) if number != 0]
    listed = [job_line(entry, job, decimal) for entry, job in zip(table.entries, table.jobs)]
    return "".join(refused + listed) + f"open {table.open_jobs}\n"


def main() -> int:
    parser = desk.Parser(description=__doc__)
    parser.add_argument("folder", metavar="FOLDER", type=desk.stated_path)
    parser.add_argument("--decimal", action="store_true", help="print prices as decimal numbers too")
    args = parser.parse_args()
    files = read_folder(args.folder)
    desk.say(page(files.book, files.events, args.decimal))
    return files.status()


if __name__ == "__main__":
    desk.run(main)
