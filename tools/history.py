"""What happened in a run, told by the model as spans of time: for picture.py.

It is not run by itself, and needs Python's standard library only.

Time is counted in rows: event k of the list is row k - 1, and what an event changes has changed from its row on. What lasts
to the end of the list ends at the row after the last.
"""
import collections.abc
import dataclasses
import typing

import book_bytes as books
import events as lists
import model

POOL, RESERVED, RUNNING = "pool", "reserved", "running"
DELIVERED, DROPPED, LOST, IN_FLIGHT = "delivered", "dropped", "lost", "in flight"

CopyKey = tuple[int, int, int]  # machine, job, replica


class Row(typing.NamedTuple):
    """An event of the list."""
    text: str
    number: int  # of its refusal, or 0
    note: str  # what it did, or why it was refused
    machine: int | None  # whose event it is
    open_jobs: int  # after it


class Copy(typing.NamedTuple):
    """A copy of a job while a machine holds it in one state."""
    machine: int
    job: int
    replica: int
    state: str
    start: int
    end: int


class Wait(typing.NamedTuple):
    machine: int
    victim: int
    start: int
    end: int


@dataclasses.dataclass
class Flight:
    """A message from its sending on. One to a dead machine is lost where it is sent."""
    message: model.Message
    start: int
    end: int = 0
    fate: str = IN_FLIGHT
    idle: bool = False  # handled, and without effect
    priced: bool = False


Key = typing.TypeVar("Key", int, CopyKey)
Value = typing.TypeVar("Value", int, str)


class Spans(typing.Generic[Key, Value]):
    """Values that last: of each key, from when to when it had a value."""

    def __init__(self) -> None:
        self.now: dict[Key, tuple[Value, int]] = {}
        self.closed: list[tuple[Key, Value, int, int]] = []

    def update(self, row: int, values: collections.abc.Mapping[Key, Value]) -> None:
        for key, (value, start) in list(self.now.items()):
            if values.get(key) != value:
                self.closed.append((key, value, start, row))
                del self.now[key]
        for key, value in values.items():
            self.now.setdefault(key, (value, row))

    def all(self, row: int) -> list[tuple[Key, Value, int, int]]:
        """Closes what is left."""
        self.update(row, {})
        return sorted(self.closed, key=lambda span: (span[2], span[0]))


def label(message: model.Message) -> str:
    return f"{message.kind} {copy_label(message.job, message.replica)}" if message.replica else message.kind


def copy_label(job: int, replica: int) -> str:
    """Job 3 with replica 1 is 3, with replica 2 it is 3/2."""
    return str(job) if replica == 1 else f"{job}/{replica}"


def held(table: model.Table) -> dict[CopyKey, str]:
    """The state of each copy."""
    copies = {}
    for number, machine in enumerate(table.machines):
        copies.update({(number, job, replica): POOL for job, replica in machine.pool.items()})
        if machine.reserved is not None:
            copies[(number, *machine.reserved[:2])] = RESERVED
        if machine.running is not None:
            copies[(number, *machine.running)] = RUNNING
    return copies


def stays(copies: list[Copy]) -> list[list[Copy]]:
    """The copies of one job and replica that follow on one another on one machine, as lists."""
    last: dict[CopyKey, list[Copy]] = {}
    found = []
    for copy in copies:  # in the order of their starts
        key = (copy.machine, copy.job, copy.replica)
        if key in last and last[key][-1].end == copy.start:
            last[key].append(copy)
        else:
            last[key] = [copy]
            found.append(last[key])
    return found


def joined(labels: list[str]) -> str:
    return " ".join(labels[:6]) + (f" and {len(labels) - 6} more" if len(labels) > 6 else "")


def sending(log: list[tuple[str, model.Message]]) -> str:
    """What was sent, as the end of a note."""
    for word, message in log:
        if word == "sent":
            return f"{label(message)} to {message.to}"
        if word == "lost":
            return f"{label(message)} lost: {message.to} is dead"
    return ""


def note_of(event: bytes, table: model.Table, before: collections.abc.Iterable[CopyKey]) -> str:
    """What an accepted event did, in a few words."""
    name, a = model.EVENTS[event[0] - 1], event[1]
    dropped = sum(word == "dropped" for word, _ in table.log)
    tail = [f"{dropped} message{'s' if dropped > 1 else ''} dropped"] if dropped else []
    if name == "admit":
        return table.entries[a].identifier.decode("ascii")
    if name == "deliver":
        return delivery_note(table)
    if name == "die":
        lost = [copy_label(job, replica) for machine, job, replica in sorted(before) if machine == a]
        return ", ".join(([f"holding {joined(lost)}"] if lost else []) + tail)
    if name == "notice":
        again = [copy_label(job, table.jobs[job].replica) for job in table.again]
        return ", ".join(([f"{joined(again)} back on 0"] if again else []) + tail)
    if name == "join":
        return f"{len(table.machines)} machines now"
    return sending(table.log)


def delivery_note(table: model.Table) -> str:
    """The message that was delivered, and what came of it."""
    message = next(what for word, what in table.log if word == "delivered")
    words = [word for word, _ in table.log]
    if "idle" in words:
        return f"{label(message)}: no effect"
    if "priced" in words:
        return f"{label(message)}: priced {message.price:.4f}"
    if message.kind == "ACK":
        return f"{label(message)}: on {message.sender}"
    if message.kind == "NOWORK":
        return label(message)
    return f"{label(message)} \u2192 {sending(table.log)}"


def machine_of(event: bytes, table: model.Table) -> int | None:
    """The machine whose event it is, where there is such a machine: the receiver of a delivery, the root of an admission."""
    if not lists.names_event(event):
        return None
    name = model.EVENTS[event[0] - 1]
    number = {"admit": model.ROOT, "deliver": event[2]}.get(name, event[1])
    return number if number < len(table.machines) else None


class History:
    """A whole run over an accepted book."""

    def __init__(self, machines: int, entries: list[books.Entry], events: bytes) -> None:
        self.table = model.Table(machines, entries)
        self.rows: list[Row] = []
        self.flights: list[Flight] = []
        self.joins: dict[int, int] = {}  # machine to the row where it joins
        self.deaths: dict[int, int] = {}  # machine to the row where it dies
        self.notices: list[tuple[int, int, int]] = []  # row, machine, dead machine
        self.flying: dict[model.Message, Flight] = {}
        self.take_all(lists.events_of(events))

    def take_all(self, events: list[bytes]) -> None:
        copies: Spans[CopyKey, str] = Spans()
        waits: Spans[int, int] = Spans()
        before: dict[CopyKey, str] = {}
        for row, event in enumerate(events):
            self.take(row, event, before)
            before = held(self.table)
            copies.update(row, before)
            waits.update(row, {m: machine.waits for m, machine in enumerate(self.table.machines) if machine.waits is not None})
        end = len(self.rows)
        for flight in self.flying.values():
            flight.end = end
        self.copies = [Copy(*key, state, start, stop) for key, state, start, stop in copies.all(end)]
        self.waits = [Wait(key, victim, start, stop) for key, victim, start, stop in waits.all(end)]

    def take(self, row: int, event: bytes, before: collections.abc.Iterable[CopyKey]) -> None:
        number, condition = self.table.step(event)
        note = condition if number else note_of(event, self.table, before)
        self.rows.append(Row(lists.text_of(event), number, note, machine_of(event, self.table), self.table.open_jobs))
        self.follow(row)
        if number == 0 and event[0] == 6:
            self.deaths[event[1]] = row
        if number == 0 and event[0] == 7:
            self.notices.append((row, event[1], event[2]))
        if number == 0 and event[0] == 8:
            self.joins[event[1]] = row

    def follow(self, row: int) -> None:
        """Brings the flights up to date by the table's log."""
        delivered = None
        for word, what in self.table.log:
            if word in ("sent", "lost"):
                flight = Flight(what, row)
                self.flights.append(flight)
                self.flying[what] = flight
            if word in (DELIVERED, DROPPED, LOST):
                flight = self.flying.pop(what)
                flight.end, flight.fate = row, word
                delivered = flight if word == DELIVERED else delivered
            if word in ("idle", "priced"):
                setattr(delivered, word, True)
