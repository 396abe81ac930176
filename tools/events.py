#!/usr/bin/python3
"""A list of events as text, and as the events.bin that the program reads.

    python3 tools/events.py make LIST.txt events.bin
    python3 tools/events.py show events.bin

It needs Python 3.10 or later, and its standard library only.

A line is an event; what follows a # is a comment, and empty lines are skipped:

    admit 0           entry 0 of the book becomes an open job
    steal 2 from 0    thief 2 sends FISH to victim 0
    deliver 1 to 0    the oldest message from 1 to 0 is handled by 0
    start 2 job 0     machine 2 runs job 0 of its pool
    done 2            machine 2 has finished what it runs
    die 3             machine 3 dies
    notice 0 of 3     machine 0 is told that 3 is dead
    join 4            machine 4 joins
    raw 9 9 9         any three bytes; as the last line one or two

Words are lower case and a number is 0 to 255; whether the dispatcher accepts the event is for the program to say, by a number
that docs/PROTOCOL.md, "The numbers", has the meaning of. make writes nothing where a line is no event, and names such lines,
the first 20 of them. show prints any events.bin so that make makes the same bytes of it, with event k on line k. The program
reads no more than the first 20,000 events; of a longer list, and of one without an event, the tool warns. A file of more than
4,000,000 bytes it does not read.

The exit status is 0 where the list is written or shown, 1 where a file cannot be read or written or a line is no event, 2 for
a wrong command, 130 where the tool is interrupted.
"""
import argparse
import re

import desk

WORDS = {  # document 01, "Events are three bytes: code, a, b. An unused b is 0."; 8 is document 02's, 2.6
    1: "admit ENTRY",
    2: "steal MACHINE from MACHINE",
    3: "deliver MACHINE to MACHINE",
    4: "start MACHINE job ENTRY",
    5: "done MACHINE",
    6: "die MACHINE",
    7: "notice MACHINE of MACHINE",
    8: "join MACHINE",
}
RAW = "raw BYTE BYTE BYTE"
NUMBERS = {
    "ENTRY": "an entry number 0 to 255: the bond's place in the book, counted from 0",
    "MACHINE": "a machine number 0 to 255: machines are counted from 0, the root",
    "BYTE": "a byte 0 to 255",
}
FORMS = {form.split()[0]: form for form in [*WORDS.values(), RAW]}  # by the first word
PATTERNS = {code: re.compile(re.sub("[A-Z]+", "([0-9]+)", form)) for code, form in WORDS.items()}
MOST_EVENTS = 20000  # that the program reads


def events_of(data: bytes) -> list[bytes]:
    """The events of a file: three bytes each, and what is left over."""
    return [data[at:at + 3] for at in range(0, len(data), 3)]


def names_event(event: bytes) -> bool:
    """Whether a word of the list stands for these bytes."""
    return len(event) == 3 and event[0] in WORDS and (event[2] == 0 or PATTERNS[event[0]].groups == 2)


def text_of(event: bytes) -> str:
    if not names_event(event):
        return " ".join(["raw", *map(str, event)])
    numbers = iter(event[1:])
    return re.sub("[A-Z]+", lambda _: str(next(numbers)), WORDS[event[0]])


def event_of(line: str) -> bytes:
    """The bytes of a line without its comment. A ValueError says why it has none."""
    words = " ".join(line.split())
    for code, pattern in PATTERNS.items():
        found = pattern.fullmatch(words)
        if found:
            return bytes([code, *map(byte_of, found.groups()), 0][:3])
    if re.fullmatch("raw( [0-9]+){1,3}", words):
        return bytes(map(byte_of, words.split()[1:]))
    raise ValueError(why_none(words))


def byte_of(digits: str) -> int:
    digits = digits.lstrip("0") or "0"
    if len(digits) > 3 or int(digits) > 255:
        raise ValueError(f"{desk.quoted(digits)} is above 255")
    return int(digits)


def why_none(words: str) -> str:
    """What is wrong with words that have the form of no event."""
    first = words.split()[0]
    form = FORMS.get(first.lower())
    if form is None:
        return f"{desk.quoted(first)} is none of " + ", ".join(FORMS)
    lower = " ".join(word.lower() if word.lower() in form.split() else word for word in words.split())
    if lower != words:
        return why_capitals(lower)
    for word, meant in zip(words.split(), form.split()):
        if meant in NUMBERS and not re.fullmatch("[0-9]+", word):
            return f"{desk.quoted(word)} is not {NUMBERS[meant]}"
    fewer = ", or with fewer bytes as the last line" if form == RAW else ""
    return f"it is written {form}{fewer}, in numbers 0 to 255"


def why_capitals(lower: str) -> str:
    """What is wrong with words that were not lower case, and now are."""
    try:
        event_of(lower)
    except ValueError as fault:
        return f"words are lower case, and {fault}"
    return f"words are lower case; did you mean {lower}?"


def make(text: str) -> bytes:
    """The bytes of a list."""
    lines = [(place, line.split("#")[0].strip()) for place, line in enumerate(re.split("\r\n|\r|\n", text), 1)]
    lines = [(place, line) for place, line in lines if line]
    events, faults = [], []
    for place, line in lines:
        try:
            events.append(event_of(line))
        except ValueError as fault:
            faults.append(f"line {place}: {desk.quoted(line)} is no event: {fault}{desk.strange(line)}")
            continue
        if len(events[-1]) < 3 and place != lines[-1][0]:
            faults.append(f"line {place}: only the last line may have fewer than three bytes")
    if faults:
        raise desk.Stop(desk.listed(faults, "fault"))
    return b"".join(events)


def show(data: bytes) -> str:
    return "".join(text_of(event) + "\n" for event in events_of(data))


def as_read(path: desk.Path, data: bytes) -> bytes:
    """What the program reads of a file of these bytes. Where it has more events, a warning says so."""
    count = len(events_of(data))
    if count > MOST_EVENTS:
        more = " or more" if len(data) > desk.MOST_BYTES else ""
        desk.warn(f"warning: {path} has {count}{more} events: the first {MOST_EVENTS} are read")
    return data[:3 * MOST_EVENTS]


def command_make(args: argparse.Namespace) -> None:
    with desk.making(args.events):
        data = make(desk.read_text(args.list))
    desk.write_bytes(args.events, data, [args.list])
    as_read(args.events, data)
    if not data:
        desk.warn("warning: no events")


def command_show(args: argparse.Namespace) -> None:
    data = desk.read_whole(args.events)
    desk.say(show(data))
    as_read(args.events, data)


def main() -> int:
    parser = desk.Parser(description=__doc__)
    commands = parser.add_subparsers(required=True, metavar="make|show")
    making = commands.add_parser("make", help="make events.bin from a list", description=parser.description)
    making.add_argument("list", metavar="LIST.txt", type=desk.stated_path)
    making.add_argument("events", metavar="events.bin", type=desk.stated_path)
    making.set_defaults(command=command_make)
    showing = commands.add_parser("show", help="print events.bin as a list", description=parser.description)
    showing.add_argument("events", metavar="events.bin", type=desk.stated_path)
    showing.set_defaults(command=command_show)
    args = parser.parse_args()
    args.command(args)
    return desk.DONE


if __name__ == "__main__":
    desk.run(main)
