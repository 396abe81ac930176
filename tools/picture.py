#!/usr/bin/python3
"""Draws a run as an SVG picture.

    python3 tools/picture.py FOLDER out.svg [--title TEXT]

The folder has the book.bin and events.bin of the run; out.svg is none of them. A title that is too long for the picture is
shortened, and one with a character that XML does not have, as a control character, is refused. A long run makes a picture of
more than 32,767 pixels, which some programs do not draw; the tool then says so. A file that cannot be read counts as empty, as
it does in the program, and is named on standard error. Of a list the first 20,000 events are read; of a longer one the tool
warns. It needs Python 3.10 or later, and its standard library only.

Time goes down, a row for each event, with how many bonds are open after it; a machine is a lane, and the line in it is the
machine's life. The lane of a machine that joins begins where it joins. Left of the line stand the messages that come to the
machine, each at the end of its arrow; right of it are the copies of the bonds that it holds, each a bar with the job's number.
What happened is told by model.py (by way of history.py). What the number of a refusal means is in docs/PROTOCOL.md, "The
numbers".

The exit status is 0 where the picture is that of an accepted book and a list of events; 1 where one of the two files cannot be
read (of a book without events.bin the picture is written all the same), or the picture cannot be written, or the title is
refused; 2 for a wrong command; 3 where the book is refused; 130 where the tool is interrupted.
"""
import collections.abc
from xml.etree.ElementTree import Element

import book_bytes as books
import desk
import history as runs
import model
import svg
from svg import circle, cross, curve, cut, line, path, pill_width, rect, tag, text, triangle, width_of, BOLD, Pill

INK, SOFT, FAINT, PAPER, LANE = "#23292f", "#66707a", "#d5d8d4", "#fbfbf9", "#f1f2ee"
RED, RED_TINT, DARK, WAITING = "#b3261e", "#fbd5d1", "#343a40", "#d08a00"
FONT = "'DejaVu Sans', Verdana, Helvetica, Arial, sans-serif"
KINDS = {
    "FISH": "#1f6fb2", "REQ": "#7b4fa3", "AUTH": "#2e7d4f", "DENIED": "#c2540a", "OBSOLETE": "#85543f",
    "SCHEDULE": "#007a87", "ACK": "#54708a", "NOWORK": "#7d7d7d", "RESULT": "#9a7400",
}
STATES = {  # fill and edge of a bar
    runs.POOL: ("#d3e2f4", "#8fb0d6"), runs.RESERVED: ("#fad58a", "#d39a22"), runs.RUNNING: ("#86cba3", "#2f855a"),
}
FATES = {
    runs.DELIVERED: "delivered", runs.DROPPED: "dropped", runs.LOST: "lost, for it goes to a dead machine",
    runs.IN_FLIGHT: "in flight at the end",
}
TICK, TIMES = "\u2713", "\u00d7"

MARGIN = 28
LEAST = 1120  # width of the picture
HEAD = 26  # height of the names of the lanes
LINE = 18  # height of a row with one pill
HEADS = 50  # rows after which the names of the lanes stand again
PLACE, EVENT, NOTE, OPEN = 38, 112, 268, 40  # widths at the left: place, event, note, number of open bonds
OPEN_AT = MARGIN + PLACE + EVENT + NOTE + OPEN / 2  # the middle of that number
BOND = 17  # height of a line of the list of bonds
STATE, TERMS, COLUMN = 140, 308, 520  # in the list of bonds: where states begin, where terms and the next column begin at least
TITLE = 21  # size of its letters
MOST_PIXELS = 32767  # of a side, which some programs do not go beyond

Elements = collections.abc.Iterator[Element]
Stay = list[runs.Copy]  # of one job and replica on one machine
Sign = tuple[float, collections.abc.Callable[[float, float], list[Element]]]  # its width, and how it is drawn


# The layout: where lanes, rows and pills are.


def flight_pill(flight: runs.Flight) -> Pill:
    """The label of a message at the end of its way."""
    m, words = flight.message, runs.label(flight.message)
    about = f"{words} from {m.sender} to {m.to}: sent at event {flight.start + 1}, {FATES[flight.fate]}"
    if flight.fate in (runs.DELIVERED, runs.DROPPED):
        about += f" at event {flight.end + 1}" + (" without effect" if flight.idle else "")
    if flight.priced:
        words += " " + TICK
    if flight.fate in (runs.DROPPED, runs.LOST):
        words = TIMES + " " + words
    filled = flight.fate == runs.DELIVERED and not flight.idle
    return Pill(words, KINDS[m.kind], filled, flight.fate != runs.DELIVERED, about)


def pack(stays: list[Stay]) -> tuple[int, list[tuple[int, Stay]]]:
    """How many columns the stays need, and pairs of a column and a stay: each as far left as there is room."""
    ends: list[int] = []
    placed = []
    for stay in stays:  # in the order of their starts
        column = next((c for c, end in enumerate(ends) if end <= stay[0].start), len(ends))
        ends[column:column + 1] = [stay[-1].end]
        placed.append((column, stay))
    return len(ends), placed


class Lane:
    """A machine's lane: its edges, its line, the columns of its bars."""

    def __init__(self, machine: int, x: float, stays: list[Stay], pills: list[Pill]) -> None:
        labels = [runs.copy_label(stay[0].job, stay[0].replica) for stay in stays]
        columns, self.stays = pack(stays)
        self.machine, self.x = machine, x
        self.line = x + 18 + max([66, *(pill_width(pill.words) for pill in pills)]) + 5
        self.bar = max([16, *(width_of(words, 9) + 4 for words in labels)])
        self.end = max(self.bar_x(columns), self.line + 46) + 10

    def move(self, by: float, room: float) -> None:
        """Further right, with more room at its end."""
        self.x, self.line, self.end = self.x + by, self.line + by, self.end + by + room

    def bar_x(self, column: int) -> float:
        return self.line + 9 + column * (self.bar + 2)


class Layout:
    """The places of all things. A row is as high as the pills that stand in it in one lane."""

    def __init__(self, history: runs.History) -> None:
        self.history = history
        self.pills: dict[tuple[int, int], list[Pill]] = {}  # row and machine to the pills, from top to bottom
        self.flights: list[tuple[runs.Flight, Pill]] = []
        self.gather()
        self.place_lanes()
        self.right = self.lanes[-1].end
        self.width = self.right + MARGIN

    def gather(self) -> None:
        history = self.history
        for machine, row in history.joins.items():
            self.put(row, machine, Pill("joins", DARK, about=f"machine {machine} joins at event {row + 1}"))
        for machine, row in history.deaths.items():
            self.put(row, machine, Pill("dies", DARK, about=f"machine {machine} dies at event {row + 1}"))
        for row, machine, dead in history.notices:
            self.put(row, machine, Pill(f"told: {dead} dead", DARK, False, about=f"machine {machine} is told that {dead} is dead"))
        for row, event in enumerate(history.rows):
            if event.number and event.machine is not None:
                self.put(row, event.machine, Pill(f"refused {event.number}", RED, about=event.note))
        for flight in history.flights:
            self.flights.append((flight, flight_pill(flight)))
            self.put(flight.end, flight.message.to, self.flights[-1][1])

    def put(self, row: int, machine: int, pill: Pill) -> None:
        self.pills.setdefault((row, machine), []).append(pill)

    def place_lanes(self) -> None:
        self.lanes: list[Lane] = []
        x: float = MARGIN + PLACE + EVENT + NOTE + OPEN
        for machine in range(len(self.history.table.machines)):
            stays = [stay for stay in runs.stays(self.history.copies) if stay[0].machine == machine]
            pills = [pill for (_, to), found in self.pills.items() if to == machine for pill in found]
            self.lanes.append(Lane(machine, x, stays, pills))
            x = self.lanes[-1].end
        room = max(0, LEAST - MARGIN - x) / len(self.lanes)
        for lane in self.lanes:
            lane.move(room * lane.machine, room)

    def place_rows(self, top: float) -> None:
        """The top of each row and of the end; a row's pills stand below one another."""
        self.tops: list[float] = []
        self.heads, y = [top], top + HEAD
        last = len(self.history.rows)
        for row in range(last + 1):
            if row % HEADS == 0 and 0 < row <= last - 5:
                self.heads.append(y + LINE / 2)  # below the labels of bars that begin in the row above
                y += LINE / 2 + HEAD
            self.tops.append(y)
            here = [self.pills.get((row, lane.machine), []) for lane in self.lanes]
            for pills in here:
                for at, pill in enumerate(pills):
                    pill.y = y + LINE / 2 + at * LINE
            y += LINE * max(0 if row == last else 1, *map(len, here))
        self.bottom = y + 6

    def y(self, row: int) -> float:
        """The middle of a row's first line; the bottom for what lasts."""
        return self.tops[row] + LINE / 2 if row < len(self.history.rows) else self.bottom

    def top(self, lane: Lane) -> float:
        """Where the lane begins: at its name, or at the row where its machine joins."""
        joins = self.history.joins
        return self.tops[joins[lane.machine]] if lane.machine in joins else self.heads[0]

    def edge(self, row: int) -> float:
        """Where a row ends: the lanes of machines that are yet to join are right of all others."""
        return max(lane.end for lane in self.lanes if self.top(lane) <= self.tops[row])


# The drawing, from what lies below to what lies above.


def ground(layout: Layout) -> Elements:
    """Lanes, rows, and the shade of refused events and of dead machines."""
    for lane in layout.lanes:
        top = layout.top(lane)
        yield rect(lane.x, top, lane.end - lane.x, layout.bottom - top, LANE if lane.machine % 2 == 0 else "#ffffff")
    for machine, row in layout.history.deaths.items():
        lane = layout.lanes[machine]
        yield rect(lane.x, layout.y(row), lane.end - lane.x, layout.bottom - layout.y(row), "url(#dead)")
    for row, event in enumerate(layout.history.rows):
        y, edge = layout.tops[row], layout.edge(row)
        if event.number:
            yield rect(MARGIN, y, edge - MARGIN, LINE, RED_TINT, fill_opacity=0.7)
        yield line(MARGIN, y, edge, y, FAINT, stroke_width=1 if row % 10 == 0 else 0.4)
    for before, lane in zip([layout.lanes[0], *layout.lanes], layout.lanes):
        yield line(lane.x, layout.top(before), lane.x, layout.bottom, FAINT)  # the lane before it ends here too
    yield line(MARGIN, layout.bottom, layout.right, layout.bottom, SOFT)


def heads(layout: Layout) -> Elements:
    """The names of the lanes."""
    for at, y in enumerate(layout.heads):
        yield rect(MARGIN, y, layout.right - MARGIN, HEAD, DARK if at == 0 else "#6b747c")
        yield text(MARGIN + PLACE, y + HEAD / 2, "event", 11, "#ffffff", font_weight="bold")
        yield text(OPEN_AT, y + HEAD / 2, "open", 11, "#ffffff", font_weight="bold", text_anchor="middle")
        for lane in layout.lanes:
            died = layout.history.deaths.get(lane.machine)
            dead, later = died is not None and layout.tops[died] < y, layout.top(lane) > y + HEAD
            state = " root" if lane.machine == model.ROOT else " dead" if dead else " later" if later else ""
            yield text(lane.line, y + HEAD / 2, f"machine {lane.machine}{state}", 11, "#b8bfc5" if dead or later else "#ffffff",
                       font_weight="bold", text_anchor="middle")


def lifelines(layout: Layout) -> Elements:
    history = layout.history
    for lane in layout.lanes:
        died = history.deaths.get(lane.machine, len(history.rows))
        for y, until in zip(layout.heads, [*layout.heads[1:], layout.bottom]):
            start, end = max(y + HEAD, layout.top(lane) + LINE / 2), min(until, layout.y(died))  # below a name, or from the middle of a row on
            if start < end:
                yield line(lane.line, start, lane.line, end, DARK, stroke_width=2.5)
    for wait in history.waits:
        x, y, end = layout.lanes[wait.machine].line, layout.y(wait.start), layout.y(wait.end)
        about = f"machine {wait.machine} waits on {wait.victim} from event {wait.start + 1}"
        yield line(x, y, x, end, PAPER, stroke_width=3)
        yield line(x, y, x, end, WAITING, about, stroke_width=3, stroke_dasharray="2 2.5")
    for machine, row in history.joins.items():
        x, y = layout.lanes[machine].line, layout.y(row)
        yield line(x - 6, y, x + 6, y, DARK, stroke_width=3)
    for machine, row in history.deaths.items():
        yield cross(layout.lanes[machine].line, layout.y(row), 5, DARK, 3)


def bars(layout: Layout) -> Elements:
    """The copies that a machine holds."""
    for lane in layout.lanes:
        for column, stay in lane.stays:
            for copy in stay:
                fill, edge = STATES[copy.state]
                y, end = layout.y(copy.start) + 0.5, layout.y(copy.end) - 0.5
                name = layout.history.table.entries[copy.job].identifier.decode("ascii")
                about = f"{name}, job {copy.job} replica {copy.replica}: {copy.state} on machine {copy.machine} from event {copy.start + 1}"
                yield rect(lane.bar_x(column), y, lane.bar, end - y, fill, about, rx=3, stroke=edge, stroke_width=0.8)


def bar_labels(layout: Layout) -> Elements:
    """The job of each bar, where it begins and below the names of the lanes."""
    for lane in layout.lanes:
        for column, stay in lane.stays:
            for copy in stay:
                start, end, words = layout.y(copy.start), layout.y(copy.end), runs.copy_label(copy.job, copy.replica)
                for y in [start, *(y + HEAD for y in layout.heads if start < y + 4 and y + HEAD + LINE < end)]:
                    yield text(lane.bar_x(column) + lane.bar / 2, y + LINE / 2, words, 9, text_anchor="middle")


def arrows(layout: Layout) -> Elements:
    """The way of each message from its sending; a broken line where it does not arrive."""
    loops = 0
    for flight, pill in layout.flights:
        sender, to = layout.lanes[flight.message.sender], layout.lanes[flight.message.to]
        x, y = sender.line, layout.y(flight.start)
        left = to.line - 5 - pill_width(pill.words)
        dashes = None if flight.fate == runs.DELIVERED else "4 3"
        if sender is to:
            loops += 1
            edge, end = to.x + 4 + 4 * (loops % 3), left - 1
            d = f"M{x:.1f} {y:.1f}H{edge + 6:.1f}q-6 0 -6 6V{pill.y - 6:.1f}q0 6 6 6H{end:.1f}"
        else:
            end = left - 1 if sender.x < to.x else to.line + 3
            d = curve(x, y, end, pill.y)
        yield path(d, stroke=pill.colour, stroke_width=1.3, stroke_dasharray=dashes, stroke_opacity=0.85)
        yield circle(x, y, 2.6, pill.colour)
        if flight.fate == runs.DELIVERED:
            yield triangle(end, pill.y, 1 if end < to.line else -1, pill.colour)


def pills(layout: Layout) -> Elements:
    for (_, machine), found in layout.pills.items():
        for pill in found:
            yield pill.drawn(layout.lanes[machine].line - 5, PAPER)


def log(layout: Layout) -> Elements:
    """The list of events at the left, each with what it did."""
    for row, event in enumerate(layout.history.rows):
        y = layout.tops[row] + LINE / 2
        colour = RED if event.number else INK
        note = f"refused {event.number}: {event.note}" if event.number else event.note
        yield text(MARGIN + PLACE - 8, y, str(row + 1), 9.5, RED if event.number else SOFT, text_anchor="end")
        yield text(MARGIN + PLACE, y, event.text, 10.5, colour)
        yield text(MARGIN + PLACE + EVENT, y, cut(note, 10, NOTE - 8), 10, RED if event.number else SOFT, note)
    if any(flight.fate == runs.IN_FLIGHT for flight in layout.history.flights):
        yield text(MARGIN + PLACE, layout.tops[-1] + LINE / 2, "in flight at the end", 10.5, SOFT)


def open_bonds(layout: Layout) -> Elements:
    """How many bonds are open after each event, bold where the number changes."""
    before = 0
    for row, event in enumerate(layout.history.rows):
        changed, about = event.open_jobs != before, f"bonds open after event {row + 1}"
        yield text(OPEN_AT, layout.tops[row] + LINE / 2, str(event.open_jobs), 10, INK if changed else SOFT, about,
                   font_weight="bold" if changed else None, text_anchor="middle")
        before = event.open_jobs


# What stands above the lanes.


def summary(history: runs.History) -> str:
    refused = sum(row.number != 0 for row in history.rows)
    states = [job.state for job in history.table.jobs]
    fates = [flight.fate for flight in history.flights]
    return "   \u00b7   ".join([
        f"{desk.plural(len(history.rows), 'event')}, {refused} refused",
        f"{states.count(model.PRICED)} priced, {history.table.open_jobs} open, {states.count(model.NOT_ADMITTED)} not admitted",
        f"{desk.plural(len(history.joins), 'join')}, {desk.plural(len(history.deaths), 'death')}, {desk.plural(len(history.notices), 'notice')}",
        f"{desk.plural(len(fates), 'message')}: {fates.count(runs.DELIVERED)} delivered, {fates.count(runs.DROPPED)} dropped, "
        f"{fates.count(runs.LOST)} lost, {fates.count(runs.IN_FLIGHT)} in flight"])


def bar_sign(state: str) -> Sign:
    fill, edge = STATES[state]
    return 18, lambda x, y: [rect(x, y - 7, 16, 14, fill, rx=3, stroke=edge), text(x + 8, y, "3", 9, text_anchor="middle")]


def pill_sign(words: str, colour: str, filled: bool = True, dashed: bool = False) -> Sign:
    pill = Pill(words, colour, filled, dashed)

    def draw(x: float, y: float) -> list[Element]:
        pill.y = y
        return [pill.drawn(x + pill_width(pill.words), PAPER)]
    return pill_width(pill.words), draw


def life_sign(colour: str, dashes: str | None, ends: bool = False) -> Sign:
    def draw(x: float, y: float) -> list[Element]:
        life = line(x + 5, y - 8, x + 5, y + (0 if ends else 8), colour, stroke_width=2.8, stroke_dasharray=dashes)
        return [life, cross(x + 5, y, 4, colour, 2.6)] if ends else [life]
    return 10, draw


def join_sign() -> Sign:
    return 12, lambda x, y: [line(x, y - 4, x + 12, y - 4, DARK, stroke_width=3), line(x + 6, y - 4, x + 6, y + 8, DARK, stroke_width=2.8)]


def arrow_sign() -> Sign:
    colour = KINDS["FISH"]
    return 40, lambda x, y: [circle(x + 3, y - 4, 2.6, colour), triangle(x + 38, y + 4, 1, colour),
                             path(curve(x + 3, y - 4, x + 38, y + 4), stroke=colour, stroke_width=1.3)]


def legend_items() -> list[tuple[Sign, str]]:
    """Pairs of a sign and what it means."""
    return [
        (bar_sign(runs.POOL), "job 3 in the pool"),
        (bar_sign(runs.RESERVED), "reserved for a thief"),
        (bar_sign(runs.RUNNING), "running"),
        ((22, lambda x, y: [text(x, y, "3/2", 10.5)]), "job 3, replica 2 (1 is not written)"),
        (life_sign(DARK, None), "alive"),
        (life_sign(WAITING, "2 2.5"), "waits on a victim"),
        (join_sign(), "joins"),
        (life_sign(DARK, None, True), "dies"),
        (arrow_sign(), "message from sending to delivery"),
        (pill_sign("REQ 3", KINDS["REQ"]), "delivered"),
        (pill_sign("ACK 3", KINDS["ACK"], False), "without effect"),
        (pill_sign(f"{TIMES} FISH", KINDS["FISH"], False, True), "dropped, or lost to a dead machine"),
        (pill_sign("AUTH 3", KINDS["AUTH"], False, True), "in flight at the end"),
        (pill_sign(f"RESULT 3 {TICK}", KINDS["RESULT"]), "prices job 3"),
        (pill_sign("told: 2 dead", DARK, False), "notice"),
        (pill_sign("refused 13", RED), "refused event, with its number"),
        ((30, lambda x, y: [text(x, y, "open", 10.5, font_weight="bold")]), "bonds open after the event"),
    ]


def legend(width: float, top: float) -> tuple[list[Element], float]:
    """The drawn signs, and where they end."""
    drawn: list[Element] = []
    x, y = float(MARGIN + 12), top + 18
    for (sign_width, draw), words in legend_items():
        whole = sign_width + 7 + width_of(words, 10.5) + 20
        if x + whole > width - MARGIN - 4:
            x, y = MARGIN + 12, y + 24
        drawn += [*draw(x, y), text(x + sign_width + 7, y, words, 10.5, SOFT)]
        x += whole
    frame = rect(MARGIN, top, width - 2 * MARGIN, y + 18 - top, "#ffffff", rx=6, stroke=FAINT)
    return [frame, *drawn], y + 18


def bond_line(number: int, entry: books.Entry, job: model.Job) -> tuple[str, str, str, str]:
    """What the book and the page say of a bond."""
    kind, periods = ("zero", "period") if entry.kind == books.ZERO else (f"coupon {entry.coupon!r}", "payment")
    terms = f"{kind}, {desk.plural(entry.periods, periods)}, {entry.a_year} a year, at {entry.ytm!r}"
    if job.state == model.PRICED:
        state = f"priced {job.price:.6f}, replica {job.replica}"
    else:
        state = f"open, replica {job.replica}" if job.state == model.OPEN else model.NOT_ADMITTED
    return str(number), entry.identifier.decode("ascii"), state, terms


def bonds(history: runs.History, width: float, top: float) -> tuple[list[Element], float]:
    """The list of the bonds in columns, wide enough for all that is said of a bond, and where it ends."""
    lines = [bond_line(i, *both) for i, both in enumerate(zip(history.table.entries, history.table.jobs))]
    terms = max([TERMS, *(STATE + width_of(state, 10.5) + 6 for _, _, state, _ in lines)])
    column = max([COLUMN, *(terms + width_of(kind, 9.5) + 6 for _, _, _, kind in lines)])
    rows = -(-len(lines) // max(1, int((width - 2 * MARGIN) // column)))
    drawn = []
    for at, (number, name, state, kind) in enumerate(lines):
        x, y = MARGIN + column * (at // rows), top + BOND * (at % rows) + BOND / 2
        drawn += [text(x + 24, y, number, 10.5, text_anchor="end", font_weight="bold"), text(x + 34, y, name, 10.5),
                  text(x + STATE, y, state, 10.5, "#2f6f4a" if state.startswith("priced") else SOFT),
                  text(x + terms, y, kind, 9.5, SOFT)]
    return drawn, top + BOND * rows


def hatch() -> Element:
    """The shade of a dead machine's lane."""
    parts = tag("rect", width=7, height=7, fill="#e4e5e3"), tag("line", x1=0, y1=0, x2=0, y2=7, stroke="#cfd1ce", stroke_width=2)
    turned = tag("pattern", *parts, id="dead", width=7, height=7, patternUnits="userSpaceOnUse", patternTransform="rotate(45)")
    return tag("defs", turned)


def drawn(history: runs.History, title: str) -> Element:
    """The whole picture."""
    layout = Layout(history)
    short = cut(title, BOLD * TITLE, layout.width - 2 * MARGIN)
    above = [text(MARGIN, 38, short, TITLE, font_weight="bold"), text(MARGIN, 66, summary(history), 11.5, SOFT)]
    signs, y = legend(layout.width, 86)
    listed, y = bonds(history, layout.width, y + 14)
    layout.place_rows(y + 16)
    height = layout.bottom + MARGIN
    parts = [hatch(), rect(0, 0, layout.width, height, PAPER), *above, *signs, *listed]
    for part in (ground, bars, lifelines, arrows, heads, bar_labels, pills, log, open_bonds):
        parts += part(layout)
    return svg.picture(layout.width, height, FONT, title, parts)


def check_title(title: str) -> None:
    found = svg.NO_XML.search(title)
    if found:
        raise desk.Stop(f"character {found.start() + 1} of the title is {desk.named(found[0])}, which XML does not have")


def title_of(history: runs.History) -> str:
    """The title where none is given."""
    machines, joins = len(history.table.machines), len(history.joins)
    later = f", {joins} of which join{'s' if joins == 1 else ''} later" if joins else ""
    return f"{desk.plural(len(history.table.entries), 'bond')} on {desk.plural(machines, 'machine')}{later}"


def picture(book: bytes, events: bytes, title: str | None = None) -> Element:
    """The picture of a run over an accepted book."""
    machines, entries = books.parts(book)
    history = runs.History(machines, entries, events)
    return drawn(history, title or title_of(history))


def warn_of_size(root: Element) -> None:
    width, height = int(root.get("width", "")), int(root.get("height", ""))
    if max(width, height) > MOST_PIXELS:
        desk.warn(f"warning: the picture is {width} pixels wide and {height} high: some programs draw none of more than {MOST_PIXELS}")


def main() -> int:
    parser = desk.Parser(description=__doc__)
    parser.add_argument("folder", metavar="FOLDER", type=desk.stated_path)
    parser.add_argument("svg", metavar="out.svg", type=desk.stated_path)
    parser.add_argument("--title", help="the title line")
    args = parser.parse_args()
    with desk.making(args.svg):
        check_title(args.title or "")
        files = model.read_folder(args.folder)
        refused = books.number_of(files.book)
        if refused:
            raise desk.Stop(f"book refused {refused}: there is no run to draw", files.status())
    root = picture(files.book, files.events, args.title)
    desk.write_bytes(args.svg, svg.document(root).encode("utf-8"), model.files_of(args.folder))
    warn_of_size(root)
    return files.status()


if __name__ == "__main__":
    desk.run(main)
