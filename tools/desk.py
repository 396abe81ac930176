"""What the desk's tools share: files and outputs that cannot be read or written, messages in place of tracebacks, exit statuses.

For book.py, events.py, model.py and picture.py. It is not run by itself, and needs Python's standard library only.
"""
import argparse
import collections.abc
import contextlib
import os
import pathlib
import re
import stat
import sys
import tempfile
import typing
import unicodedata

if sys.version_info < (3, 10):  # before anything that an older one does not know
    sys.exit("Python 3.10 or later is needed, and this is %d.%d" % sys.version_info[:2])

DONE, FAULTY, REFUSED, INTERRUPTED = 0, 1, 3, 130  # exit statuses; 2, for wrong usage, is argparse's
MOST_BYTES = 4000000  # that are read of a text or of a list of events
MOST_NAMED = 20  # faults of an input
MOST_SHOWN = 60  # characters of a text within a message
BLANKS = {" ": "a space", "\t": "a tab", "\n": "a line end", "\r": "a line end", "\u00a0": "a no-break space"}
SPREADSHEET, UTF_16 = "a spreadsheet file: save it as CSV (UTF-8)", "UTF-16: save it as UTF-8"
NO_TEXTS = {b"PK\3\4": SPREADSHEET, b"\xd0\xcf\x11\xe0": SPREADSHEET, b"\xff\xfe": UTF_16, b"\xfe\xff": UTF_16}  # by the first bytes

Path = str | os.PathLike[str]


class Stop(Exception):
    """Ends a tool. Its text is the message, of one line or more."""

    def __init__(self, text: str, status: int = FAULTY) -> None:
        super().__init__(text)
        self.status = status


# Files.


def read_bytes(path: Path, most: int = MOST_BYTES) -> bytes:
    """The bytes of a file; of one that has more than the most, these and one more."""
    try:
        with open(path, "rb") as file:
            return file.read(most + 1)
    except (OSError, ValueError) as fault:
        raise Stop(f"{path} cannot be read: {reason(fault)}") from None


def read_whole(path: Path) -> bytes:
    data = read_bytes(path)
    if len(data) > MOST_BYTES:
        raise Stop(f"{path} is longer than any book or list of events: it has more than {MOST_BYTES} bytes")
    return data


def read_text(path: Path) -> str:
    """UTF-8, with or without the mark that spreadsheets put first."""
    data = read_whole(path)
    kind = next((words for start, words in NO_TEXTS.items() if data.startswith(start)), None)
    if kind:
        raise Stop(f"{path} is {kind}")
    if 0 in data:
        raise Stop(f"{path} is not a text: line {line_of(data, data.index(0))} has a NUL")
    try:
        return data.decode("utf-8-sig")
    except UnicodeDecodeError as fault:
        raise Stop(f"{path} is not UTF-8 text: line {line_of(data, fault.start)} has the byte {data[fault.start]}") from None


def line_of(data: bytes, place: int) -> int:
    return len(re.split(b"\r\n|\r|\n", data[:place]))


def write_bytes(path: Path, data: bytes, inputs: collections.abc.Iterable[Path]) -> None:
    """Writes a file whole or not at all, and never over one of the inputs that it was made of.

    A device, a pipe and what is open as an output are written directly.
    """
    for source in inputs:
        if is_same(path, source):
            raise Stop(f"{path} is not written: it is the same file as the input {source}")
    if sys.stdout is None and is_same(path, "/dev/stdout"):
        raise Stop(f"{path} cannot be written: standard output is closed")
    try:
        found = stat_of(path)
        descriptor = output_of(found)
        if descriptor is not None:
            with open(descriptor, "wb", closefd=False) as out:
                out.write(data)
        elif found is None or stat.S_ISREG(found.st_mode):
            replace(os.path.realpath(path), data)
        else:
            pathlib.Path(path).write_bytes(data)
    except (OSError, ValueError) as fault:
        raise Stop(f"{path} cannot be written: {reason(fault)}") from None


def is_same(path: Path, other: Path) -> bool:
    """Whether two paths are of one file. A file that is not there yet is known by its path."""
    try:
        return os.path.samefile(path, other)
    except (OSError, ValueError):
        return os.path.realpath(path) == os.path.realpath(other)


def stat_of(path: Path) -> os.stat_result | None:
    try:
        return os.stat(path)
    except FileNotFoundError:
        return None


def output_of(found: os.stat_result | None) -> int | None:
    """The descriptor of standard output or error where that is this file, as /dev/stdout is. To open it again would empty it."""
    for descriptor in (1, 2):
        with contextlib.suppress(OSError):  # it is closed
            if found is not None and os.path.samestat(found, os.fstat(descriptor)):
                return descriptor
    return None


def replace(path: str, data: bytes) -> None:
    """Writes beside a file, which no link is, and then takes its place: where the disk is full the old file is still whole."""
    old = stat_of(path)
    if old is not None:
        os.close(os.open(path, os.O_WRONLY))  # a file that must not be written must not be replaced
    descriptor, name = new_file(os.path.dirname(path))
    try:
        with open(descriptor, "wb") as out:
            out.write(data)
            out.flush()
            own(descriptor, old)
            os.fsync(descriptor)
        os.replace(name, path)
    except BaseException:
        os.unlink(name)
        raise


def new_file(folder: str) -> tuple[int, str]:
    try:
        return tempfile.mkstemp(prefix=".", suffix=".new", dir=folder)
    except FileNotFoundError as fault:
        raise OSError(fault.errno, f"there is no folder {folder}") from None
    except OSError as fault:
        raise OSError(fault.errno, f"the folder {folder} takes no new file: {reason(fault)}") from None


def own(descriptor: int, old: os.stat_result | None) -> None:
    """Gives a file the owner, as far as allowed, and the mode of the old one; without an old one the mode of any new file."""
    if old is None:
        mask = os.umask(0)
        os.umask(mask)
        os.fchmod(descriptor, 0o666 & ~mask)
        return
    with contextlib.suppress(PermissionError):
        os.fchown(descriptor, old.st_uid, old.st_gid)
    os.fchmod(descriptor, stat.S_IMODE(old.st_mode))


@contextlib.contextmanager
def making(path: Path) -> collections.abc.Iterator[None]:
    """Where an output cannot be made, the last line of the message says that it is not written."""
    try:
        yield
    except Stop as stop:
        left = "; the old one is left as it was" if os.path.isfile(path) else ""
        raise Stop(f"{stop}\n{path} is not written{left}", stop.status) from None


def reason(fault: Exception) -> str:
    return getattr(fault, "strerror", None) or str(fault)


# Words of messages.


def listed(lines: list[str], word: str) -> str:
    """The first lines, each of a fault or what the word is, and how many more there are."""
    more = len(lines) - MOST_NAMED
    return "\n".join(lines[:MOST_NAMED] + ([f"and {plural(more, f'more {word}')}"] if more > 0 else []))


def plural(count: int, word: str) -> str:
    return f"{count} {word}" + ("" if count == 1 else "s")


def named(character: str) -> str:
    """A character in words, where it is not plain to see. Bytes that are no UTF-8 are those of Python's surrogateescape."""
    code = ord(character)
    if character in BLANKS:
        return BLANKS[character]
    if character.isascii() and character.isprintable():
        return f"'{character}'"
    if 0xDC80 <= code <= 0xDCFF:
        return f"the byte {code - 0xDC00}"
    return f"{unicodedata.name(character, 'the character').lower()} (U+{code:04X})"


def shortened(text: str) -> str:
    return text if len(text) <= MOST_SHOWN else text[:MOST_SHOWN] + "..."


def quoted(text: str) -> str:
    """A text within a message: not too long, and with words for what cannot be seen."""
    return "'" + "".join(c if c.isprintable() else f"<{named(c)}>" for c in shortened(text)) + "'"


def strange(text: str) -> str:
    """The end of a message about a text: its first character that is not plain to see, with its place, if there is one."""
    found = next(((place, c) for place, c in enumerate(text, 1) if not (c.isascii() and c.isprintable())), None)
    return f": character {found[0]} is {named(found[1])}" if found else ""


# Running a tool.


class Parser(argparse.ArgumentParser):
    """Of a tool or of one of its commands. Its description, the docstring, keeps its lines."""

    def __init__(self, **options: typing.Any) -> None:
        super().__init__(formatter_class=argparse.RawDescriptionHelpFormatter, **options)

    def print_help(self, file: typing.Any = None) -> None:
        """argparse's own ends well where the output takes nothing."""
        say(self.format_help())


def stated_path(text: str) -> str:
    """The path of an argument."""
    if not text:
        raise argparse.ArgumentTypeError("the path is empty")
    return text


def run(main: collections.abc.Callable[[], int]) -> typing.NoReturn:
    """Runs a tool, whose exit status main returns. A Stop prints its message, each line after the tool's name."""
    try:
        status = main()
    except Stop as stop:
        warn(str(stop))
        status = stop.status
    except BrokenPipeError:  # the reader of the output has left, as head does
        leave(sys.stdout)
        status = FAULTY
    except MemoryError:
        warn("there is too little memory")
        status = FAULTY
    except KeyboardInterrupt:
        if sys.stdout is not None:
            leave(sys.stdout)
        status = INTERRUPTED
    sys.exit(status)


def say(text: str) -> None:
    """Prints at once, so that an output that takes nothing is found here and not after the end."""
    if sys.stdout is None:
        raise Stop("standard output cannot be written: it is closed")
    try:
        sys.stdout.write(text)
        sys.stdout.flush()
    except BrokenPipeError:
        raise
    except OSError as fault:
        leave(sys.stdout)
        raise Stop(f"standard output cannot be written: {reason(fault)}") from None


def leave(stream: typing.TextIO) -> None:
    """What is still unwritten goes nowhere; Python would try it again at the end."""
    os.dup2(os.open(os.devnull, os.O_WRONLY), stream.fileno())


def warn(text: str) -> None:
    """Prints on standard error. What cannot be said changes nothing else."""
    if sys.stderr is None:  # closed, and print would take standard output in its place
        return
    try:
        for line in text.splitlines():
            print(f"{pathlib.Path(sys.argv[0]).name}: {line}", file=sys.stderr)
    except OSError:
        leave(sys.stderr)
