"""The data files of the program test_vectors, and what it must print of them. For make_isin_vectors.py and make_price_vectors.py.

It is not run by itself, and needs Python's standard library only. The other scripts that write data use ROOT and fail_unless.

A record has 32 bytes, of which the first is its class (crates/test_vectors/src/main.rt). A file has at most 65,536 bytes, as many as the
program reads. The program prints a section for each file, with a line for each class.
"""
import pathlib
import sys

SIZE = 32  # bytes of a record
MOST = 65536 // SIZE  # records of a file

ROOT = pathlib.Path(__file__).resolve().parent.parent
CRATE = ROOT / "crates" / "test_vectors"

VERDICTS = [("verdict 0", 0), ("verdict 4", 4), ("verdict 5", 5)]
BONDS = [("zero-coupon", 1), ("fixed coupon", 2), ("refused", 7)]
# The files, in the order in which the program reads them, with the classes of their records.
FILES = {"identifiers_1.bin": VERDICTS, "identifiers_2.bin": VERDICTS, "terms.bin": BONDS, "prices.bin": BONDS, "prices_by_payments.bin": BONDS}


def fail_unless(condition: bool, message: str) -> None:
    if not condition:
        sys.exit(pathlib.Path(sys.argv[0]).name + ": " + message)


def write_file(name: str, records: list[bytes]) -> None:
    classes = [number for _, number in FILES[name]]
    fail_unless(0 < len(records) <= MOST, f"{len(records)} records in {name}")
    fail_unless(all(len(r) == SIZE and r[0] in classes for r in records), f"a record of {name} has another size or class")
    (CRATE / "data").mkdir(parents=True, exist_ok=True)
    (CRATE / "data" / name).write_bytes(b"".join(records))


def section(name: str) -> list[str]:
    """The lines that the program prints of a file, all of whose records agree."""
    classes = (CRATE / "data" / name).read_bytes()[::SIZE]
    counted = [f"{label}: {classes.count(n)} of {classes.count(n)}" for label, n in FILES[name]]
    return [name, *counted, f"records: {len(classes)}", "differences: 0"]


def write_stdout() -> None:
    """What the program must print, of the files that are there."""
    lines = [line for name in FILES if (CRATE / "data" / name).exists() for line in section(name)]
    (CRATE / "stdout").write_text("\n".join(lines) + "\n")
    print("\n".join(lines))
