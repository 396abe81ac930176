#!/usr/bin/python3
"""Writes the cases that the program test_validity is run on, and what it must print.

To run, at the root of the repository: /usr/bin/python3 tools/validity_cases.py

A case is a label, the changes made to one table that passes check 9, and the answer expected: 0 or 9. Each expectation is
read off document 01, "The table" and row 9 of "Where each refusal is checked", and off document 02, 2.1 for yields, 2.3 for
payments and 2.4 for the number of open jobs; their words stand above the cases, and no program of this repository decides
one. A case that passes stands beside those refused where the two differ little.

The table that every case starts from (crates/test_validity/src/tables.rt builds it): 4 machines, of which 3 is dead and the
root was told of it, so that no replica number is above 2; 3 entries with two payments a year. Job 0 is open with replica 1,
moving from 1 to 2; job 1 is priced with replica 2, on 3; job 2 is not admitted; the number of open jobs is 1. Machine 1 has
the copy (job 0, replica 1, thief 2) reserved and waits on 0; machine 2 runs (job 1, replica 2). The pool of 0 has job 1 with
replica 2, that of 2 has job 0 with replica 1. In flight are FISH from 2 to 1, AUTH (job 0, replica 1, thief 2) from 0 to 1,
RESULT (job 1, replica 2, a price) from 2 to 0.
"""
from vector_files import ROOT, fail_unless

CRATE = ROOT / "crates" / "test_validity"
LABEL = 40  # bytes of a label
CHANGES = 8  # changes of a case at most

# The fields, numbered from 1.
FIELDS = """machines entries in_flight periods zero_yield coupon yield state replica moving holder thief price alive
reserved_job reserved_replica reserved_thief running_job running_replica waits told pool
kind from to job copy for bits payments open_jobs""".split()

# The rates of a bond's terms; the last three are the number next below -0.5, -0.5, the number next above it.
PLUS_0, MINUS_0, BELOW_0, ONE, ABOVE_ONE, HUNDRED, ABOVE_HUNDRED, NAN, BELOW_LEAST, LEAST, ABOVE_LEAST = range(11)

FISH, REQ, AUTH, DENIED, OBSOLETE, SCHEDULE, ACK, NOWORK, RESULT = range(1, 10)


def told(machine, of, value=1):
    return ("told", 16 * machine + of, value)


def pool(machine, job, replica):
    return ("pool", 64 * machine + job, replica)


def count(number):
    return ("open_jobs", 0, number)


def state(job, value, number, answer):
    """A case of a job's state, with the number of open jobs that the table has then."""
    return [(f"state {job} is {value}", [("state", job, value), count(number)], answer)]


def slot(i, **parts):
    """Changes of the message in slot i; "from" is a word of Python, so it is written sender here."""
    return [("from" if name == "sender" else name, i, value) for name, value in parts.items()]


def one(field, place, *answers):
    """A case for each value of one field: pairs of the value and the answer."""
    return [(f"{field} {place} is {value}", [(field, place, value)], answer) for value, answer in answers]


def numbers(label, changes, *answers):
    """A case for each number of open jobs beside the same changes: pairs of the number and the answer."""
    return [(f"{label}, number {number}", changes + [count(number)], answer) for number, answer in answers]


CASES = []

# The table itself: nothing in row 9 is true of it.
CASES += [("sound", [], 0)]

# "a count .. outside its range": "machine count, 2 to 16", "entry count n, 0 to 64", "up to 128 messages in flight"
CASES += one("machines", 0, (0, 9), (1, 9), (16, 0), (17, 9), (255, 9))
CASES += one("entries", 0, (65, 9), (255, 9))
CASES += one("in_flight", 0, (129, 9), (255, 9))
CASES += [("a fourth entry", [("entries", 0, 4), ("periods", 3, 1), ("payments", 3, 2)], 0)]
CASES += [("a fifth machine, dead", [("machines", 0, 5)], 0)]
CASES += [("a fifth machine, alive", [("machines", 0, 5), ("alive", 4, 1)], 0)]

# "term outside its range": periods 1 to 240, coupon 0 to 100, ends included; a NaN is outside, -0 is inside
# "A yield now lies from -0.5 to 1, ends included" (document 02, 2.1)
CASES += one("periods", 0, (0, 9), (1, 0), (240, 0), (241, 9))
CASES += one("yield", 0, (PLUS_0, 0), (MINUS_0, 0), (BELOW_0, 0), (ONE, 0), (ABOVE_ONE, 9), (NAN, 9))
CASES += one("yield", 0, (BELOW_LEAST, 9), (LEAST, 0), (ABOVE_LEAST, 0))
CASES += one("zero_yield", 1, (PLUS_0, 0), (MINUS_0, 0), (BELOW_0, 0), (ONE, 0), (ABOVE_ONE, 9), (NAN, 9))
CASES += one("zero_yield", 1, (BELOW_LEAST, 9), (LEAST, 0), (ABOVE_LEAST, 0))
CASES += one("coupon", 2, (PLUS_0, 0), (MINUS_0, 0), (BELOW_0, 9), (HUNDRED, 0), (ABOVE_HUNDRED, 9), (NAN, 9), (LEAST, 9))
# "1, 2, 4 or 12 [..]; an entry's terms in a table hold one of these four" (document 02, 2.3): 0, which a book may have, is none of them
CASES += one("payments", 0, (0, 9), (1, 0), (2, 0), (3, 9), (4, 0), (5, 9), (11, 9), (12, 0), (13, 9), (24, 9), (255, 9))
CASES += one("payments", 1, (0, 9), (1, 0), (2, 0), (3, 9), (4, 0), (6, 9), (12, 0), (16, 9), (128, 9))
CASES += one("payments", 2, (0, 9), (12, 0))
CASES += [("a fourth entry without payments", [("entries", 0, 4), ("periods", 3, 1)], 9)]
CASES += [("the lowest yield, paid yearly", [("yield", 0, LEAST), ("payments", 0, 1)], 0)]
CASES += [("below the lowest yield, paid yearly", [("yield", 0, BELOW_LEAST), ("payments", 0, 1)], 9)]
# "an unused part not 0": entry numbers from n on have no terms
CASES += one("payments", 3, (0, 0), (1, 9), (2, 9), (12, 9)) + one("payments", 63, (0, 0), (2, 9), (4, 9))
CASES += one("periods", 3, (1, 9)) + one("periods", 63, (240, 9))
CASES += one("zero_yield", 3, (PLUS_0, 0), (MINUS_0, 9), (BELOW_0, 9), (ONE, 9), (NAN, 9), (LEAST, 9)) + one("coupon", 63, (PLUS_0, 9))
CASES += [("an entry less", [("entries", 0, 2)], 9)]

# "not admitted, open or priced"; "a job not admitted has replica 0 and place 0, a job not priced has price bits 0"
CASES += state(0, 0, 0, 9) + state(0, 2, 0, 0) + state(0, 3, 0, 9)
CASES += state(1, 0, 1, 9) + state(1, 1, 2, 9) + state(2, 1, 2, 9) + state(2, 2, 1, 9)
CASES += one("replica", 2, (1, 9)) + one("moving", 2, (1, 9)) + one("holder", 2, (1, 9)) + one("thief", 2, (1, 9))
CASES += one("price", 2, (1, 9)) + one("price", 0, (1, 9)) + one("price", 1, (0, 0), (1, 0))
OPEN_2, PRICED_2 = [("state", 2, 1), ("replica", 2, 1)], [("state", 2, 2), ("replica", 2, 1)]
CASES += [("job 2 open, on 0", OPEN_2 + [count(2)], 0)]
CASES += [("job 2 priced, on 0", PRICED_2, 0)]
# "an unused part not 0": jobs of entry numbers from n on, counted or not
OPEN_3 = [("state", 3, 1), ("replica", 3, 1)]
CASES += [("job 3 open, on 0", OPEN_3 + [count(2)], 9), ("job 3 open, not counted", OPEN_3, 9)] + one("price", 63, (1, 9))
# "its place (on p, or moving from v to t)": a machine number is below the count; a dead machine is not named by row 9
CASES += one("moving", 0, (0, 9), (2, 9)) + one("holder", 0, (3, 0), (4, 9)) + one("thief", 0, (1, 0), (3, 0), (4, 9))
CASES += one("holder", 1, (0, 0), (4, 9)) + one("thief", 1, (1, 9))
CASES += [("job 0 on 1", [("moving", 0, 0), ("thief", 0, 0)], 0)]

# "The table keeps the number of open jobs." "An event on a table whose kept number differs from the recount is refused 9."
# (document 02, 2.4)
CASES += one("open_jobs", 0, (0, 9), (1, 0), (2, 9), (3, 9), (64, 9), (65, 9), (255, 9))
CASES += numbers("job 2 open", OPEN_2, (0, 9), (1, 9), (2, 0), (3, 9)) + numbers("job 2 priced", PRICED_2, (0, 9), (1, 0), (2, 9))
PRICED_0, OPEN_1 = [("state", 0, 2)], [("state", 1, 1), ("price", 1, 0)]
CASES += numbers("job 0 priced", PRICED_0, (0, 0), (1, 9), (2, 9)) + numbers("jobs 0 and 1 open", OPEN_1, (1, 9), (2, 0), (3, 9))
CASES += numbers("job 0 priced, job 2 open", PRICED_0 + OPEN_2, (0, 9), (1, 0), (2, 9))
CASES += numbers("all three open", OPEN_1 + OPEN_2, (0, 9), (1, 9), (2, 9), (3, 0), (4, 9))
CASES += numbers("all three priced", PRICED_0 + PRICED_2, (0, 0), (1, 9), (3, 9))
NOT_ADMITTED_0 = [(field, 0, 0) for field in ("state", "replica", "moving", "holder", "thief")]
CASES += numbers("job 0 not admitted", NOT_ADMITTED_0, (0, 0), (1, 9))
FOURTH = [("entries", 0, 4), ("periods", 3, 1), ("payments", 3, 2)]
CASES += numbers("a fourth entry, open", FOURTH + OPEN_3, (1, 9), (2, 0), (3, 9))

# "alive or dead"; "a root not alive"; machines from the count on are unused parts
CASES += one("alive", 1, (2, 9)) + one("alive", 4, (1, 9)) + one("alive", 15, (1, 9)) + one("alive", 0, (0, 9))
CASES += [("root dead, nothing for it", [("alive", 0, 0), pool(0, 1, 0), ("in_flight", 0, 2)]
           + slot(2, kind=0, sender=0, job=0, copy=0, bits=0), 9)]
# "a dead machine has an empty pool and no reserved copy, running copy or wait"
for field in ("reserved_job", "reserved_replica", "reserved_thief", "running_job", "running_replica", "waits"):
    CASES += one(field, 3, (1, 9)) + one(field, 4, (1, 9))
CASES += [("reserved copy of a dead machine", [("reserved_replica", 3, 1), ("reserved_thief", 3, 2)], 9)]
CASES += [("pool of a dead machine", [pool(3, 0, 1)], 9)]
CASES += [("pool of no machine", [pool(4, 0, 1)], 9), ("last pool cell", [pool(15, 63, 1)], 9)]
# "at most one reserved copy (job, replica, thief)"; a replica number "is at least 1"; what is not there is 0
CASES += one("reserved_job", 1, (2, 0), (3, 9)) + one("reserved_thief", 1, (0, 0), (3, 0), (4, 9))
CASES += one("reserved_replica", 1, (0, 9), (2, 0), (3, 9))
CASES += one("reserved_job", 2, (1, 9)) + one("reserved_thief", 2, (1, 9)) + one("reserved_replica", 2, (1, 0))
# "at most one running copy"
CASES += one("running_job", 2, (2, 0), (3, 9)) + one("running_replica", 2, (0, 9), (1, 0), (3, 9))
CASES += one("running_job", 1, (1, 9)) + one("running_replica", 1, (1, 0))
# "the victim it waits on, if any": its number and 1 more; row 9 does not ask who it is
CASES += one("waits", 1, (0, 0), (2, 0), (4, 0), (5, 9))

# "which dead machines it has been told of"; "a living machine told of as dead"; "a dead machine keeps what it was told"
CASES += [("the root told twice", [told(0, 3, 2)], 9)]
CASES += [("machine 1 told of 3", [told(1, 3)], 0), ("machine 3 told of itself", [told(3, 3)], 0)]
CASES += [("the root told of 1", [told(0, 1)], 9), ("machine 3 told of 0", [told(3, 0)], 9)]
CASES += [("the root told of no machine", [told(0, 4)], 9), ("no machine told of 3", [told(4, 3)], 9)]
CASES += [("the last told flag", [told(15, 15)], 9)]
CASES += [("told of a fifth, dead", [("machines", 0, 5), told(0, 4)], 0)]
CASES += [("told of a fifth, alive", [("machines", 0, 5), ("alive", 4, 1), told(0, 4)], 9)]

# "a pool (per job a replica number, 0 for none)"; entry numbers from n on are unused parts
CASES += [("job 2 in the root's pool", [pool(0, 2, 1)], 0), ("job 3 in the root's pool", [pool(0, 3, 1)], 9)]
CASES += [("replica 1 in the root's pool", [pool(0, 1, 1)], 0), ("replica 3 in the root's pool", [pool(0, 1, 3)], 9)]

# message kinds, and the parts that a kind has no use for; machine and job numbers in their ranges
CASES += one("kind", 0, (0, 9), (NOWORK, 0), (10, 9))
CASES += one("from", 0, (1, 0), (3, 0), (4, 9)) + one("to", 0, (0, 0), (2, 0), (4, 9))
CASES += one("job", 0, (1, 9)) + one("copy", 0, (1, 9)) + one("for", 0, (1, 9)) + one("bits", 0, (1, 9))
CASES += one("kind", 1, (DENIED, 0), (OBSOLETE, 0), (FISH, 9), (NOWORK, 9)) + one("from", 1, (2, 0), (4, 9))
CASES += one("job", 1, (2, 0), (3, 9)) + one("copy", 1, (0, 9), (2, 0), (3, 9)) + one("for", 1, (0, 0), (3, 0), (4, 9))
CASES += one("bits", 1, (1, 9))
CASES += [("SCHEDULE", slot(1, kind=SCHEDULE, **{"for": 0}), 0), ("SCHEDULE with a thief", slot(1, kind=SCHEDULE), 9)]
CASES += one("job", 2, (0, 0), (3, 9)) + one("copy", 2, (0, 9), (1, 0), (3, 9)) + one("for", 2, (1, 9)) + one("bits", 2, (0, 0))
# "a message to a dead machine"
CASES += one("to", 0, (3, 9)) + one("to", 1, (3, 9))
# "a REQ, ACK or RESULT not to the root"
CASES += [("REQ to 1", slot(1, kind=REQ), 9), ("REQ to the root", slot(1, kind=REQ, to=0), 0)]
CASES += [("ACK to 1", slot(1, kind=ACK, **{"for": 0}), 9), ("ACK to the root", slot(1, kind=ACK, to=0, **{"for": 0}), 0)]
CASES += one("to", 2, (1, 9))
# "messages fill the slots from the first and unused slots are all 0"
for field in ("kind", "from", "to", "job", "copy", "for", "bits"):
    CASES += one(field, 3, (1, 9))
CASES += one("bits", 127, (1, 9)) + one("in_flight", 0, (2, 9), (4, 9))
CASES += [("a fourth message", [("in_flight", 0, 4)] + slot(3, kind=NOWORK, sender=1, to=2), 0)]

# "a replica number in it above 1 + the deaths the root was told of": of jobs, pools, copies and messages; here 2
CASES += one("replica", 0, (0, 9), (2, 0), (3, 9)) + one("replica", 1, (1, 0), (3, 9))
CASES += [("told to 1 and not to the root", [told(1, 3), ("replica", 0, 3)], 9)]
CASES += [("two deaths told to the root", [("machines", 0, 5), told(0, 4), ("replica", 0, 3)], 0)]
CASES += [("replica 4 after two deaths", [("machines", 0, 5), told(0, 4), ("replica", 0, 4)], 9)]
LOWER = [told(0, 3, 0), ("replica", 1, 1), pool(0, 1, 1), ("running_replica", 2, 1), ("copy", 2, 1)]
CASES += [("no death told, replica 1", LOWER, 0)]
CASES += [(f"no death told, {what} 2", [change for change in LOWER if change[0] != name], 9)
          for what, name in (("job", "replica"), ("pool", "pool"), ("running", "running_replica"), ("message", "copy"))]
CASES += [("no death told, reserved 2", LOWER + [("reserved_replica", 1, 2)], 9)]


def packed(change):
    field, place, value = change
    return bytes([FIELDS.index(field) + 1]) + place.to_bytes(2, "little") + bytes([value])


def main():
    fail_unless(len({label for label, _, _ in CASES}) == len(CASES), "a label stands twice")
    data, lines = b"", []
    for label, changes, answer in CASES:
        fail_unless(len(label) < LABEL and len(changes) <= CHANGES, label)
        text = label.ljust(LABEL)
        data += text.encode() + b"".join(map(packed, changes)).ljust(4 * CHANGES, b"\0")
        lines.append(f"{text}{answer}")
    (CRATE / "data").mkdir(exist_ok=True)
    (CRATE / "data" / "cases.bin").write_bytes(data)
    (CRATE / "stdout").write_text("\n".join(lines) + "\n")
    print(f"{len(CASES)} cases")


main()
