#!/usr/bin/python3
"""Writes the terms and prices that the program test_vectors is run on, and what it must print.

To run, at the root of the repository: /usr/bin/python3 tools/make_price_vectors.py
It needs: apt-get install gcc (last run with 12.2 and Python 3.11 of Debian 12)

Whether a term is within the rules of document 01, "The book", with the yields of document 02, 2.1, and the payments per year
of 2.3, is decided here by struct and comparisons of floats. The price of a bond, by document 01, "The price", and document 02,
2.3, is computed twice: by price_vectors.c, a loop in the machine's binary64 arithmetic, and here in exact rational arithmetic
whose every operation is rounded once to the nearest binary64, ties to even. The script fails where the two differ in any bit.

The result depends on nothing else: the random choices have a fixed seed.
"""
import math
import pathlib
import random
import struct
import subprocess
import sys
import tempfile
from fractions import Fraction

from vector_files import fail_unless, write_file, write_stdout

ZERO, FIXED = 1, 2  # the two kinds
REFUSED = 7  # the number of a term outside the rules
# "The spare byte of a term becomes the payments per year: 1, 2, 4 or 12, and 0 reads as 2" (document 02, 2.3).
PAYMENTS = {0: 2, 1: 1, 2: 2, 4: 4, 12: 12}

# The examples of document 01: kind, periods, coupon, yield and the price, which must come out so.
EXAMPLES = [(FIXED, 2, 4.0, 0.0, 104.0), (ZERO, 2, 0.0, 0.5, 64.0), (FIXED, 1, 10.0, 0.5, 84.0)]
# The same for yields below 0, worked out by hand: no step of these is rounded.
BY_HAND = [(FIXED, 1, 10.0, -0.25, 120.0), (FIXED, 1, 100.0, -0.5, 200.0), (FIXED, 2, 62.5, -0.5, 275.0), (ZERO, 1, 0.0, -0.4375, 128.0)]
# The same with the payments per year after the yield. Where a period's coupon is 100 * (d - 1) the price stays 100.
BY_PAYMENTS = [(ZERO, 1, 0.0, -0.5, 1, 200.0), (ZERO, 240, 0.0, -0.5, 1, 100.0 * 2.0 ** 240), (FIXED, 2, 50.0, -0.5, 1, 700.0)]
BY_PAYMENTS += [(FIXED, 1, 5.0, 0.25, 1, 84.0), (FIXED, 240, 25.0, 0.25, 1, 100.0), (ZERO, 1, 0.0, 0.25, 1, 80.0), (ZERO, 2, 0.0, 0.25, 1, 64.0)]
BY_PAYMENTS += [(ZERO, 2, 0.0, 1.0, 4, 64.0), (FIXED, 1, 20.0, 1.0, 4, 84.0), (FIXED, 240, 100.0, 1.0, 4, 100.0), (FIXED, 1, 20.0, -0.5, 4, 120.0)]
BY_PAYMENTS += [(FIXED, 2, 12.0, 0.0, 12, 102.0), (FIXED, 240, 12.0, 0.0, 12, 340.0), (FIXED, 240, 75.0, 0.75, 12, 100.0)]
BY_PAYMENTS += [(FIXED, 1, 9.0, -0.375, 12, 104.0), (ZERO, 240, 0.0, -0.0, 12, 100.0)]
BY_PAYMENTS += [(*example[:4], 2, example[4]) for example in EXAMPLES + BY_HAND]


def above(x):
    return math.nextafter(x, math.inf)


def below(x):
    return math.nextafter(x, -math.inf)


TINY = above(0.0)
LEAST_NORMAL = 2.0 ** -1022
SUBNORMAL = [TINY, 2 * TINY, 3 * TINY, LEAST_NORMAL / 3, below(LEAST_NORMAL), LEAST_NORMAL]
# A yield of 2^-52 or 3 * 2^-52 puts 1 + yield / 2 halfway between two numbers; so does a coupon of 2^-46 or 3 * 2^-46 with 100 + coupon / 2.
YIELDS = [0.0, -0.0, *SUBNORMAL, below(2.0 ** -52), 2.0 ** -52, above(2.0 ** -52), 3 * 2.0 ** -52, above(3 * 2.0 ** -52)]
YIELDS += [1e-300, 1e-9, 0.0001, 0.0025, 0.01, 0.0175, 0.02, 0.03, 0.04, 0.0425, 0.05, 0.0575, 0.07, 0.1, 0.125, 0.25, 1 / 3, below(0.5)]
YIELDS += [0.5, above(0.5), 0.5 ** 0.5, math.pi / 4, math.e - 2, 2 / 3, 0.99, below(below(1.0)), below(1.0), 1.0]
COUPONS = [0.0, -0.0, *SUBNORMAL, below(2.0 ** -46), 2.0 ** -46, above(2.0 ** -46), 3 * 2.0 ** -46, above(3 * 2.0 ** -46)]
COUPONS += [1e-300, 1e-12, 0.125, 0.375, 1.0, 2.5, math.e, math.pi, 4.0, 4.25, 5.75, 7.875, 10.0, 100 / 3, 50.0, 62.5, 99.99]
COUPONS += [below(below(100.0)), below(100.0), 100.0]
ENDS_OF_YIELD = [0.0, -0.0, TINY, 0.05, below(1.0), 1.0]
ENDS_OF_COUPON = [0.0, -0.0, TINY, 4.25, below(100.0), 100.0]
PERIODS = [1, 2, 3, 239, 240]
# Below 1 the numbers lie closer: a yield of -2^-53, -3 * 2^-53 or -5 * 2^-53 puts 1 + yield / 2 halfway between two.
HALFWAY_BELOW = [x for k in (1, 3, 5) for x in (above(-k * 2.0 ** -53), -k * 2.0 ** -53, below(-k * 2.0 ** -53))]
YIELDS_BELOW_0 = [*(-x for x in SUBNORMAL), *HALFWAY_BELOW, -2.0 ** -52, -1e-300, -1e-9, -0.0001, -0.0015, -0.0075, -0.02, -0.05, -0.125]
YIELDS_BELOW_0 += [above(-0.25), -0.25, below(-0.25), -1 / 3, -0.4375, above(above(above(-0.5))), above(above(-0.5)), above(-0.5), -0.5]
ENDS_BELOW_0 = [-TINY, -0.25, above(-0.5), -0.5]
ENDS_BY_PAYMENTS = [0.0, -0.0, TINY, -TINY, below(LEAST_NORMAL), -LEAST_NORMAL, 0.05, -0.0015, 1 / 3, -1 / 3, 0.7, below(1.0), 1.0, above(-0.5), -0.5]


def bits(x):
    return struct.unpack("<Q", struct.pack("<d", x))[0]


def of_bits(n):
    return struct.unpack("<d", struct.pack("<Q", n))[0]


def term(kind, periods, coupon_bits, yield_bits, payments=0):
    """The 19 bytes of a term."""
    return struct.pack("<BBBQQ", kind, periods, payments, coupon_bits, yield_bits)


def bond(kind, periods, coupon, ytm, payments=0):
    return term(kind, periods, bits(coupon), bits(ytm), payments)


def within_the_rules(text):
    """A NaN fails each comparison, and negative zero equals 0. A zero-coupon term's coupon has all 64 bits clear.

    "A yield now lies from -0.5 to 1, ends included" (document 02, 2.1).
    """
    kind, periods, payments, coupon, ytm = struct.unpack("<BBBdd", text)
    if kind not in (ZERO, FIXED) or not 1 <= periods <= 240 or payments not in PAYMENTS:
        return False
    if not (0.0 <= coupon <= 100.0 and -0.5 <= ytm <= 1.0):
        return False
    return kind == FIXED or text[3:11] == bytes(8)


def rounded(x):
    """The binary64 nearest to a rational, ties to even: Python divides two integers so."""
    return x.numerator / x.denominator


def plus(a, b):
    return rounded(Fraction(a) + Fraction(b))


def over(a, b):
    return rounded(Fraction(a) / Fraction(b))


def rational_price(text):
    """The price of a term within the rules. A fraction has no negative zero; no price or divisor is a zero, and a zero added to one has no effect."""
    kind, periods, payments, coupon, ytm = struct.unpack("<BBBdd", text)
    a_year = PAYMENTS[payments]
    d = plus(1.0, over(ytm, a_year))
    p = 100.0
    for _ in range(periods):
        p = over(plus(p, over(coupon, a_year)), d) if kind == FIXED else over(p, d)
    return bits(p)


def c_prices(texts):
    """The prices of terms within the rules by price_vectors.c."""
    source = pathlib.Path(__file__).with_name("price_vectors.c")
    lines = ["%d %d %d %x %x\n" % struct.unpack("<BBBQQ", text) for text in texts]
    with tempfile.TemporaryDirectory() as folder:
        program = pathlib.Path(folder) / "prices"
        subprocess.run(["gcc", "-O2", "-ffp-contract=off", "-Wall", "-Werror", "-o", str(program), str(source)], check=True)
        out = subprocess.run([str(program)], input="".join(lines), capture_output=True, text=True, check=True).stdout
    return [int(line, 16) for line in out.split()]


def by_yield(rng, ytms, payments=0):
    """Each yield, with a zero and with coupons at random."""
    for ytm in ytms:
        yield from (bond(ZERO, n, 0.0, ytm, payments) for n in PERIODS)
        yield from (bond(FIXED, n, rng.choice(COUPONS), ytm, payments) for n in PERIODS)


def at_ends(ytms, payments=0):
    for coupon in ENDS_OF_COUPON:
        yield from (bond(FIXED, n, coupon, ytm, payments) for ytm in ytms for n in (1, 2, 240))


def bonds():
    """Terms within the rules of document 01, for their prices."""
    rng = random.Random(240)
    yield from (bond(*example[:4]) for example in EXAMPLES)
    yield from by_yield(rng, YIELDS)
    for coupon in COUPONS:
        yield from (bond(FIXED, n, coupon, rng.choice(YIELDS)) for n in PERIODS)
    yield from at_ends(ENDS_OF_YIELD)
    for n in range(1, 241):
        yield bond(ZERO, n, 0.0, rng.choice([0.0375, 1 / 3, rng.random()]))
        yield bond(FIXED, n, rng.choice([5.125, 100 / 7, 100 * rng.random()]), rng.choice([0.0375, 1 / 3, rng.random()]))
    for _ in range(200):  # market rates: coupons in eighths, yields in hundredths of a percent
        yield bond(FIXED, rng.randint(1, 60), rng.randint(0, 120) / 8, rng.randint(1, 1500) / 10000)
    for _ in range(50):
        yield bond(ZERO, rng.randint(1, 60), 0.0, rng.randint(1, 1500) / 10000)


def bonds_below_0():
    """Terms with the yields that document 02, 2.1, adds."""
    rng = random.Random(21)
    yield from (bond(*example[:4]) for example in BY_HAND)
    yield from by_yield(rng, YIELDS_BELOW_0)
    yield from at_ends(ENDS_BELOW_0)
    for n in range(1, 241, 3):
        yield bond(ZERO, n, 0.0, rng.choice([-0.0375, -1 / 3, -rng.random() / 2]))
        yield bond(FIXED, n + 1, rng.choice([5.125, 100 / 7, 100 * rng.random()]), rng.choice([-0.0375, -1 / 3, -rng.random() / 2]))
    for _ in range(30):  # market rates of short bonds
        yield bond(FIXED, rng.randint(1, 10), rng.randint(0, 60) / 8, -rng.randint(1, 150) / 10000)
        yield bond(ZERO, rng.randint(1, 10), 0.0, -rng.randint(1, 150) / 10000)


def around(x):
    return [below(x), x, above(x)]


def halfway_yields(a_year):
    """Those that put 1 + yield / a_year halfway between two numbers, above 1 and below it, and their neighbours."""
    return [x for m in (1, 3) for x in around(m * a_year * 2.0 ** -53)] + [x for m in (1, 3, 5) for x in around(-m * a_year * 2.0 ** -54)]


def halfway_coupons(a_year):
    """The same of 100 + coupon / a_year."""
    return [x for m in (1, 3) for x in around(m * a_year * 2.0 ** -47)]


def market(rng, payments, count):
    """Market rates, up to 30 years of payments as far as there are so many."""
    most = min(240, 30 * PAYMENTS[payments])
    for _ in range(count):
        yield bond(FIXED, rng.randint(1, most), rng.randint(0, 120) / 8, rng.randint(-150, 1500) / 10000, payments)
    for _ in range(count // 2):
        yield bond(ZERO, rng.randint(1, most), 0.0, rng.randint(-150, 1500) / 10000, payments)


def discounted(periods, payment, d):
    p = 100.0
    for _ in range(periods):
        p = (p + payment) / d
    return p


def where_a_payment_tells(rng):
    """A bond whose price is another one if its coupon is multiplied by 1 / 12 and not divided by 12."""
    while True:
        n, coupon, ytm = rng.randint(1, 240), 100 * rng.random(), rng.uniform(-0.5, 1.0)
        d = 1 + ytm / 12
        if discounted(n, coupon / 12, d) != discounted(n, coupon * (1 / 12), d):
            return bond(FIXED, n, coupon, ytm, 12)


def bonds_by_payments():
    """Terms with the payments per year of document 02, 2.3."""
    rng = random.Random(23)
    yield from (bond(*example[:5]) for example in BY_PAYMENTS)
    for payments in (1, 4, 12):
        yield from by_yield(rng, halfway_yields(payments) + ENDS_BY_PAYMENTS, payments)
        for coupon in halfway_coupons(payments):
            yield from (bond(FIXED, n, coupon, rng.choice([0.0, 0.0425, -0.5]), payments) for n in PERIODS)
        yield from at_ends([-0.5, above(-0.5), 0.0, 1.0], payments)
    for payments in PAYMENTS:
        yield from market(rng, payments, 30)
    for n in range(1, 241, 3):
        ytms = [0.0375, 1 / 3, -1 / 3, rng.random(), -rng.random() / 2]
        yield bond(ZERO, n, 0.0, rng.choice(ytms), rng.choice([1, 4, 12]))
        yield bond(FIXED, n + 1, rng.choice([5.125, 100 / 7, 100 * rng.random()]), rng.choice(ytms), rng.choice([1, 4, 12]))
    for n in range(1, 241, 12):  # 0 reads as 2
        coupon, ytm = 100 * rng.random(), rng.uniform(-0.5, 1.0)
        yield from (bond(FIXED, n, coupon, ytm, payments) for payments in (0, 2))
    for _ in range(40):
        yield where_a_payment_tells(rng)


# Bit patterns of rates: inside and one step outside the ends, other signs and sizes, infinities, NaNs quiet and signalling.
RATES = [bits(x) for end in (0.0, 0.05, 1.0, 100.0) for x in (below(end), end, above(end))]
RATES += [bits(-x) for x in (0.0, TINY, LEAST_NORMAL, 0.05, 1.0, 100.0, sys.float_info.max, math.inf)]
RATES += [bits(x) for x in (LEAST_NORMAL, 0.5, 2.0, 50.0, 101.0, 1e300, sys.float_info.max, math.inf)]
RATES += [sign + n for sign in (0, 2 ** 63) for n in (0x7FF0000000000001, 0x7FF4000000000000, 0x7FF7FFFFFFFFFFFF)]
RATES += [sign + n for sign in (0, 2 ** 63) for n in (0x7FF8000000000000, 0x7FF8000000000001, 0x7FFFFFFFFFFFFFFF)]
# The same around the end of document 02, 2.1, and between it and 0.
RATES_BELOW_0 = [bits(x) for x in (below(-0.5), -0.5, above(-0.5), -0.25, -0.75, -2.0, below(-LEAST_NORMAL), *(-x for x in SUBNORMAL))]


def terms():
    """Terms within the rules and outside them."""
    rng = random.Random(7)
    plain = [(ZERO, bits(0.0)), (FIXED, bits(4.25))]
    ytm = bits(0.05)
    for kind in (0, 1, 2, 3, 4, 127, 128, 254, 255):
        yield from (term(kind, 20, coupon, ytm) for _, coupon in plain)
    for kind, coupon in plain:
        yield from (term(kind, n, coupon, ytm) for n in (0, 1, 2, 127, 128, 239, 240, 241, 242, 255))
        yield from (term(kind, 20, coupon, ytm, payments) for payments in (1, 2, 127, 128, 255))
        yield from (term(kind, 20, coupon, rate) for rate in RATES)
        yield from (term(kind, 20, rate, ytm) for rate in RATES)
        yield from (term(kind, 20, coupon, 2 ** k) for k in range(64))
        yield from (term(kind, 20, 2 ** k, ytm) for k in range(64))
    for _ in range(100):  # a rate with its bytes in the other order
        backward = int.from_bytes(struct.pack("<d", rng.random()), "big")
        yield term(FIXED, 20, backward, ytm) if rng.random() < 0.5 else term(FIXED, 20, bits(4.25), backward)
    for _ in range(200):  # any parts together, with several faults or none
        kind, periods, payments = rng.choice([0, 1, 2, 2, 2, 3]), rng.choice([0, 1, 120, 240, 241]), rng.choice([0, 0, 0, 1])
        yield term(kind, periods, rng.choice([0, *RATES]), rng.choice(RATES), payments)


def terms_below_0():
    """Terms whose yield or coupon is below 0, and yields that differ from 0 or an end in one bit."""
    rng = random.Random(27)
    ytm = bits(0.05)
    for kind, coupon in ((ZERO, bits(0.0)), (FIXED, bits(4.25))):
        yield from (term(kind, 20, coupon, rate) for rate in RATES_BELOW_0)
        yield from (term(kind, 20, rate, ytm) for rate in RATES_BELOW_0)
        for end in (-0.0, -0.5, 1.0):
            yield from (term(kind, 20, coupon, bits(end) ^ 2 ** k) for k in range(64))
    for _ in range(100):  # any parts together, with several faults or none
        kind, periods, payments = rng.choice([0, 1, 2, 2, 2, 3]), rng.choice([0, 1, 120, 240, 241]), rng.choice([0, 0, 0, 1])
        yield term(kind, periods, rng.choice([0, 0, bits(4.25), *RATES]), rng.choice(RATES_BELOW_0), payments)


def terms_by_payments():
    """Terms with every third byte; each of those allowed beside the ends of the other parts; others with more faults or none."""
    rng = random.Random(29)
    ytm, plain = bits(0.05), [(ZERO, bits(0.0)), (FIXED, bits(4.25))]
    for kind, coupon in plain:
        yield from (term(kind, 20, coupon, ytm, payments) for payments in range(256))
    for payments in (1, 2, 4, 12):
        for kind, coupon in plain:
            yield from (term(kind, n, coupon, ytm, payments) for n in (0, 1, 240, 241))
            yield from (term(kind, 20, coupon, bits(x), payments) for x in (below(-0.5), -0.5, 1.0, above(1.0)))
            yield term(kind + 2, 20, coupon, ytm, payments)
        yield from (term(FIXED, 20, bits(x), ytm, payments) for x in (-TINY, 100.0, above(100.0)))
        yield term(ZERO, 20, bits(-0.0), ytm, payments)
    for _ in range(180):
        kind, periods = rng.choice([0, 1, 2, 2, 2, 3]), rng.choice([0, 1, 120, 240, 241])
        payments = rng.choice([0, 1, 2, 4, 12, 3, 5, 6, 11, 13, 24, 52, 255])
        yield term(kind, periods, rng.choice([0, 0, bits(4.25), *RATES]), rng.choice([ytm, ytm, *RATES, *RATES_BELOW_0]), payments)


def priced(texts):
    """The price bits of each term within the rules, on which both computations agree."""
    inside = [text for text in texts if within_the_rules(text)]
    prices = {}
    for text, by_c in zip(inside, c_prices(inside), strict=True):
        by_python = rational_price(text)
        fail_unless(by_c == by_python, f"{text.hex()}: C has {by_c:016x}, rational arithmetic {by_python:016x}")
        prices[text] = by_c
    return prices


def record(text, prices):
    """The class (the term's kind, or 7), the term's 19 bytes, 4 bytes 0, the price bits (0 for a refused term): 32 bytes."""
    return bytes([text[0] if text in prices else REFUSED]) + text + struct.pack("<4xQ", prices.get(text, 0))


def main():
    files = {
        "terms.bin": [*terms(), *terms_below_0(), *terms_by_payments()],
        "prices.bin": [*bonds(), *bonds_below_0()],
        "prices_by_payments.bin": [*bonds_by_payments()],
    }
    prices = priced([text for texts in files.values() for text in texts])
    fail_unless(all(text in prices for name, texts in files.items() if name != "terms.bin" for text in texts), "a bond is refused")
    for *example, price in [*EXAMPLES, *BY_HAND, *BY_PAYMENTS]:
        fail_unless(of_bits(prices[bond(*example)]) == price, f"{example}: another price")
    for name, texts in files.items():
        unique = list(dict.fromkeys(texts))
        fail_unless(len(unique) >= 500, f"too few in {name}")
        write_file(name, [record(text, prices) for text in unique])
    write_stdout()


if __name__ == "__main__":
    main()
