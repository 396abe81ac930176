#!/usr/bin/python3
"""Writes the identifiers that the program test_vectors is run on, and what it must print.

To run, at the root of the repository: /usr/bin/python3 tools/make_isin_vectors.py
It needs: apt-get install python3-stdnum libalgorithm-checkdigits-perl (last run with 1.18 and 1.3.6 of Debian 12)

The verdict of an identifier, by document 01, "The identifier": 4 where the form is wrong, else 5 where the check digit is
wrong, else 0. Two programs of other authorship decide the check digit: python3-stdnum here, and Perl's
Algorithm::CheckDigits in isin_verdict.pl. The script fails where the two differ on any identifier.
Of python3-stdnum the function calc_check_digit is used and not validate, which consults a list of countries and takes
lower case and spaces; document 01 consults no country list. The form is decided by the expression FORM.

The result depends on nothing else: the random choices have a fixed seed.
"""
import pathlib
import random
import re
import subprocess

from stdnum import isin

from vector_files import MOST, SIZE, fail_unless, write_file, write_stdout

FORM = re.compile(rb"[A-Z]{2}[A-Z0-9]{9}[0-9]")
LONGEST = 14  # bytes of the longest text
DIGITS = b"0123456789"
LETTERS = b"ABCDEFGHIJKLMNOPQRSTUVWXYZ"

# Published identifiers: each must pass.
PUBLISHED = [
    b"US0378331005", b"US5949181045", b"US88160R1014", b"US0231351067", b"GB0002634946", b"GB00BYXJL758",
    b"DE0007164600", b"DE000BAY0017", b"FR0000120271", b"JP3633400001", b"CH0038863350", b"AU0000XVGZA3",
    b"IE00B4BNMY34", b"NL0010273215", b"KYG875721634",
]
# The examples of document 01 with their verdicts: each must come out so.
EXAMPLES = [
    (b"ZZ0000000016", 0), (b"ZZ0000000024", 0), (b"US0378331005", 0), (b"ZZ0000000017", 5), (b"ZZ000000016 ", 4),
]
COUNTRIES = [
    b"AE", b"AR", b"AT", b"AU", b"BE", b"BR", b"CA", b"CH", b"CL", b"CN", b"CO", b"CZ", b"DE", b"DK", b"EE", b"EG", b"ES",
    b"EU", b"FI", b"FR", b"GB", b"GR", b"HK", b"HU", b"ID", b"IE", b"IL", b"IN", b"IS", b"IT", b"JP", b"KR", b"KY", b"LT",
    b"LU", b"LV", b"MX", b"MY", b"NL", b"NO", b"NZ", b"PE", b"PH", b"PL", b"PT", b"RO", b"SA", b"SE", b"SG", b"SI", b"SK",
    b"TH", b"TR", b"TW", b"UA", b"US", b"VN", b"XS", b"ZA",
]
# Prefixes outside every list of countries, and the ends of the alphabet.
NO_COUNTRIES = [b"AA", b"AB", b"AZ", b"OO", b"QZ", b"QQ", b"XX", b"XZ", b"ZA", b"ZB", b"ZX", b"ZY", b"ZZ"]


def verdict(text):
    """0, 4 or 5 by FORM and python3-stdnum."""
    if not FORM.fullmatch(text):
        return 4
    return 0 if isin.calc_check_digit(text[:11].decode("ascii")) == chr(text[11]) else 5


def perl_verdicts(texts):
    """The same by Algorithm::CheckDigits."""
    lines = "".join(text.hex() + "\n" for text in texts)
    script = pathlib.Path(__file__).with_name("isin_verdict.pl")
    out = subprocess.run(["perl", str(script)], input=lines, capture_output=True, text=True, check=True).stdout
    return [int(line) for line in out.split()]


def whole(base):
    """The eleven characters of base with their check digit."""
    return base + isin.calc_check_digit(base.decode("ascii")).encode("ascii")


def one_of(rng, choices):
    return bytes([rng.choice(choices)])


def random_base(rng, country, letters):
    """Eleven characters: country, then nine, each a letter with the chance given."""
    return country + b"".join(one_of(rng, LETTERS if rng.random() < letters else DIGITS) for _ in range(9))


def replaced(text, at, new):
    return text[:at] + new + text[at + 1:]


def good_ones(rng):
    for country in COUNTRIES + NO_COUNTRIES:
        for letters in (0.0, 0.1, 0.3, 0.5, 0.8, 1.0):
            yield whole(random_base(rng, country, letters))
        for fill in (b"0", b"9", b"A", b"Z"):
            yield whole(country + fill * 9)


def each_character_in_each_place(base):
    """Every letter and digit at every place of base, with the check digit that it then has: all positions, both weights."""
    for at in range(11):
        for character in LETTERS if at < 2 else LETTERS + DIGITS:
            yield whole(replaced(base, at, bytes([character])))


def each_check_digit(base):
    for digit in DIGITS:
        yield base + bytes([digit])


def one_character_wrong(rng, text):
    """One character changed to another of the same class, at each place."""
    for at in range(12):
        same = LETTERS if text[at] in LETTERS else DIGITS
        yield replaced(text, at, one_of(rng, bytes(c for c in same if c != text[at])))


def neighbours_swapped(text):
    """Some of these still pass, as 0 and 9 swapped do."""
    for at in range(11):
        yield text[:at] + text[at + 1:at + 2] + text[at:at + 1] + text[at + 2:]


def cut_and_extended(text):
    """Every length from 0 to 14."""
    for length in range(13):
        yield text[:length]
        yield text[12 - length:]
    for tail in (b"0", b"A", b" ", b"\n", b"\0", b"00", b"\r\n", b"\0\0"):
        yield text + tail
    for head in (b"0", b"A", b" ", b"  ", b"\0"):
        yield head + text


def one_byte_outside(rng, text):
    """At each place, bytes next to and far from those that the form takes."""
    around = b"\0\t\n\r -./:;@[`az{}~\x7f\x80\xb0\xc1\xda\xff"
    for at in range(12):
        yield replaced(text, at, text[at:at + 1].lower())
        for byte in rng.sample(around, 7):
            yield replaced(text, at, bytes([byte]))


def wrong_class(rng, text):
    """Digits in the country's place, and letters in the check digit's place."""
    for at in (0, 1):
        for digit in b"019":
            yield replaced(text, at, bytes([digit]))
    for letter in b"AOZ":
        yield replaced(text, 11, bytes([letter]))
    yield replaced(text, 11, one_of(rng, LETTERS))
    yield DIGITS[1:3] + text[2:]
    yield text.lower()
    yield text[:2].lower() + text[2:]


def all_texts():
    rng = random.Random(6166)
    yield from (text for text, _ in EXAMPLES)
    yield from PUBLISHED
    good = list(good_ones(rng))
    yield from good
    yield from each_character_in_each_place(b"ZZ000000000")
    yield from each_character_in_each_place(b"US037833100")
    for text in rng.sample(good, 40):
        yield from each_check_digit(text[:11])
    for text in rng.sample(good, 40):
        yield from one_character_wrong(rng, text)
    for text in PUBLISHED + [whole(b"US090909090"), whole(b"ZZ9A0Z90909")] + rng.sample(good, 20):
        yield from neighbours_swapped(text)
    for text in rng.sample(good, 6):
        yield from cut_and_extended(text)
        yield from one_byte_outside(rng, text)
    for text in rng.sample(good, 20):
        yield from wrong_class(rng, text)
    for byte in (0, 32, 48, 57, 65, 90, 255):
        yield bytes([byte]) * 12


def record(text, expected):
    """The expected verdict, a length byte, and the text filled up with 0: 32 bytes."""
    return bytes([expected, len(text)]) + text.ljust(SIZE - 2, b"\0")


def main():
    texts = list(dict.fromkeys(all_texts()))
    verdicts = [verdict(text) for text in texts]
    for text, mine, perls in zip(texts, verdicts, perl_verdicts(texts), strict=True):
        fail_unless(mine == perls, f"{text!r}: python3-stdnum has {mine}, Algorithm::CheckDigits {perls}")
    by_text = dict(zip(texts, verdicts))
    for text, expected in EXAMPLES + [(text, 0) for text in PUBLISHED]:
        fail_unless(by_text[text] == expected, f"{text!r}: {by_text[text]}, and {expected} is known")
    fail_unless(len(texts) >= 2000 and max(len(text) for text in texts) == LONGEST, "too few, or another length")
    records = list(map(record, texts, verdicts))
    write_file("identifiers_1.bin", records[:MOST])
    write_file("identifiers_2.bin", records[MOST:])
    write_stdout()


if __name__ == "__main__":
    main()
