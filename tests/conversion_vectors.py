#!/usr/bin/env python3
"""The test vectors of the DIRECT conversions.

  tests/conversion_vectors.py stdin     the requests, a line each
  tests/conversion_vectors.py stdout    what the program conversion_vectors must print of them

The expected answers do not come from the program: they are exact fractions, rounded to the nearest whole number with halves up.
"""
import sys
from fractions import Fraction
from math import floor

# m, b, R of each kind for a sense resistor of 1 mΩ.
TABLE = {
    "LM25066": {
        "VIN": (22070, -1800, -2), "VOUT": (22070, -1800, -2), "VAUX": (3546, -3, 0),
        ("IIN", "VDD"): (6854, -3100, -2), ("IIN", "GND"): (13661, -5200, -2),
        ("PIN", "VDD"): (369, -1900, -2), ("PIN", "GND"): (736, -3300, -2), "TEMPERATURE": (16000, 0, -3),
    },
    "LM5064": {
        "VIN": (4611, -642, -2), "VOUT": (4621, 423, -2), "VAUX": (13808, 0, -1),
        ("IIN", "VDD"): (10742, 1552, -2), ("IIN", "GND"): (5456, 2118, -2),
        ("PIN", "VDD"): (1204, 8524, -3), ("PIN", "GND"): (612, 11202, -3), "TEMPERATURE": (16000, 0, -3),
    },
    "LM5056": {
        "VIN": (4612, -566, -2), "VOUT": (4607, 179, -2), "VAUX": (13801, 11, -1),
        ("IIN", "VDD"): (14985, 4271, -2), ("IIN", "GND"): (7471, 1949, -2),
        ("PIN", "VDD"): (1684, 22344, -3), ("PIN", "GND"): (839, 9822, -3), "TEMPERATURE": (16000, 0, -3),
    },
}
KINDS = list(TABLE)
QUANTITIES = ["VIN", "VOUT", "VAUX", "IIN", "PIN", "TEMPERATURE"]
SETTINGS = ["VDD", "GND"]


def over_resistor(quantity):
    return quantity in ("IIN", "PIN")


def coefficients(kind, quantity, setting):
    """m for the resistor in Ω, b, and 10^R as exact fractions: word = (m X + b) 10^R with X in V, A, W or °C."""
    m, b, r = TABLE[kind][(quantity, setting) if over_resistor(quantity) else quantity]
    return m, b, Fraction(10) ** r


def nearest(x):
    return floor(x + Fraction(1, 2))


def unit(quantity):
    return 1000 if quantity == "PIN" else 1000000


def slope(kind, quantity, setting, resistor):
    """m scaled to the sense resistor: proportional to it where the quantity is measured over it."""
    m = coefficients(kind, quantity, setting)[0]
    return m * Fraction(resistor, 1000) if over_resistor(quantity) else Fraction(m)


def exact_value(kind, quantity, setting, resistor, number):
    _, b, scale = coefficients(kind, quantity, setting)
    return (number / scale - b) / slope(kind, quantity, setting, resistor) * unit(quantity)


def exact_number(kind, quantity, setting, resistor, value):
    _, b, scale = coefficients(kind, quantity, setting)
    return (slope(kind, quantity, setting, resistor) * Fraction(value, unit(quantity)) + b) * scale


def in_range(quantity, number):
    return (-4096 if quantity == "TEMPERATURE" else 0) <= number <= 4095


def resistor_refused(quantity, resistor):
    return over_resistor(quantity) and not 100 <= resistor <= 10000


def value_answer(kind, quantity, setting, resistor, word):
    number = word - 0x10000 if word >= 0x8000 else word
    if not in_range(quantity, number):
        return "refused 8"
    if resistor_refused(quantity, resistor):
        return "refused 14"
    return str(nearest(exact_value(kind, quantity, setting, resistor, number)))


def word_answer(kind, quantity, setting, resistor, value):
    if resistor_refused(quantity, resistor):
        return "refused 14"
    if abs(value) > 4000000000:
        return "refused 15"
    number = nearest(exact_number(kind, quantity, setting, resistor, value))
    return "%04X" % (number % 0x10000) if in_range(quantity, number) else "refused 15"


def rows():
    """Each kind, quantity and CL setting, with a resistor."""
    for kind in KINDS:
        for quantity in QUANTITIES:
            for setting in SETTINGS:
                yield kind, quantity, setting, 1000


def half(x):
    return x.denominator == 2


def value_halves(kind, quantity, setting, numbers, wanted):
    """Words whose exact value lies halfway between two whole numbers, with the resistor."""
    found = 0
    for resistor in range(100, 10001):
        for number in numbers:
            # as integers, since there are many: twice the value is an odd whole number
            m, b, r = TABLE[kind][(quantity, setting)]
            twice, left = divmod(2 * (number * 10 ** -r - b) * unit(quantity) * 1000, m * resistor)
            if left == 0 and twice % 2 == 1:
                assert half(exact_value(kind, quantity, setting, resistor, number))
                found += 1
                yield resistor, number
                if found == wanted:
                    return


def word_halves(kind, quantity, setting, resistor, numbers):
    """Values whose exact word number is n + 1/2, where there is a whole one."""
    for n in numbers:
        _, b, scale = coefficients(kind, quantity, setting)
        x = ((Fraction(2 * n + 1, 2) / scale) - b) / slope(kind, quantity, setting, resistor) * unit(quantity)
        if x.denominator == 1:
            yield int(x)


def requests():
    for row in rows():
        quantity = row[1]
        ends = [0xF000, 0xEFFF, 0xFFFF, 0x0FFF, 0x1000] if quantity == "TEMPERATURE" else [0x0FFF, 0x1000, 0xFFFF]
        for word in [0x0000, 0x0001, 0x0890] + ends:
            yield ("value",) + row + (word,)
        low, high = (-4096, 4095) if quantity == "TEMPERATURE" else (0, 4095)
        for number, step in [(low, -1), (low, 1), (high, -1), (high, 1)]:
            # the values just inside and just outside the half step beyond the range's ends
            edge = exact_value(*row, number + Fraction(step, 2))
            yield ("word",) + row + (floor(edge),)
            yield ("word",) + row + (floor(edge) + 1,)
        for number in [low, high, 2192]:
            yield ("word",) + row + (nearest(exact_value(*row, number)),)
    # halves: of values, above and below zero, and of words
    for kind, quantity, setting in [(k, q, c) for k in KINDS for q in ("IIN", "PIN") for c in SETTINGS]:
        b = TABLE[kind][(quantity, setting)][1]
        below_zero = range(0, max(0, b) // 10 ** -TABLE[kind][(quantity, setting)][2] + 1)
        for numbers in (below_zero, range(2048, 4096, 11)):
            for resistor, number in value_halves(kind, quantity, setting, numbers, 3):
                yield "value", kind, quantity, setting, resistor, number
    for kind in KINDS:
        for value in word_halves(kind, "TEMPERATURE", "VDD", 1000, [-4097, -4096, -3, -2, -1, 0, 1, 2, 4094, 4095]):
            yield "word", kind, "TEMPERATURE", "VDD", 1000, value
    # the resistor: its range's ends where it plays a part, and any number where it plays none
    for kind in KINDS:
        for quantity in ("IIN", "PIN"):
            for resistor in (0, 99, 100, 333, 5000, 10000, 10001, 4294967295):
                yield "value", kind, quantity, "VDD", resistor, 0x0400
                yield "word", kind, quantity, "GND", resistor, 12345
        for quantity in ("VIN", "TEMPERATURE"):
            for resistor in (0, 99, 4294967295):
                yield "value", kind, quantity, "GND", resistor, 0x0123
                yield "word", kind, quantity, "VDD", resistor, 1234567
    # which refusal comes first
    yield "value", "LM5056", "IIN", "VDD", 99, 0x1000
    yield "value", "LM5056", "IIN", "VDD", 99, 0x0FFF
    yield "word", "LM5056", "IIN", "VDD", 99, 4000000001
    # the ends of the values that can be asked for
    for value in (4000000000, 4000000001, -4000000000, -4000000001, 9223372036854775807, -9223372036854775808):
        yield "word", "LM25066", "PIN", "VDD", 1000, value
        yield "word", "LM25066", "TEMPERATURE", "VDD", 1000, value


def line(request):
    form, kind, quantity, setting, resistor, number = request
    return "%s %s %s %s %d %s" % (form, kind, quantity, setting, resistor, "%04X" % number if form == "value" else number)


def expected(request):
    return (value_answer if request[0] == "value" else word_answer)(*request[1:])


MALFORMED = ["value LM5056 VIN VDD 1000", "word LM5066 VIN VDD 1000 5", "word LM5056 VIN VEE 1000 5", "value LM5056 VIN VDD 1000 08G0", "", "words LM5056 VIN VDD 1000 5"]


def main():
    if sys.argv[1:] not in (["stdin"], ["stdout"]):
        sys.exit(__doc__)
    for request in requests():
        print(line(request) if sys.argv[1] == "stdin" else expected(request))
    for text in MALFORMED:
        print(text if sys.argv[1] == "stdin" else "not a request")


if __name__ == "__main__":
    main()
