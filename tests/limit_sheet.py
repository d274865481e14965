#!/usr/bin/env python3
"""What the program limits must print of a sheet on standard input.

  tests/limit_sheet.py <crates/limits/stdin

It does not run the program: words and values are exact fractions rounded to the nearest with halves up, packet error codes
are remainders of a long division, and a line's forms are matched here by regular expressions of their beginnings.
"""
import re
import sys
from fractions import Fraction
from math import floor

from conversion_vectors import exact_number, exact_value, in_range, nearest, resistor_refused, unit
from pec_vectors import code

REGISTERS = {
    "VOUT_UV": (0x43, "VOUT", "V"), "VIN_OV": (0x57, "VIN", "V"), "VIN_UV": (0x58, "VIN", "V"), "IIN_OC": (0xD3, "IIN", "A"),
    "PIN_OP": (0xD4, "PIN", "W"), "OT_WARN": (0x51, "TEMPERATURE", "°C"), "OT_FAULT": (0x4F, "TEMPERATURE", "°C"),
}
KINDS = ["LM25066", "LM5064", "LM5056"]
SETTINGS = {"VDD": "VDD", "GND": "GND", "VEE": "GND"}
WORDS = {
    11: "the address is not one of 08h to 77h without 0Ch",
    14: "the sense resistor is not 100 to 10000 uOhm",
    15: "the value or its word is out of range",
}
BLANK = ([" "], "a blank")
HEX = (list("0123456789ABCDEF"), "an upper-case hexadecimal digit")


def words(ws, expected):
    return ws, expected


CARD = [BLANK, HEX, HEX, BLANK, words(KINDS, "LM25066, LM5064 or LM5056"), BLANK, words(list(SETTINGS), "VDD, GND or VEE"), BLANK]
LIMIT = [BLANK, words(list(REGISTERS), "VOUT_UV, VIN_OV, VIN_UV, IIN_OC, PIN_OP, OT_WARN or OT_FAULT"), BLANK]


class Misfit(Exception):
    pass


def word_at(text, at, choices, expected):
    """The one of some words that stands at a place; else the place of the first character that begins none of them."""
    for word in choices:
        if text.startswith(word, at):
            return word
    place = at
    while any(word.startswith(text[at:place + 1]) for word in choices) and place < len(text):
        place += 1
    raise Misfit(place, expected)


def number_at(text, at, most, none, more, full):
    """A run of 1 to `most` digits to the end, with what is expected where there is none, after fewer, and after all."""
    count = len(re.match("[0-9]{0,%d}" % most, text[at:]).group())
    if count == 0:
        raise Misfit(at, none)
    return at + count, (more if count < most else full)


def value_at(text, at, decimals):
    negative = text[at:at + 1] == "-"
    first = at + negative
    end, expected = number_at(text, first, 12, "a digit" if negative else "a digit or -", "a digit, a point or the end of the line", "a point or the end of the line")
    if end < len(text):
        if text[end] != ".":
            raise Misfit(end, expected)
        end, expected = number_at(text, end + 1, decimals, "a digit", "a digit or the end of the line", "the end of the line")
        if end < len(text):
            raise Misfit(end, expected)
    return int(Fraction(text[at:]) * 10 ** decimals)


def read(text):
    """The form of a line and its parts."""
    if text == "" or text[0] == "#":
        return "note", []
    keyword = word_at(text, 0, ["card", "limit"], "a card line, a limit line, # or an empty line")
    at, parts = len(keyword), []
    for choices, expected in CARD if keyword == "card" else LIMIT:
        parts.append(word_at(text, at, choices, expected))
        at += len(parts[-1])
    if keyword == "card":
        end, expected = number_at(text, at, 9, "a digit", "a digit or the end of the line", "the end of the line")
        if end < len(text):
            raise Misfit(end, expected)
        return "card", [int(parts[1] + parts[2], 16), parts[4], SETTINGS[parts[6]], int(text[at:])]
    register = parts[1]
    return "limit", [register, value_at(text, at, decimals(register))]


def decimals(register):
    return 3 if register == "PIN_OP" else 6


def fixed(value, places):
    return "%s%d.%0*d" % ("-" if value < 0 else "", abs(value) // 10 ** places, places, abs(value) % 10 ** places)


def limit(card, register, asked):
    """The rest of a limit's line, and whether it is set."""
    address, kind, setting, resistor = card
    register_code, quantity, symbol = REGISTERS[register]
    places = decimals(register)
    assert 10 ** places == unit(quantity)
    head = "limit %s %02Xh: asked %s %s, " % (register, register_code, fixed(asked, places), symbol)
    if resistor_refused(quantity, resistor):
        return head + "refused 14: " + WORDS[14], False
    number = nearest(exact_number(kind, quantity, setting, resistor, asked))
    if abs(asked) > 4000000000 or not in_range(quantity, number):
        return head + "refused 15: " + WORDS[15], False
    stands_for = nearest(exact_value(kind, quantity, setting, resistor, number))
    word = number % 0x10000
    packet = bytes([address * 2, register_code, word % 256, word // 256])
    packet += bytes([code(packet)])
    return head + "word %04Xh, stands for %s %s, send %s" % (word, fixed(stands_for, places), symbol, packet.hex(" ").upper()), True


def sheet(data):
    lines = data.split(b"\n")
    if lines[-1] == b"":
        lines.pop()
    card, set_count, refused, misfits, out = None, 0, 0, 0, []
    for number, raw in enumerate(lines, 1):
        text = raw.decode("latin-1")
        try:
            form, parts = read(text)
            if form == "limit" and card is None:
                raise Misfit(0, "a card line before this limit")
        except Misfit as misfit:
            misfits += 1
            out.append("line %d, byte %d: expected %s" % (number, misfit.args[0] + 1, misfit.args[1]))
            continue
        if form == "note":
            out.append(raw)
        elif form == "card":
            address = parts[0]
            lawful = 0x08 <= address <= 0x77 and address != 0x0C
            card = parts if lawful else None
            out.append("card %02X %s %s %d" % tuple(parts) if lawful else "card refused 11: " + WORDS[11])
        else:
            answer, is_set = limit(card, *parts)
            set_count += is_set
            refused += not is_set
            out.append(answer)
    out.append("limits set %d, refused %d, lines not understood %d" % (set_count, refused, misfits))
    return b"".join((line if isinstance(line, bytes) else line.encode()) + b"\n" for line in out)


if __name__ == "__main__":
    sys.stdout.buffer.write(sheet(sys.stdin.buffer.read(60000)))
