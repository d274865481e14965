#!/usr/bin/env python3
"""Holds the program limits to the independent calculation on 400 sheets made at random, wrong lines among them.

  tests/compare_limits.py crates/limits/out/limits

Not part of the gate: it needs the built program. It prints how many lines were the same, or the first that was not.
"""
import random
import subprocess
import sys

from limit_sheet import KINDS, REGISTERS, SETTINGS, sheet

choose = random.Random(7)
PIECES = ["card", "limit", " ", "  ", "10", "0C", "7F", "1a", "LM506", "VD", "99", "0", "OT_", "-", "-0", "12.", "1.2345678", "1234567890123", "#", "\n", "\r", "\t", "\0", "\xff", "x"]


def card():
    address = choose.choice(["08", "10", "12", "77", "0C", "07", "78", "FF"])
    resistor = choose.choice(["100", "1000", "500", "10000", "99", "10001", "000000333"])
    return "card %s %s %s %s" % (address, choose.choice(KINDS), choose.choice(list(SETTINGS)), resistor)


def limit():
    whole = choose.randrange(choose.choice([10, 100, 300, 5000, 10 ** 12]))
    decimals = choose.choice(["", ".%d" % choose.randrange(1000), ".%06d" % choose.randrange(10 ** 6)])
    return "limit %s %s%d%s" % (choose.choice(list(REGISTERS)), choose.choice(["", "-"]), whole, decimals)


def with_a_slip(line):
    at = choose.randrange(len(line) + 1)
    return line[:at] + choose.choice(["", choose.choice(PIECES)]) + line[at + choose.randrange(2):]


def line():
    made = choose.choice([card, limit, limit, lambda: choose.choice(["", "#", "# a note", "".join(choose.choice(PIECES) for _ in range(5))])])()
    return made if choose.random() < 0.8 else with_a_slip(made)


def main():
    lines = 0
    for _ in range(400):
        data = ("\n".join(line() for _ in range(choose.randrange(1, 60))) + choose.choice(["", "\n"])).encode("latin-1")
        ran = subprocess.run([sys.argv[1]], input=data, capture_output=True)
        expected = sheet(data)
        if ran.stdout != expected or ran.returncode != 0:
            got = next((pair for pair in zip(ran.stdout.split(b"\n"), expected.split(b"\n")) if pair[0] != pair[1]), None)
            sys.exit("status %d, first difference %r" % (ran.returncode, got))
        lines += expected.count(b"\n")
    print("the same: %d lines of 400 sheets" % lines)


if __name__ == "__main__":
    main()
