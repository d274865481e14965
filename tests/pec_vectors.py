#!/usr/bin/env python3
"""The test vectors of the packet error code.

  tests/pec_vectors.py stdin     the messages, a line of upper-case hexadecimal each
  tests/pec_vectors.py stdout    what the program pec_vectors must print of them

The expected codes do not come from the program: the first is the published check value, and the others are remainders of a
long division of polynomials over the field of two elements, the message as one integer.
"""
import sys

# x^8 + x^2 + x + 1
DIVISOR = 0b1_0000_0111

# The nine digits in ASCII, and the published check value of the CRC-8 with this divisor, start 0 and the high bit first.
PUBLISHED = (b"123456789", "F4")

# Lines that spell no bytes: an odd number of digits, a letter that is no digit, a lower-case digit, a space.
MALFORMED = ["123", "0G", "4d", "31 32"]


def code(message):
    """The remainder of the message times x^8 divided by DIVISOR."""
    dividend = int.from_bytes(message, "big") << 8
    while dividend.bit_length() >= DIVISOR.bit_length():
        dividend ^= DIVISOR << (dividend.bit_length() - DIVISOR.bit_length())
    return dividend


def messages():
    """200 messages of 0 to 40 bytes, each length at least four times."""
    for i in range(200):
        yield bytes((37 * i + 11 * j * j + 5 * i * j + 13) % 256 for j in range(7 * i % 41))


def vectors():
    """Each line of input with the line that is expected of it."""
    yield PUBLISHED[0].hex().upper(), PUBLISHED[1]
    for message in messages():
        yield message.hex().upper(), "%02X" % code(message)
    for line in MALFORMED:
        yield line, "not hexadecimal bytes"


def main():
    if sys.argv[1:] not in (["stdin"], ["stdout"]):
        sys.exit(__doc__)
    for line, expected in vectors():
        print(line if sys.argv[1] == "stdin" else expected)


if __name__ == "__main__":
    main()
