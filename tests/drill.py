#!/usr/bin/env python3
"""What the program drill must print, calculated on its own.

  tests/drill.py     prints the lines of the drill

Stations, joins and segments are modelled here anew from their rules, with sets of numbers for sets of conditions and a long
division for packet error codes; nothing is taken from the program. Ends with status 1 where the two nestings would differ.
"""
import sys

# x^8 + x^2 + x + 1
DIVISOR = 0b1_0000_0111

BUFFER_BYTES = 16

# The byte that begins a read of the alert response address 0Ch.
ALERT_READ_BYTE = 2 * 0x0C + 1

REASONS = {
    ("segment", 1): "no station at that address",
    ("segment", 2): "nothing is written",
    ("segment", 3): "the reply buffer is too short",
    ("segment", 5): "an alert read wants one byte or two",
    ("segment", 10): "nobody pulls",
    ("station", 4): "unknown command",
    ("station", 5): "wrong counts",
    ("station", 6): "wrong packet error code",
}

LAYERS = {"segment": 2, "station": 3}


def packet_error_code(message):
    """The remainder of the message times x^8 divided by DIVISOR."""
    dividend = int.from_bytes(bytes(message), "big") << 8
    while dividend.bit_length() >= DIVISOR.bit_length():
        dividend ^= DIVISOR << (dividend.bit_length() - DIVISOR.bit_length())
    return dividend


class Refused(Exception):
    """A call is refused: by whom, by which number, and which conditions that raises."""

    def __init__(self, layer, number, raised=()):
        super().__init__(layer, number)
        self.layer, self.number, self.raised = layer, number, set(raised)


def little_endian(words):
    """The bytes of words, the low byte of each first."""
    return [byte for word in words for byte in (word % 256, word // 256)]


class Station:
    """A station for practice."""

    def __init__(self, address, first, mask):
        self.address = address
        self.latched, self.answered = set(first), set()
        self.mask = mask
        self.frame = [0] * 12
        self.box, self.armed = [0] * 12, True
        self.end_of_call()

    def covered(self, condition):
        """Whether the mask covers a condition: never one above 15."""
        return condition < 16 and self.mask >> condition & 1 == 1

    def pulls(self):
        return any(not self.covered(condition) for condition in self.latched - self.answered)

    def end_of_call(self):
        """The box rule: armed and pulling, the box takes the current frame, and is armed no more."""
        if self.armed and self.pulls():
            self.box, self.armed = list(self.frame), False

    def sample(self, words, pins):
        raised = {condition for condition in range(16) if pins >> condition & 1}
        self.latched |= raised
        self.frame = little_endian(words + [pins])
        self.end_of_call()
        return raised

    def transfer(self, written, wanted):
        try:
            return self.serve(written[0], written[1:], wanted)
        except Refused as refusal:
            self.latched |= refusal.raised
            raise
        finally:
            self.end_of_call()

    def serve(self, command, after, wanted):
        if command not in (0x03, 0xD8, 0xE0):
            raise Refused("station", 4, {1})
        bodies = {0xD8: little_endian([self.mask]), 0xE0: [12] + self.box}
        written_sizes = {0x03: 0, 0xD8: 2}
        if command in bodies and not after and wanted in (len(bodies[command]), len(bodies[command]) + 1):
            return self.reply(command, bodies[command], wanted)
        if command in written_sizes and wanted == 0 and len(after) - written_sizes[command] in (0, 1):
            self.check_code(command, after, written_sizes[command])
            self.obey(command, after)
            return []
        raise Refused("station", 5, {1})

    def reply(self, command, body, wanted):
        code = packet_error_code([2 * self.address, command, 2 * self.address + 1] + body)
        return (body + [code])[:wanted]

    def check_code(self, command, after, size):
        if len(after) > size and after[size] != packet_error_code([2 * self.address, command] + after[:size]):
            raise Refused("station", 6, {1})

    def obey(self, command, after):
        if command == 0x03:
            self.latched, self.answered, self.armed = set(), set(), True
        else:
            self.mask = after[0] + 256 * after[1]

    def answer_alert(self):
        self.answered = set(self.latched)
        self.end_of_call()


class Single:
    """A station on a line of its own."""

    join_answer = None

    def __init__(self, station):
        self.station = station

    def stations(self):
        return [self.station]

    def find(self, address):
        if self.station.address != address:
            raise Refused("segment", 1)
        return self.station

    def lowest_pulling(self):
        return self.station.address if self.station.pulls() else None


class Join:
    """Two segments on one line; where an address stands on both, the left one alone."""

    def __init__(self, left, right):
        shared = {s.address for s in left.stations()} & {s.address for s in right.stations()}
        self.join_answer = 12 if shared else 0
        self.sides = [left] if shared else [left, right]

    def stations(self):
        return [station for side in self.sides for station in side.stations()]

    def find(self, address):
        """The station that a call reaches: the left side first, and the right side where the left one has none."""
        for side in self.sides[:-1]:
            try:
                return side.find(address)
            except Refused:
                pass
        return self.sides[-1].find(address)

    def lowest_pulling(self):
        pulling = [side.lowest_pulling() for side in self.sides]
        return min((address for address in pulling if address is not None), default=None)


def transfer(segment, address, written, wanted):
    station = segment.find(address)
    if not written:
        raise Refused("segment", 2)
    if wanted > BUFFER_BYTES:
        raise Refused("segment", 3)
    return station.transfer(written, wanted)


def alert_read(segment, wanted):
    if wanted not in (1, 2):
        raise Refused("segment", 5)
    if wanted > BUFFER_BYTES:
        raise Refused("segment", 3)
    winner = segment.lowest_pulling()
    if winner is None:
        raise Refused("segment", 10)
    segment.find(winner).answer_alert()
    return winner, [2 * winner, packet_error_code([ALERT_READ_BYTE, 2 * winner])][:wanted]


# ---- what is asked


def words_of(high):
    """Five words whose high byte tells the sample, and whose low byte tells the place."""
    return [256 * high + place for place in range(1, 6)]


AUXILIARY_HIGH = (words_of(0x0A), 0x1000)
QUIET = (words_of(0x0B), 0x0000)
WARNING_4 = (words_of(0x0C), 0x0010)
WARNINGS_4_AND_5 = (words_of(0x0D), 0x0030)

CALLS = [
    # who is there
    ("ask", "join"),
    ("ask", 0x12),
    ("ask", 0x16),
    ("ask", "line"),
    ("ask", "entries"),
    # no mask covers condition 16
    ("transfer", 0x10, "D8 FF FF", 0),
    ("transfer", 0x10, "D8 00 00", 0),
    # a masked condition, and the mask taken away
    ("sample", 0x14, AUXILIARY_HIGH),
    ("sample", 0x14, QUIET),
    ("transfer", 0x14, "D8", 2),
    ("transfer", 0x14, "D8", 3),
    ("transfer", 0x14, "E0", 13),
    ("transfer", 0x14, "D8 00 00", 0),
    ("transfer", 0x14, "E0", 14),
    # alert reads
    ("sample", 0x12, WARNING_4),
    ("alert read", 3),
    ("alert read", 2),
    ("alert read", 1),
    # the same condition again, and one behind it
    ("sample", 0x12, WARNING_4),
    ("sample", 0x12, WARNINGS_4_AND_5),
    ("alert read", 2),
    ("alert read", 2),
    ("alert read", 2),
    ("ask", "line"),
    # a clear
    ("transfer", 0x12, "E0", 13),
    ("transfer", 0x12, "03", 0),
    ("transfer", 0x12, "E0", 13),
    ("sample", 0x12, WARNINGS_4_AND_5),
    ("transfer", 0x12, "E0", 13),
    # refused by the station
    ("transfer", 0x10, "03 00", 0),
    ("transfer", 0x10, "03 %02X" % packet_error_code([0x20, 0x03]), 0),
    ("transfer", 0x10, "99", 2),
    ("transfer", 0x10, "D8 02 00", 0),
    ("transfer", 0x10, "D8 00", 0),
    ("transfer", 0x10, "D8 00 00 00", 0),
    ("transfer", 0x10, "D8", 3),
    ("transfer", 0x10, "D8 00 00 %02X" % packet_error_code([0x20, 0xD8, 0x00, 0x00]), 0),
    ("transfer", 0x10, "E0", 14),
    # refused by the segment
    ("sample", 0x16, WARNING_4),
    ("transfer", 0x16, "03", 0),
    ("transfer", 0x16, "", 17),
    ("transfer", 0x12, "", 17),
    ("transfer", 0x12, "", 2),
    ("transfer", 0x12, "E0", 17),
    ("transfer", 0x12, "E0", 16),
    ("transfer", 0x12, "99", 17),
    ("alert read", 17),
    ("alert read", 0),
    # the rest is answered
    ("alert read", 2),
    ("alert read", 2),
    ("alert read", 2),
    ("ask", 0x14),
    ("ask", "join"),
    ("ask", "line"),
    ("ask", "entries"),
]

CLASH_CALLS = [
    ("ask", "join"),
    ("ask", 0x10),
    ("ask", "entries"),
    ("sample", 0x10, WARNING_4),
    ("transfer", 0x10, "D8", 3),
    ("alert read", 2),
    ("alert read", 2),
    ("ask", "line"),
    ("ask", "entries"),
]


# ---- the lines


def hexadecimal(numbers, digits=2):
    return "".join(" %0*X" % (digits, number) for number in numbers)


def in_print(conditions):
    return "%05X" % sum(1 << condition for condition in conditions)


def level(segment):
    return "high" if segment.lowest_pulling() is None else "low"


def shown(segment):
    pulling = "".join(" %02Xh" % station.address for station in segment.stations() if station.pulls())
    return " | pulling%s | line %s" % (pulling or " none", level(segment))


def entry_lines(segment):
    for s in segment.stations():
        yield "    %02Xh: latched %s, answered %s, mask %04X, frame%s, black box%s, %s" % (
            s.address, in_print(s.latched), in_print(s.answered), s.mask, hexadecimal(s.frame), hexadecimal(s.box),
            "armed" if s.armed else "not armed")


def sampled(segment, address, sample):
    words, pins = sample
    yield "sample %02Xh: words%s, pins %04X" % (address, hexadecimal(words, 4), pins)
    yield "accepted, raised " + in_print(segment.find(address).sample(words, pins))


def transferred(segment, address, text, wanted):
    yield "transfer %02Xh: write %s, want %d" % (address, text or "nothing", wanted)
    reply = transfer(segment, address, list(bytes.fromhex(text)), wanted)
    yield "accepted, %d bytes%s, raised %s" % (wanted, hexadecimal(reply), in_print(()))


def alert_was_read(segment, wanted):
    yield "alert read, want %d" % wanted
    address, reply = alert_read(segment, wanted)
    yield "%02Xh answers:%s" % (address, hexadecimal(reply))


def asked(segment, question):
    joins = {
        None: "not a join",
        0: "0, both sides are joined",
        12: "12, an address stands on both sides: the left side alone",
    }
    questions = {
        "join": ("what the join answers", joins[segment.join_answer]),
        "line": ("the line", level(segment)),
        "entries": ("the entries", "entries: %d" % len(segment.stations())),
    }
    if question in questions:
        what, answer = questions[question]
    else:
        what = "is %02Xh on the segment" % question
        answer = "yes" if question in [station.address for station in segment.stations()] else "no"
    yield "ask: " + what
    yield answer


KINDS = {"sample": sampled, "transfer": transferred, "alert read": alert_was_read, "ask": asked}


def turn_lines(segment, call):
    """The line of a call, and after a question for the entries a line for each."""
    steps = KINDS[call[0]](segment, *call[1:])
    what = next(steps)
    try:
        answer = next(steps)
    except Refused as refusal:
        answer = "refused %d by layer %d, the %s: %s, raised %s" % (
            refusal.number, LAYERS[refusal.layer], refusal.layer, REASONS[refusal.layer, refusal.number],
            in_print(refusal.raised))
    yield "%s -> %s%s" % (what, answer, shown(segment))
    if call == ("ask", "entries"):
        yield from entry_lines(segment)


def lines(segment, calls):
    yield "as built" + shown(segment)
    for call in calls:
        yield from turn_lines(segment, call)


def three():
    """The three stations as built, each on a line of its own."""
    return Single(Station(0x10, {16}, 0)), Single(Station(0x12, (), 0)), Single(Station(0x14, (), 0x1000))


def main():
    a, b, c = three()
    one = list(lines(Join(Join(a, b), c), CALLS))
    a, b, c = three()
    other = list(lines(Join(a, Join(b, c)), CALLS))
    clash = Join(Single(Station(0x10, {16}, 0)), Single(Station(0x10, {16}, 0xFFFF)))
    print("\n".join(["nesting ((10h 12h) 14h)"] + one + ["nesting (10h (12h 14h))"] + other))
    print("\n".join(["clash (10h 10h)"] + list(lines(clash, CLASH_CALLS))))
    if one != other:
        sys.exit("the two nestings differ")


if __name__ == "__main__":
    main()
