"""Checks of the model of the outlets. Run from the repository's root:

    python3 -m unittest discover -s model
"""

import struct
import unittest
from collections import Counter

import outlet_cases
from outlet import (MessageShape, Outlet, PrimaryShape, Refused, answer, check, given_warning,
                    new_outlets, octets_of, rack, shape_of, tape, without_octets)
from store import pattern
from tape import Message, NoWarning, Primary, encode, encode_entry, read

NAMES = ("rack", "tape")
LARGEST = 2 ** 64 - 1

# Which refusals each call can give, after the table of calls in
# docs/OUTLETS.md. `octets` is a call of the tape outlet only.
REFUSALS = {
    "give": {3, 6, 7, 12, 15},
    "take": {1, 16},
    "first": set(),
    "free": set(),
    "cost": {3, 6, 7, 15},
}

# How many values each refusal has, after the table in docs/REFUSALS.md.
VALUES = {1: 1, 3: 1, 6: 0, 7: 1, 12: 2, 15: 1, 16: 0}

CHANGES = ("give", "take")


def refusal_of(call, *given):
    try:
        call(*given)
    except (Refused, NoWarning) as refused:
        return refused.refusal
    return None


def refused(reply):
    return reply.startswith("refused")


# The second judges. They work on the fields of the lines and give whole
# answers.

def fault_of(kind, shape):
    """The answer to what is no warning, None for a warning."""
    if kind == "primary":
        return None if shape[0] in ("-", "50") else f"refused 15 {shape[0]}"
    block, length, area = shape
    count = int(length) + int(area.replace("-", "0"))
    faults = [(block not in ("8", "11", "12"), f"refused 3 {block}"),
              (block == "11" and area != "-", "refused 6"),
              (count >= 16385, f"refused 7 {count if count < 2 ** 64 else 2 ** 64 - 1}")]
    return next((text for stands, text in faults if stands), None)


def shape_fields(kind, fields):
    """The fields of a shape out of those of a give."""
    if kind == "primary":
        return fields[3:4]
    return [fields[0], *fields[4:6]]


def run_octets(seed, length):
    """Octets of a part: each run of 32 begins 225 after the run before it."""
    count = 0 if length == "-" else int(length)
    octets = bytes((seed + 225 * run + 7 * step) & 255
                   for run in range(count // 32 + 1) for step in range(32))
    return octets[:count]


def parts_of(kind, fields):
    """The octets of the two parts of a give. A primary has one part."""
    seed = int(fields[-1])
    if kind == "primary":
        return run_octets(seed, fields[3]), b""
    return run_octets(seed, fields[4]), run_octets(seed + 100, fields[5])


def weighted_sum(octets):
    """The sum of the answers, by places with the same weight."""
    return sum((rest + 1) * sum(octets[rest::251]) for rest in range(251))


class Judge:
    """What both judges have in common. A kind of judge has the methods free,
    units, keep, head and remove."""

    def answer(self, call, given):
        if call == "free":
            return f"ok {self.free()}"
        if call == "first":
            return f"ok {self.head()}"
        if call == "take":
            length = int(given[0])
            head = self.head()
            if length <= 16383:
                return f"refused 1 {length}"
            if head == "-":
                return "refused 16"
            octets = self.remove()
            return f"ok {head} {weighted_sum(octets + bytes([238]) * (length - len(octets)))}"
        if call == "octets":
            return f"ok {self.end} {weighted_sum(self.memory[:self.end])}"
        kind, *fields = given
        shape = fields if call == "cost" else shape_fields(kind, fields)
        fault = fault_of(kind, shape)
        if fault is not None:
            return fault
        if call == "cost":
            return f"ok {self.units(kind, shape)}"
        if self.units(kind, shape) > self.free():
            return f"refused 12 {self.units(kind, shape)} {self.free()}"
        self.keep(kind, fields)
        return "ok"


class RingRack(Judge):
    """Three places in a ring, with the octets in memory of fixed size."""

    def __init__(self):
        self.heads = ["-"] * 3           # the answer to first, for each place
        self.counts = [0] * 3
        self.memory = [bytearray(16384) for _ in range(3)]
        self.oldest = 0
        self.used = 0

    def free(self):
        return 3 - self.used

    def units(self, kind, shape):
        return 1

    def keep(self, kind, fields):
        place = (self.oldest + self.used) % 3
        self.used += 1
        self.heads[place] = " ".join([kind, *fields[:-1]])
        octets = b"".join(parts_of(kind, fields))
        self.counts[place] = len(octets)
        self.memory[place][:len(octets)] = octets

    def head(self):
        return self.heads[self.oldest] if self.used > 0 else "-"

    def remove(self):
        place = self.oldest
        self.oldest = (place + 1) % 3
        self.used -= 1
        return bytes(self.memory[place][:self.counts[place]])


class TapeMemory(Judge):
    """A memory of 32,768 octets that begins with a tape. Warnings are read out
    of it, and a take moves the rest of the tape to its front."""

    PRIMARY = struct.Struct(">BHHHB50s")
    MESSAGE = struct.Struct(">BBHHBHBH")
    DATA = struct.Struct(">BB32s")

    def __init__(self):
        self.memory = bytearray(32768)
        self.end = 0

    def free(self):
        return 32768 - self.end

    def units(self, kind, shape):
        if kind == "primary":
            return self.PRIMARY.size
        commands = sum(len(range(0, int(length), 32)) for length in shape[1:] if length != "-")
        return self.MESSAGE.size + commands * self.DATA.size

    def write(self, form, *operands):
        form.pack_into(self.memory, self.end, *operands)
        self.end += form.size

    def keep(self, kind, fields):
        parts = parts_of(kind, fields)
        if kind == "primary":
            present = int(fields[3] != "-")
            self.write(self.PRIMARY, 0x50, *map(int, fields[:3]), present, parts[0])
            return
        present = int(fields[5] != "-")
        self.write(self.MESSAGE, 0x4D, *map(int, fields[:5]), present, len(parts[1]))
        for part in parts:
            for place in range(0, len(part), 32):
                piece = part[place:place + 32]
                self.write(self.DATA, 0x44, len(piece), piece)

    def head(self):
        if self.end == 0:
            return "-"
        if self.memory[0] == 0x50:
            _, *numbers, present, _ = self.PRIMARY.unpack_from(self.memory)
            return " ".join(["primary", *map(str, numbers), "50" if present else "-"])
        _, *numbers, present, area = self.MESSAGE.unpack_from(self.memory)
        return " ".join(["message", *map(str, numbers), str(area) if present else "-"])

    def remove(self):
        octets = b""
        if self.memory[0] == 0x50:
            place = self.PRIMARY.size
            *_, present, security = self.PRIMARY.unpack_from(self.memory)
            if present:
                octets = security
        else:
            place = self.MESSAGE.size
            while place < self.end and self.memory[place] == 0x44:
                _, count, piece = self.DATA.unpack_from(self.memory, place)
                octets += piece[:count]
                place += self.DATA.size
        self.memory[:self.end - place] = self.memory[place:self.end]
        self.end -= place
        return octets


# Shapes at the edges

WARNINGS = [Primary(1, 2, 3), Primary(1, 2, 3, bytes(50)), Message(11, 1, 2, 3, b""),
            Message(12, 1, 2, 3, b"", b""), Message(8, 1, 2, 3, bytes(32), bytes(33)),
            Message(11, 1, 2, 3, bytes(16384)), Message(12, 1, 2, 3, bytes(16384), b""),
            Message(8, 1, 2, 3, b"", bytes(16384)), Message(12, 1, 2, 3, b"a", bytes(16383)),
            Message(8, 1, 2, 3, bytes(8192), bytes(8192))]

FAULTS = [(Primary(1, 2, 3, b""), (15, 0)), (Primary(1, 2, 3, bytes(49)), (15, 49)),
          (Primary(1, 2, 3, bytes(51)), (15, 51)), (Message(10, 1, 2, 3, b""), (3, 10)),
          (Message(0, 1, 2, 3, bytes(16385), b""), (3, 0)),
          (Message(255, 1, 2, 3, bytes(50), bytes(16384)), (3, 255)),
          (Message(11, 1, 2, 3, b"", b""), (6,)),
          (Message(11, 1, 2, 3, bytes(16384), b"a"), (6,)),
          (Message(11, 1, 2, 3, bytes(16385)), (7, 16385)),
          (Message(12, 1, 2, 3, bytes(16385), b""), (7, 16385)),
          (Message(8, 1, 2, 3, b"a", bytes(16384)), (7, 16385)),
          (Message(8, 1, 2, 3, bytes(16384), bytes(16384)), (7, 32768))]


class Documents(unittest.TestCase):
    def test_rack(self):
        outlet = rack()
        self.assertEqual((outlet.total, outlet.free()), (3, 3))
        for warning in WARNINGS[:3]:
            outlet.give(warning)
        for warning in WARNINGS:
            self.assertEqual(refusal_of(outlet.give, warning), (12, 1, 0))
        self.assertEqual({outlet.cost(shape_of(warning)) for warning in WARNINGS}, {1})

    def test_costs_of_tape(self):
        outlet = tape()
        self.assertEqual((outlet.total, outlet.free()), (32768, 32768))
        for security in (None, 50):
            self.assertEqual(outlet.cost(PrimaryShape(security)), 58)
        # The examples in docs/TAPE.md.
        for length, area, units in ((0, None, 12), (0, 0, 12), (5, None, 46), (32, None, 46),
                                    (33, None, 80), (16, 16, 80), (16384, None, 17420),
                                    (1, 16383, 17454)):
            self.assertEqual(outlet.cost(MessageShape(12, length, area)), units)

    def test_cost_is_written_octets(self):
        outlet = tape()
        lengths = (0, 1, 31, 32, 33, 64, 65, 5000)
        messages = [Message(8, 1, 2, 3, bytes(length), area) for length in lengths
                    for area in [None] + [bytes(count) for count in lengths]]
        for warning in WARNINGS + messages:
            self.assertEqual(outlet.cost(shape_of(warning)), len(encode_entry(warning)))

    def test_law_of_costs(self):
        """No cost exceeds the total. Costs grow with the lengths, so shapes of
        16,384 octets are enough."""
        for outlet in (rack(), tape()):
            costs = [outlet.cost(MessageShape(8, length, 16384 - length))
                     for length in range(16385)]
            costs += [outlet.cost(shape_of(warning)) for warning in WARNINGS]
            self.assertLessEqual(max(costs), outlet.total)
            if outlet.total > 3:
                self.assertEqual(max(costs), 17454)
                self.assertEqual(outlet.cost(MessageShape(11, 16384, None)), 17420)

    def test_empty_outlet_accepts(self):
        for warning in WARNINGS:
            for outlet in (rack(), tape()):
                self.assertIsNone(refusal_of(outlet.give, warning))
                self.assertEqual(outlet.warnings, [warning])

    def test_costs_stay(self):
        """What is held has no influence on costs, and the total stays."""
        shapes = [shape_of(warning) for warning in WARNINGS]
        for outlet in (rack(), tape()):
            costs = [outlet.cost(shape) for shape in shapes]
            for warning in WARNINGS[:3]:
                outlet.give(warning)
                self.assertEqual([outlet.cost(shape) for shape in shapes], costs)
            self.assertEqual(outlet.free(), outlet.total - sum(costs[:3]))
            outlet.take(bytearray(16384))
            self.assertEqual([outlet.cost(shape) for shape in shapes], costs)

    def test_shapes(self):
        """Pair, warning type, data coding and octets are no part of a shape.
        An absent area and an empty one are two shapes."""
        self.assertEqual(shape_of(Primary(1, 2, 3, bytes(50))),
                         shape_of(Primary(4, 5, 6, b"\1" * 50)))
        self.assertEqual(shape_of(Message(8, 1, 2, 3, b"ab", b"c")),
                         shape_of(Message(8, 4, 5, 6, b"de", b"f")))
        shapes = [shape_of(warning) for warning in (
            Primary(1, 2, 3), Primary(1, 2, 3, bytes(50)), Message(8, 1, 2, 3, b""),
            Message(8, 1, 2, 3, b"", b""), Message(12, 1, 2, 3, b""), Message(8, 1, 2, 3, b"a"),
            Message(8, 1, 2, 3, b"", b"a"))]
        self.assertEqual(len(set(shapes)), len(shapes))

    def test_no_warning(self):
        for value, refusal in FAULTS:
            self.assertEqual(refusal_of(check, shape_of(value)), refusal)
            self.assertEqual(refusal_of(encode_entry, value), refusal)
            for outlet in (rack(), tape()):
                self.assertEqual(refusal_of(outlet.give, value), refusal)
                self.assertEqual(refusal_of(outlet.cost, shape_of(value)), refusal)
                self.assertEqual(outlet.warnings, [])
        for warning in WARNINGS:
            self.assertIsNone(refusal_of(check, shape_of(warning)))
            self.assertIsNone(refusal_of(encode_entry, warning))

    def test_each_block_and_length(self):
        right = [block for block in range(256)
                 if refusal_of(check, MessageShape(block, 0, None)) is None]
        self.assertEqual(right, [8, 11, 12])
        right = [length for length in range(300)
                 if refusal_of(check, PrimaryShape(length)) is None]
        self.assertEqual(right, [50])

    def test_large_sums(self):
        for length, area, value in (
                (16385, None, 16385), (LARGEST, None, LARGEST), (LARGEST - 1, 1, LARGEST),
                (LARGEST - 1, 0, LARGEST - 1), (LARGEST, 1, LARGEST), (1, LARGEST, LARGEST),
                (2 ** 63, 2 ** 63, LARGEST), (LARGEST, LARGEST, LARGEST),
                (LARGEST - 16383, 16384, LARGEST)):
            for outlet in (rack(), tape()):
                self.assertEqual(refusal_of(outlet.cost, MessageShape(12, length, area)),
                                 (7, value))
        self.assertEqual(refusal_of(check, MessageShape(11, LARGEST, LARGEST)), (6,))
        self.assertEqual(refusal_of(check, MessageShape(9, LARGEST, LARGEST)), (3, 9))
        self.assertEqual(refusal_of(check, PrimaryShape(LARGEST)), (15, LARGEST))

    def test_no_warning_before_room(self):
        """A full outlet tells first that it was given no warning."""
        outlets = [rack(), tape(), Outlet(total=1, cost=lambda shape: 1)]
        for warning in (Message(12, 1, 2, 3, bytes(15375)), Message(12, 1, 2, 3, bytes(15328)),
                        Primary(1, 2, 3)):
            for outlet in outlets:
                refusal_of(outlet.give, warning)
        self.assertEqual([outlet.free() for outlet in outlets], [0, 32768 - 16366 - 16298 - 58, 0])
        for outlet in outlets:
            for value, refusal in FAULTS:
                self.assertEqual(refusal_of(outlet.give, value), refusal)
            self.assertEqual(refusal_of(outlet.give, Primary(1, 2, 3))[0], 12)

    def test_room(self):
        """12 stands if and only if the cost exceeds the units free."""
        outlet = tape()
        for _ in range(564):
            outlet.give(Primary(1, 2, 3))
        self.assertEqual(outlet.free(), 56)
        self.assertEqual(refusal_of(outlet.give, Primary(1, 2, 3)), (12, 58, 56))
        self.assertEqual(refusal_of(outlet.give, Message(8, 1, 2, 3, bytes(33))), (12, 80, 56))
        outlet.give(Message(8, 1, 2, 3, bytes(32)))
        self.assertEqual(refusal_of(outlet.give, Message(8, 1, 2, 3, b"")), (12, 12, 10))
        outlet.take(bytearray(16384))
        self.assertEqual(outlet.free(), 68)
        self.assertIsNone(refusal_of(outlet.give, Primary(1, 2, 3)))

    def test_order_of_take(self):
        for outlet in (rack(), tape()):
            for length in (0, 16383):
                self.assertEqual(refusal_of(outlet.take, bytearray(length)), (1, length))
            self.assertEqual(refusal_of(outlet.take, bytearray(16384)), (16,))
            outlet.give(Primary(1, 2, 3))
            self.assertEqual(refusal_of(outlet.take, bytearray(16383)), (1, 16383))
            self.assertIsNone(refusal_of(outlet.take, bytearray(16384)))
            self.assertEqual(refusal_of(outlet.take, bytearray(16384)), (16,))

    def test_take(self):
        security = bytes(range(50))
        given = [(Message(12, 1, 2, 3, b"ab", b"c"), ("message", 12, 1, 2, 3, 2, 1), b"abc"),
                 (Message(8, 4, 5, 6, b"de", b""), ("message", 8, 4, 5, 6, 2, 0), b"de"),
                 (Message(11, 7, 8, 9, b"f"), ("message", 11, 7, 8, 9, 1, None), b"f"),
                 (Primary(1, 2, 3, security), ("primary", 1, 2, 3, 50), security),
                 (Primary(4, 5, 6), ("primary", 4, 5, 6, None), b"")]
        for outlet in (rack(), tape()):
            self.assertIsNone(outlet.first())
            for turn in range(2):
                for warning, _, _ in given[3 * turn:][:3]:
                    outlet.give(warning)
                for _, parts, octets in given[3 * turn:][:3]:
                    short = bytearray(b"\xee" * 16383)
                    self.assertEqual(refusal_of(outlet.take, short), (1, 16383))
                    self.assertEqual(short, b"\xee" * 16383)
                    self.assertEqual(outlet.first(), parts)
                    buffer = bytearray(b"\xee" * 16390)
                    self.assertEqual(outlet.take(buffer), parts)
                    self.assertEqual(buffer, octets.ljust(16390, b"\xee"))
            self.assertEqual(outlet.free(), outlet.total)

    def test_whole_buffer(self):
        warning = Message(12, 1, 2, 3, pattern(1, 1), pattern(2, 16383))
        for outlet in (rack(), tape()):
            outlet.give(warning)
            buffer = bytearray(16384)
            outlet.take(buffer)
            self.assertEqual(buffer, octets_of(warning))

    def test_lent_tape(self):
        """The list of warnings is what the octets read as."""
        outlet = tape()
        self.assertEqual(outlet.octets(), b"")
        for warning in WARNINGS[:5]:
            outlet.give(warning)
            octets = outlet.octets()
            self.assertEqual(len(octets), outlet.total - outlet.free())
            entries, verdict = read(octets)
            self.assertIsNone(verdict)
            self.assertEqual([each for _, each in entries], outlet.warnings)
        outlet.take(bytearray(16384))
        self.assertEqual(outlet.octets(), encode(WARNINGS[1:5]))


class Lines(unittest.TestCase):
    def test_given(self):
        self.assertEqual(given_warning("primary", "1", "2", "3", "-", "4"), Primary(1, 2, 3))
        self.assertEqual(given_warning("primary", "1", "2", "3", "2", "250"),
                         Primary(1, 2, 3, bytes([250, 1])))
        self.assertEqual(given_warning("message", "8", "1", "2", "3", "2", "1", "200"),
                         Message(8, 1, 2, 3, bytes([200, 207]), bytes([44])))
        self.assertEqual(given_warning("message", "8", "1", "2", "3", "0", "0", "200"),
                         Message(8, 1, 2, 3, b"", b""))

    def test_pattern_against_runs(self):
        for seed, count in ((0, 0), (255, 1), (7, 32), (100, 33), (355, 16384)):
            self.assertEqual(pattern(seed, count), run_octets(seed, str(count)))

    def test_answers(self):
        # The sum over a buffer with 238 in each octet.
        rest = 238 * sum(place % 251 + 1 for place in range(16384))
        # The octets on tape that are not 0, by place.
        on_tape = sum((place + 1) * octet for place, octet in {
            0: 0x4D, 1: 12, 3: 1, 5: 2, 6: 3, 8: 2, 9: 1, 11: 1, 12: 0x44, 13: 2, 14: 10, 15: 17,
            46: 0x44, 47: 1, 48: 110}.items())
        outlets = new_outlets()
        for line, expected in (
                ("rack first", "ok -"), ("tape octets", "ok 0 0"), ("rack free", "ok 3"),
                ("tape take 16384", "refused 16"), ("tape take 16383", "refused 1 16383"),
                ("tape give message 12 1 2 3 2 1 10", "ok"),
                ("tape first", "ok message 12 1 2 3 2 1"), ("tape free", "ok 32688"),
                ("tape octets", f"ok 80 {on_tape}"),
                ("tape give primary 1 2 3 49 0", "refused 15 49"),
                ("tape give primary 65535 0 3 - 0", "ok"), ("tape free", "ok 32630"),
                ("tape take 16384", "ok message 12 1 2 3 2 1 "
                 f"{rest + (10 - 238) + 2 * (17 - 238) + 3 * (110 - 238)}"),
                ("tape first", "ok primary 65535 0 3 -"),
                ("tape take 16384", f"ok primary 65535 0 3 - {rest}"),
                ("tape free", "ok 32768"), ("tape first", "ok -"),
                ("rack give message 11 1 2 3 0 0 0", "refused 6"),
                ("rack give message 13 1 2 3 0 0 0", "refused 3 13"),
                ("rack give message 8 1 2 3 16384 1 0", "refused 7 16385"),
                ("rack give primary 1 2 3 50 0", "ok"), ("rack give message 8 1 2 3 0 0 0", "ok"),
                ("rack first", "ok primary 1 2 3 50"),
                ("rack give message 8 1 2 3 0 - 0", "ok"),
                ("rack give message 8 1 2 3 0 - 0", "refused 12 1 0"), ("rack free", "ok 0"),
                ("rack cost primary -", "ok 1"), ("tape cost primary 50", "ok 58"),
                ("tape cost message 11 33 -", "ok 80"), ("tape cost message 11 33 0", "refused 6"),
                (f"tape cost message 8 {LARGEST} {LARGEST}", f"refused 7 {LARGEST}")):
            self.assertEqual(answer(outlets, line), expected)


def given_count(fields):
    """The octets of a give, by the fields after `give`."""
    kind, *fields = fields
    lengths = shape_fields(kind, fields)[-2:] if kind == "message" else fields[3:4]
    return sum(int(length) for length in lengths if length != "-")


class Cases(unittest.TestCase):
    @classmethod
    def setUpClass(cls):
        cls.calls, cls.answers = outlet_cases.all_cases()
        cls.split = [(call.split(" "), reply.split(" "))
                     for call, reply in zip(cls.calls, cls.answers)]

    def shapes(self, name, call, reply):
        """The shapes, as text, that have this answer to this call."""
        return {" ".join([fields[2], *(fields[3:] if call == "cost"
                                       else shape_fields(fields[2], fields[3:]))])
                for fields, answered in self.split
                if fields[:2] == [name, call] and " ".join(answered) == reply}

    def test_size(self):
        self.assertEqual(len(self.calls), len(self.answers))
        self.assertIn(len(self.calls), range(2000, 2500))

    def test_large_calls(self):
        """Few calls have more than 10,000 octets."""
        counts = []
        for call, reply in self.split:
            if call[1] == "give":
                counts.append(given_count(call[2:]))
            elif call[1] == "take":
                counts.append(int(call[2]))
            elif call[1] == "octets":
                counts.append(int(reply[1]))
        self.assertLessEqual(sum(count > 10000 for count in counts), 120)
        self.assertEqual(max(counts), 70000)

    def test_same_on_each_run(self):
        self.assertEqual(outlet_cases.all_cases(), (self.calls, self.answers))

    def test_fields(self):
        """Numbers within their ranges, and nothing else but `-`."""
        for call, _ in self.split:
            numbers = call[3:] if call[1] in ("give", "cost") else call[2:]
            for field in numbers:
                self.assertTrue(field == "-" or field == str(int(field)))
                self.assertTrue(field == "-" or 0 <= int(field) <= LARGEST)
            if call[1] == "give":
                for field in numbers[1:3]:
                    self.assertLess(int(field), 65536)
                self.assertLess(int(numbers[-1]), 256)
                if call[2] == "message":
                    self.assertLess(max(int(numbers[0]), int(numbers[3])), 256)

    def test_refusals(self):
        """Every refusal in every call that can give it, and no other."""
        seen = Counter((call[0], call[1], int(reply[1])) for call, reply in self.split
                       if reply[0] == "refused")
        self.assertEqual(set(seen), {(name, call, number) for name in NAMES
                                     for call, numbers in REFUSALS.items() for number in numbers})
        self.assertGreaterEqual(min(seen.values()), 3)
        self.assertEqual({number for _, _, number in seen}, {1, 3, 6, 7, 12, 15, 16})
        accepted = {(call[0], call[1]) for call, reply in self.split if reply[0] == "ok"}
        self.assertEqual(accepted, {(name, call) for name in NAMES for call in REFUSALS}
                         | {("tape", "octets")})

    def test_values_of_refusals(self):
        for call, reply in self.split:
            if reply[0] == "refused":
                self.assertEqual(len(reply) - 2, VALUES[int(reply[1])])

    def test_judges_agree(self):
        judges = {"rack": RingRack(), "tape": TapeMemory()}
        for call, reply in self.split:
            self.assertEqual(judges[call[0]].answer(call[1], call[2:]), " ".join(reply))

    def test_states(self):
        """What is refused or only asked changes nothing. A give adds at the
        end, a take removes the first. Costs held stay within the total."""
        outlets = new_outlets()
        for line, expected in zip(self.calls, self.answers):
            name, call, *given = line.split(" ")
            outlet = outlets[name]
            before = list(outlet.warnings)
            reply = answer(outlets, line)
            self.assertEqual(reply, expected)
            if refused(reply) or call not in CHANGES:
                self.assertEqual(outlet.warnings, before)
                continue
            if call == "give":
                self.assertEqual(outlet.warnings, before + [given_warning(*given)])
            else:
                self.assertEqual(outlet.warnings, before[1:])
                parts = " ".join("-" if part is None else str(part)
                                 for part in without_octets(before[0]))
                self.assertTrue(reply.startswith(f"ok {parts} "))
            self.assertGreaterEqual(outlet.free(), 0)
            if name == "tape":
                self.assertEqual(len(outlet.octets()), 32768 - outlet.free())

    def test_tape_reads(self):
        """At each question for a short tape, its octets read as the list. So
        does the full tape at the end."""
        outlets = new_outlets()
        outlet = outlets["tape"]
        last = len(self.calls) - 1
        for place, line in enumerate(self.calls):
            answer(outlets, line)
            if (line == "tape octets" and outlet.free() > 31000) or place == last:
                entries, verdict = read(outlet.octets())
                self.assertIsNone(verdict)
                self.assertEqual([warning for _, warning in entries], outlet.warnings)
        self.assertEqual(outlet.free(), 0)

    # What the calls must contain

    def test_edges_of_messages(self):
        for name in NAMES:
            accepted = self.shapes(name, "give", "ok")
            self.assertLessEqual({
                "message 11 0 -", "message 12 0 -", "message 12 0 0", "message 8 5 0",
                "message 8 32 -", "message 11 33 -", "message 12 0 32", "message 8 0 33",
                "message 12 32 33", "message 8 33 32", "message 11 16384 -", "message 8 16384 0",
                "message 12 0 16384", "message 12 1 16383", "message 12 16383 1",
                "message 8 8192 8192"}, accepted)
            for call in ("give", "cost"):
                self.assertLessEqual({
                    "message 12 16385 -", "message 8 0 16385", "message 12 16384 1",
                    "message 8 1 16384", "message 11 16385 -"},
                    self.shapes(name, call, "refused 7 16385"))
                self.assertLessEqual({"message 11 0 0", "message 11 0 1", "message 11 16384 1"},
                                     self.shapes(name, call, "refused 6"))
                for block in (0, 7, 10, 13, 255):
                    self.assertTrue(self.shapes(name, call, f"refused 3 {block}"))
                self.assertIn("message 10 16384 1", self.shapes(name, call, "refused 3 10"))
        asked = {call[4] for call, _ in self.split if call[1:3] == ["cost", "message"]}
        self.assertLessEqual({str(length) for length in range(68)}, asked)
        blocks = {int(call[3]) for call, _ in self.split if call[1:3] == ["cost", "message"]}
        self.assertEqual(blocks, set(range(256)))

    def test_edges_of_primaries(self):
        for name in NAMES:
            self.assertLessEqual({"primary -", "primary 50"}, self.shapes(name, "give", "ok"))
            for call in ("give", "cost"):
                for length in (0, 49, 51):
                    self.assertEqual(self.shapes(name, call, f"refused 15 {length}"),
                                     {f"primary {length}"})
            self.assertIn(f"primary {LARGEST}", self.shapes(name, "cost", f"refused 15 {LARGEST}"))

    def test_edges_of_sums(self):
        """Sums that are the largest number of 64 bits, and above it."""
        for name in NAMES:
            sums = {sum(int(length) for length in shape.split(" ")[2:] if length != "-")
                    for shape in self.shapes(name, "cost", f"refused 7 {LARGEST}")}
            self.assertLessEqual({LARGEST, LARGEST + 1, 2 * LARGEST}, sums)
            self.assertTrue(self.shapes(name, "cost", f"refused 7 {2 ** 32}"))
            self.assertTrue(self.shapes(name, "cost", "refused 7 65536"))
            for number, block in (("3 10", 10), ("6", 11)):
                self.assertIn(f"message {block} {LARGEST} {LARGEST}",
                              self.shapes(name, "cost", f"refused {number}"))

    def test_edges_of_buffers(self):
        """Lengths of buffers, with the number held."""
        outlets = new_outlets()
        seen = {name: set() for name in NAMES}
        for line, reply in zip(self.calls, self.answers):
            name, call, *given = line.split(" ")
            if call == "take":
                verdict = " ".join(reply.split(" ")[:2]) if refused(reply) else "ok"
                held = "some" if outlets[name].warnings else "none"
                seen[name].add((int(given[0]), held, verdict))
            answer(outlets, line)
        for name in NAMES:
            for length in (0, 16383):
                for held in ("some", "none"):
                    self.assertIn((length, held, "refused 1"), seen[name])
            for length in (16384, 16400):
                self.assertIn((length, "none", "refused 16"), seen[name])
                self.assertIn((length, "some", "ok"), seen[name])
            self.assertIn((70000, "some", "ok"), seen[name])

    def test_rounds_of_rack(self):
        """Ten rounds. Each number of warnings is held from each place on, and
        a give is refused from each."""
        taken = held = 0
        seen = set()
        full = set()
        for call, reply in self.split:
            if call[0] == "rack" and call[1] in CHANGES:
                if reply[0] == "ok":
                    taken += call[1] == "take"
                    held += 1 if call[1] == "give" else -1
                seen.add((taken % 3, held))
                if reply == ["refused", "12", "1", "0"]:
                    full.add(taken % 3)
        self.assertGreaterEqual(taken, 30)
        self.assertEqual(seen, {(place, count) for place in range(3) for count in range(4)})
        self.assertEqual(full, {0, 1, 2})

    def test_ends_of_tape(self):
        """The tape is filled to its last octet, or until nothing fits, freed
        by a take and filled again."""
        outlets = new_outlets()
        outlet = outlets["tape"]
        filled = Counter()
        freed = set()
        emptied = 0
        for line in self.calls:
            free = outlet.free()
            answer(outlets, line)
            if outlet.free() < free and outlet.free() < 12:
                filled[outlet.free()] += 1
            if outlet.free() > free:
                freed.add((free, outlet.free()))
                emptied += not outlet.warnings
        self.assertGreaterEqual(filled[0], 4)
        self.assertGreaterEqual(filled[10], 2)
        self.assertGreaterEqual(emptied, 8)
        # A take from a full tape, with an entry of 12 octets and a long one.
        self.assertIn((0, 12), freed)
        self.assertTrue(any(first == 0 and then > 8000 for first, then in freed))
        # Just no room, by 2 octets for each kind of cost, and with nothing free.
        room = {tuple(map(int, reply[2:])) for call, reply in self.split
                if call[0] == "tape" and reply[:2] == ["refused", "12"]}
        self.assertLessEqual({(58, 56), (46, 44), (80, 78), (12, 10), (12, 0), (58, 0),
                              (17454, 15314)}, room)

    def test_questions_after_changes(self):
        """Between a change of the rack and the next, first and free are asked.
        The tape's octets are asked for in many states."""
        asked = {"first", "free"}
        for call, reply in self.split:
            if call[0] == "rack" and call[1] in CHANGES and reply[0] == "ok":
                self.assertEqual(asked, {"first", "free"})
                asked = set()
            elif call[0] == "rack" and call[1] in ("first", "free"):
                asked.add(call[1])
        tapes = {" ".join(reply) for call, reply in self.split if call[1] == "octets"}
        self.assertGreaterEqual(len(tapes), 30)
        self.assertIn("ok 0 0", tapes)
        self.assertTrue(any(text.startswith("ok 32768 ") for text in tapes))
        self.assertTrue(any(text.startswith("ok 32756 ") for text in tapes))


if __name__ == "__main__":
    unittest.main()
