"""Makes tapes, readable and damaged, and the listings that belong to them.

    python3 model/tape_cases.py TAPES LISTINGS

TAPES gets, for each case, the length of the tape in 4 octets, high octet
first, and the octets of the tape. LISTINGS gets, for each case, a line
`tape N` and the lines that tape_list prints for the tape. N counts from 0.

The output is the same on every run.
"""

import random
import sys
from typing import NamedTuple, Union

from tape import Acceptor, Message, Primary, encode, listing

SEED = 20231

# Verdict of a case that the generator does not state.
OPEN = "open"

LENGTHS = [0, 1, 31, 32, 33, 63, 64, 65, 255, 256]
NUMBERS = [0, 255, 256, 65535]
BLOCKS = [11, 12, 8]


class Case(NamedTuple):
    octets: bytes
    verdict: Union[None, tuple, str]    # None: readable


class Source:
    """Random choices. They use only random(), whose sequence for a given seed
    is the same in all versions of Python 3."""

    def __init__(self, seed):
        self.generator = random.Random(seed)

    def below(self, limit):
        return int(self.generator.random() * limit)

    def pick(self, options):
        return options[self.below(len(options))]

    def octets(self, count):
        return bytes(self.below(256) for _ in range(count))

    def number(self):
        return self.pick(NUMBERS + [self.below(65536), self.below(65536)])

    def primary(self):
        security = self.pick([None, self.octets(50), bytes(50)])
        return Primary(self.number(), self.number(), self.number(), security)

    def message(self):
        block = self.pick(BLOCKS)
        lengths = [0, 0, 1, 5, 16, 31, 32, 33, 40, 64, 65]
        area = None
        if block != 11:
            area = self.pick([None, self.octets(self.pick(lengths))])
        return Message(block, self.number(), self.number(), self.below(256),
                       self.octets(self.pick(lengths)), area)

    def warning(self):
        return self.pick([self.primary, self.message, self.message])()

    def warnings(self, least, most):
        return [self.warning() for _ in range(least + self.below(most - least + 1))]


# Readable tapes

def readable_cases(source):
    lists = [[]]

    # Numbers at their edges.
    for place, value in enumerate(NUMBERS):
        security = source.octets(50) if place % 2 else None
        lists.append([Primary(value, 1, 2, security)])
        lists.append([Primary(3, value, 4, security)])
        lists.append([Primary(5, 6, value, security)])
        lists.append([Message(BLOCKS[place % 3], value, 7, 15, b"text")])
        lists.append([Message(BLOCKS[(place + 1) % 3], 8, value, 15, b"text")])
    lists.append([Message(12, 1, 1, coding, b"") for coding in (0, 1, 15, 127, 128, 255)])

    # Every kind, with an absent and an empty area and an empty message.
    lists.append([Primary(4352, 1, 256)])
    lists.append([Primary(4352, 1, 256, source.octets(50))])
    for block in BLOCKS:
        lists.append([Message(block, 4370, 7, 15, b"")])
        lists.append([Message(block, 4370, 7, 15, b"ABCDE")])
    for block in (12, 8):
        lists.append([Message(block, 4370, 7, 15, b"", b"")])
        lists.append([Message(block, 4370, 7, 15, b"ABCDE", b"")])
        lists.append([Message(block, 4370, 7, 15, b"", b"FGH")])
        lists.append([Message(block, 4370, 7, 15, b"ABCDE", b"FGH")])

    # Lengths of message and area at the edges of data commands.
    for place, length in enumerate(LENGTHS):
        block = (12, 8)[place % 2]
        other = (8, 12)[place % 2]
        lists.append([Message(each, 1, 2, 3, source.octets(length)) for each in BLOCKS])
        lists.append([Message(block, 1, 2, 3, source.octets(3), source.octets(length))])
        lists.append([Message(other, 1, 2, 3, b"", source.octets(length))])
        lists.append([Message(other, 1, 2, 3, source.octets(length), source.octets(length))])
        lists.append([Message(block, 1, 2, 3, source.octets(length), b"")])
    lists.append([Message(12, 1, 2, 3, source.octets(16), source.octets(16))])

    # Octets that are easily confused with padding or with commands.
    lists.append([Primary(0, 0, 0, bytes(50)), Primary(0, 0, 0)])
    lists.append([Primary(65535, 65535, 65535, b"\xff" * 50)])
    lists.append([Message(12, 0, 0, 0, bytes(5), bytes(33))])
    lists.append([Message(8, 0x4D50, 0x444D, 0x44, b"\x44\x4d\x50" * 20, b"\x50\x4d\x44" * 11)])

    # Several warnings in mixed order.
    for _ in range(16):
        lists.append(source.warnings(2, 8))
    lists.append([Message(11, 1, 1, 0, b""), Message(12, 1, 1, 0, b""),
                  Message(12, 1, 1, 0, b"", b""), Primary(1, 1, 1), Message(8, 1, 1, 0, b"", b"")])

    return [Case(encode(warnings), None) for warnings in lists]


def large_cases(source):
    """Messages with 16,384 octets, readable and damaged at their end."""
    def large(block, length, area_length):
        area = None if area_length is None else source.octets(area_length)
        return Message(block, 4371, 9, 15, source.octets(length), area)

    one = large(12, 16384, None)
    other = large(8, 1, 16383)
    lists = [
        [one],
        [large(11, 16384, None), Primary(1, 2, 3)],
        [large(8, 16384, 0)],
        [other],
        [large(12, 16383, 1)],
        [large(8, 8192, 8192)],
        [large(12, 0, 16384)],
        [one, other],           # above 32,768 octets
    ]
    cases = [Case(encode(warnings), None) for warnings in lists]

    # The last data command of `other` begins at 17,420. It has count 31 and
    # one octet of padding.
    octets = encode([other])
    cases.append(Case(octets[:-1], (19, 17453)))
    cases.append(Case(octets[:17420], (19, 17420)))
    cases.append(Case(octets[:-1] + b"\1", (18, 17422)))
    cases.append(Case(octets[:17421] + b"\x20" + octets[17422:], (18, 17421)))
    cases.append(Case(octets + b"\x44", (18, 17454)))
    return cases


# Tapes that are cut

def cut_cases(source):
    """Every cut of an entry of each form, the last two after other entries."""
    plain = encode([Primary(0x1101, 0x5001, 0x0580)])
    secured = encode([Primary(0x1102, 0x5002, 0x0780, source.octets(50))])
    message = encode([Message(12, 0x1112, 0x5003, 0x0F, source.octets(40), source.octets(5))])
    assert (len(plain), len(secured), len(message)) == (58, 58, 114)

    cases = []
    for before, entry in [(b"", plain), (message, secured), (plain, message)]:
        for length in range(len(entry)):
            octets = before + entry[:length]
            cases.append(Case(octets, (19, len(octets)) if length else None))
    return cases


# Tapes with one fault at a known place

class Faults:
    """Collects cases with faults. Some faults get valid entries before them."""

    def __init__(self, source):
        self.cases = []
        self.count = 0
        self.before = [
            b"",
            encode([Primary(4352, 1, 256)]),
            b"",
            encode([Message(12, 4370, 2, 15, source.octets(33), b"")]),
            encode([Message(11, 4370, 3, 1, b""), Primary(4353, 4, 5, source.octets(50))]),
        ]

    def add(self, entry, changes, operand, wrong=None):
        """`changes` gives new octets by place. `operand` is the first place
        of the wrong operand, `wrong` that of the wrong octet; both are counted
        from the entry's start. If `wrong` is left out, it is `operand`."""
        if wrong is None:
            wrong = operand
        damaged = bytearray(entry)
        for place, octet in changes.items():
            damaged[place] = octet
        before = self.before[self.count % len(self.before)]
        self.count += 1
        start = len(before)
        octets = before + bytes(damaged)
        refusal = (18, start + operand)
        self.cases.append(Case(octets, refusal))
        if len(octets) > start + wrong + 1:
            self.cases.append(Case(octets[:start + wrong + 1], refusal))
        if wrong == operand + 1:
            # After the high octet of a number the low octet is still open.
            self.cases.append(Case(octets[:start + wrong], (19, start + wrong)))


def header(block, length, flag, area_length):
    """A message command with these operands, also wrong ones."""
    return (bytes([0x4D, block, 0x11, 0x12, 0x00, 0x07, 0x0F])
            + length.to_bytes(2, "big") + bytes([flag]) + area_length.to_bytes(2, "big"))


def fault_cases(source):
    faults = Faults(source)
    add = faults.add

    plain = encode([Primary(4352, 1, 256)])
    secured = encode([Primary(4353, 2, 257, b"\x80" + source.octets(48) + b"\x01")])
    # Data commands at 12 (count 32), 46 (count 8) and 80 (count 5).
    message = encode([Message(12, 4370, 7, 15, source.octets(40), source.octets(5))])
    # Data command at 12 (count 5).
    short = encode([Message(8, 4371, 8, 15, b"ABCDE")])
    only_block_11 = encode([Message(11, 4372, 9, 15, b"ABCDE")])

    # Command at the start of an entry.
    for octet in (0x00, 0x44, 0x54, 0x4C, 0x4E, 0x4F, 0x51, 0xFF):
        add(plain, {0: octet}, 0)
    for octet in (0x00, 0x44):
        add(message, {0: octet}, 0)

    # Security flag and security information.
    for octet in (2, 255):
        add(plain, {7: octet}, 7)
        add(secured, {7: octet}, 7)
    for place in (8, 9, 30, 56, 57):
        add(plain, {place: 1}, 8, place)
    add(plain, {8: 255}, 8)
    add(plain, {57: 255}, 8, 57)
    add(secured, {7: 0}, 8)

    # Block.
    for octet in (0, 7, 9, 10, 13, 255):
        add(message, {1: octet}, 1)

    # Message length.
    for high, low, wrong in [(0x40, 0x01, 8), (0x40, 0xFF, 8), (0x41, 0x00, 7), (0xFF, 0xFF, 7)]:
        add(message, {7: high, 8: low}, 7, wrong)
        add(only_block_11, {7: high, 8: low}, 7, wrong)

    # Area flag.
    for octet in (2, 255):
        add(message, {9: octet}, 9)
        add(short, {9: octet}, 9)
    for octet in (1, 2):
        add(only_block_11, {9: octet}, 9)
    add(message, {1: 11}, 9)

    # Area length at flag 0.
    for entry in (short, only_block_11):
        add(entry, {10: 1}, 10)
        add(entry, {11: 1}, 10, 11)
    add(short, {10: 0x40}, 10)
    add(short, {11: 255}, 10, 11)
    add(message, {9: 0}, 10, 11)

    # Area length at flag 1: message and area octets are too many together.
    data = short[12:]
    for length, area_length, wrong in [
            (16384, 1, 11), (0, 16385, 11), (16383, 2, 11), (8192, 8193, 11), (1, 16384, 10),
            (16384, 0x0100, 10), (0, 0x4100, 10), (8192, 0x2100, 10), (40, 0x3FD9, 11),
            (40, 0x4000, 10), (16128, 0x0101, 11), (16128, 0x0200, 10), (16129, 0x0100, 10),
            (5, 65535, 10)]:
        add(header(12, length, 1, area_length) + data, {}, 10, wrong)

    # Command where data is due.
    for octet in (0x00, 0x50, 0x4D, 0x54):
        for place in (12, 46, 80):
            add(message, {place: octet}, place)
    add(short, {12: 0x45}, 12)
    add(header(8, 5, 0, 0) + plain, {}, 12)
    add(header(8, 5, 0, 0) + short, {}, 12)
    add(header(12, 0, 1, 5) + plain, {}, 12)

    # Count. Due are 32 of 40, then 8, then 5 of the area.
    for octet in (0, 31, 33, 40, 255):
        add(message, {13: octet}, 13)
    for octet in (0, 7, 9, 13, 32):
        add(message, {47: octet}, 47)
    for octet in (0, 4, 6, 32):
        add(message, {81: octet}, 81)
    for octet in (0, 4, 6, 31, 32, 33):
        add(short, {13: octet}, 13)
    for length, place, octet in [(1, 13, 0), (1, 13, 2), (31, 13, 32), (31, 13, 30), (32, 13, 31),
                                 (32, 13, 33), (33, 13, 33), (33, 47, 0), (33, 47, 2)]:
        add(encode([Message(11, 1, 2, 3, source.octets(length))]), {place: octet}, place)
    # Message and area in one data command.
    add(header(12, 5, 1, 3) + data, {13: 8}, 13)

    # Padding.
    for place, operand in [(56, 48), (79, 48), (87, 82), (113, 82)]:
        for octet in (1, 255):
            add(message, {place: octet}, operand, place)
    add(encode([Message(8, 1, 2, 3, source.octets(31))]), {45: 1}, 14, 45)
    add(encode([Message(8, 1, 2, 3, source.octets(1))]), {15: 128}, 14, 15)

    # One octet too many.
    for octet in (0x00, 0x44, 0x54, 0xFF):
        for entry in (plain, message):
            add(entry + bytes([octet]), {}, len(entry))
    for octet in (0x50, 0x4D):
        longer = message + bytes([octet])
        faults.cases.append(Case(longer, (19, len(longer))))
    # A data command after a message that has none.
    add(header(12, 0, 1, 0) + data, {}, 12)
    add(header(11, 0, 0, 0) + data, {}, 12)

    # Sums that are allowed, without their data.
    for length, area_length in [(16384, 0), (0, 16384), (1, 16383), (16128, 256), (16129, 255)]:
        faults.cases.append(Case(header(8, length, 1, area_length), (19, 12)))
    return faults.cases


# Random damage

def near(source, octet):
    """Another octet, often close to the one given."""
    while True:
        new = source.pick([octet ^ 1, (octet + 1) % 256, (octet - 1) % 256, 0, 1, 0x40, 0x44,
                           0x4D, 0x50, 255, source.below(256), source.below(256)])
        if new != octet:
            return new


def commands(octets):
    """The commands of a readable tape, one by one."""
    widths = {0x50: 58, 0x4D: 12, 0x44: 34}
    found = []
    while octets:
        width = widths[octets[0]]
        found.append(octets[:width])
        octets = octets[width:]
    return found


def random_cases(source):
    tapes = []

    def small():
        return encode(source.warnings(1, 4))

    # One octet changed.
    for _ in range(40):
        octets = bytearray(small())
        place = source.below(len(octets))
        octets[place] = near(source, octets[place])
        tapes.append(octets)
    # One octet of a command changed, outside its data.
    for _ in range(20):
        parts = [bytearray(part) for part in commands(small())]
        part = source.pick(parts)
        place = source.below({0x50: 8, 0x4D: 12, 0x44: 2}[part[0]])
        part[place] = near(source, part[place])
        tapes.append(b"".join(parts))
    # Cut.
    for _ in range(10):
        octets = small()
        tapes.append(octets[:source.below(len(octets))])
    # Octets deleted, inserted.
    for _ in range(10):
        octets = small()
        place = source.below(len(octets))
        tapes.append(octets[:place] + octets[place + 1 + source.below(3):])
    for _ in range(10):
        octets = small()
        place = source.below(len(octets) + 1)
        new = source.pick([b"\0", b"\x44", b"\x4d", b"\x50", source.octets(1), source.octets(3)])
        tapes.append(octets[:place] + new + octets[place:])
    # Commands swapped, left out, doubled.
    for turn in range(18):
        parts = commands(small() + small())
        first, second = source.below(len(parts)), source.below(len(parts))
        if turn % 3 == 0:
            parts[first], parts[second] = parts[second], parts[first]
        elif turn % 3 == 1:
            del parts[first]
        else:
            parts.insert(second, parts[first])
        tapes.append(b"".join(parts))
    # Random strings.
    for _ in range(4):
        tapes.append(source.octets(1 + source.below(80)))
    for _ in range(10):
        usual = [0x50, 0x4D, 0x4D, 0x44, 0, 0, 1, 5, 8, 11, 12, 32]
        start = source.pick([b"\x50", b"\x4d", b"\x4d\x08", b"\x4d\x0b", b"\x4d\x0c"])
        tapes.append(start + bytes(source.pick(usual) for _ in range(source.below(80))))

    return [Case(bytes(octets), OPEN) for octets in tapes]


def walk_cases(source):
    """Tapes made octet by octet at the edges of what is allowed: the lowest or
    highest octet that is not wrong, or one between. Half of them end with an
    octet just outside these and some octets more."""
    cases = []
    for turn in range(30):
        acceptor = Acceptor()
        octets = bytearray()
        length = 8 + source.below(120)
        while True:
            right = [octet for octet in range(256) if acceptor.accepts(octet)]
            outside = {right[0] - 1, right[-1] + 1} & set(range(256))
            if len(octets) >= length and (turn % 2 == 0 or outside):
                break
            octet = source.pick([right[0], right[0], right[0], right[-1], right[-1],
                                 source.pick(right)])
            assert acceptor.advance(octet)
            octets.append(octet)
        if turn % 2 == 0:
            verdict = None if acceptor.between_entries() else (19, len(octets))
        else:
            octets.append(source.pick(sorted(outside)))
            octets += source.octets(source.below(4))
            verdict = (18, acceptor.operand_offset)
        cases.append(Case(bytes(octets), verdict))
    return cases


def all_cases():
    source = Source(SEED)
    return (readable_cases(source) + large_cases(source) + cut_cases(source)
            + fault_cases(source) + random_cases(source) + walk_cases(source))


def main():
    tapes_path, listings_path = sys.argv[1:]
    cases = all_cases()
    with open(tapes_path, "wb") as tapes:
        for case in cases:
            tapes.write(len(case.octets).to_bytes(4, "big") + case.octets)
    with open(listings_path, "wb") as listings:
        for place, case in enumerate(cases):
            for line in [f"tape {place}"] + listing(case.octets):
                listings.write(line.encode("ascii") + b"\n")


if __name__ == "__main__":
    main()
