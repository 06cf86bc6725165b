"""Checks of the model. Run from the repository's root:

    python3 -m unittest discover -s model
"""

import copy
import unittest

import sample
import tape_cases
from tape import Acceptor, Message, NoWarning, Primary, encode, listing, read

EXAMPLE = (bytes.fromhex("50 11 00 00 01 01 00 00") + bytes(50)
           + bytes.fromhex("4D 0C 11 12 00 07 0F 00 05 00 00 00")
           + bytes.fromhex("44 05 41 42 43 44 45") + bytes(27))

EXAMPLE_WARNINGS = [Primary(4352, 1, 256), Message(12, 4370, 7, 15, b"ABCDE")]

# The table of examples under 'How octets are judged' in docs/TAPE.md:
# changed octets, length after the cut or None, verdict.
EXAMPLE_FAULTS = [
    ({}, 57, (19, 57)),
    ({7: 2}, None, (18, 7)),
    ({30: 1}, None, (18, 8)),
    ({30: 1}, 31, (18, 8)),
    ({58: 0x58}, None, (18, 58)),
    ({59: 10}, None, (18, 59)),
    ({65: 0x41}, 66, (18, 65)),
    ({65: 0x40}, 66, (19, 66)),
    ({65: 0x40, 66: 1}, None, (18, 65)),
    ({59: 11, 67: 1}, None, (18, 67)),
    ({68: 1}, 69, (18, 68)),
    ({67: 1, 68: 0x40}, None, (18, 68)),
    ({}, 70, (19, 70)),
    ({70: 0x50}, None, (18, 70)),
    ({71: 6}, None, (18, 71)),
    ({77: 1}, None, (18, 72)),
    ({77: 1}, 78, (18, 72)),
    ({}, 77, (19, 77)),
    ({104: 0x44}, None, (18, 104)),
    ({104: 0x50}, None, (19, 105)),
    ({}, 58, None),
]


def changed(octets, changes, cut=None):
    octets = bytearray(octets)
    for place, octet in changes.items():
        if place == len(octets):
            octets.append(octet)
        else:
            octets[place] = octet
    return bytes(octets[:cut])


def judge_by_table(octets):
    """A second judge, after the table 'all ways in which an octet can be
    wrong' in docs/TAPE.md. It gives only the verdict."""
    def wrong_in(place, octet_wrong, width):
        """Whether an octet at hand of this operand is wrong."""
        here = octets[place:place + width]
        return any(octet_wrong(index, octet) for index, octet in enumerate(here))

    end = len(octets)
    start = 0
    while start < end:
        if octets[start] == 0x50:
            if wrong_in(start + 7, lambda _, octet: octet > 1, 1):
                return 18, start + 7
            if end > start + 7 and octets[start + 7] == 0:
                if wrong_in(start + 8, lambda _, octet: octet != 0, 50):
                    return 18, start + 8
            start += 58
        elif octets[start] == 0x4D:
            part = octets[start:start + 12]
            if len(part) > 1 and part[1] not in (8, 11, 12):
                return 18, start + 1
            if len(part) > 7 and part[7] > 0x40:
                return 18, start + 7
            if len(part) > 8 and part[7] == 0x40 and part[8] != 0:
                return 18, start + 7
            if len(part) > 9 and (part[9] > 1 or (part[9] == 1 and part[1] == 11)):
                return 18, start + 9
            if len(part) > 10:
                length = 256 * part[7] + part[8]
                most = 16384 - length if part[9] == 1 else 0
                if 256 * part[10] > most:
                    return 18, start + 10
                if len(part) > 11 and 256 * part[10] + part[11] > most:
                    return 18, start + 10
            start += 12
            if start > end:
                break
            for due in (length, 256 * part[10] + part[11]):
                while due > 0:
                    if start >= end:
                        return 19, end
                    if octets[start] != 0x44:
                        return 18, start
                    count = min(32, due)
                    if wrong_in(start + 1, lambda _, octet: octet != count, 1):
                        return 18, start + 1
                    if wrong_in(start + 2, lambda i, octet: i >= count and octet != 0, 32):
                        return 18, start + 2
                    due -= count
                    start += 34
        else:
            return 18, start
    return None if start == end else (19, end)


def completed(acceptor):
    """Octets that lead from this state to the end of the entry."""
    acceptor = copy.deepcopy(acceptor)
    octets = bytearray()
    while not acceptor.between_entries():
        octet = next(octet for octet in range(256) if acceptor.accepts(octet))
        acceptor.advance(octet)
        octets.append(octet)
    return bytes(octets)


class Documents(unittest.TestCase):
    def test_example(self):
        self.assertEqual(len(EXAMPLE), 104)
        self.assertEqual(encode(EXAMPLE_WARNINGS), EXAMPLE)
        self.assertEqual(read(EXAMPLE), (list(zip((0, 58), EXAMPLE_WARNINGS)), None))
        self.assertEqual(listing(EXAMPLE), [
            "0 primary 4352 1 type 256 security no",
            "58 message 12 4370 7 coding 15 octets 5 area -",
            "end 2 warnings 104 octets same"])
        self.assertEqual(listing(changed(EXAMPLE, {77: 1})), [
            "0 primary 4352 1 type 256 security no",
            "refused 18 72"])
        self.assertEqual(listing(b""), ["end 0 warnings 0 octets same"])

    def test_example_faults(self):
        for changes, cut, verdict in EXAMPLE_FAULTS:
            with self.subTest(changes=changes, cut=cut):
                octets = changed(EXAMPLE, changes, cut)
                self.assertEqual(read(octets)[1], verdict)
                self.assertEqual(judge_by_table(octets), verdict)

    def test_costs(self):
        self.assertEqual(len(encode([Primary(1, 2, 3)])), 58)
        self.assertEqual(len(encode([Primary(1, 2, 3, bytes(50))])), 58)
        for length, area, cost in [
                (0, None, 12), (0, 0, 12), (5, None, 46), (32, None, 46), (33, None, 80),
                (16, 16, 80), (16384, None, 17420), (1, 16383, 17454)]:
            warning = Message(12, 1, 2, 3, bytes(length), None if area is None else bytes(area))
            self.assertEqual(len(encode([warning])), cost)

    def test_longest_entry(self):
        # All splits of 16,384 octets into message and area.
        costs = {12 + 34 * (-(-m // 32) + -(-(16384 - m) // 32)) for m in range(16385)}
        self.assertEqual(costs, {17420, 17454})

    def test_no_warning(self):
        for value, refusal in [
                (Message(10, 1, 2, 3, b""), (3, 10)),
                (Message(10, 1, 2, 3, bytes(16385), b""), (3, 10)),
                (Message(11, 1, 2, 3, b"", b""), (6,)),
                (Message(11, 1, 2, 3, bytes(16385), b""), (6,)),
                (Message(11, 1, 2, 3, bytes(16385)), (7, 16385)),
                (Message(12, 1, 2, 3, bytes(16384), b"1"), (7, 16385)),
                (Primary(1, 2, 3, b""), (15, 0)),
                (Primary(1, 2, 3, bytes(49)), (15, 49)),
                (Primary(1, 2, 3, bytes(51)), (15, 51))]:
            with self.assertRaises(NoWarning) as raised:
                encode([value])
            self.assertEqual(raised.exception.refusal, refusal)

    def test_listing_of_every_kind(self):
        octets = encode([Primary(1, 2, 65535, bytes(50)), Message(8, 3, 4, 5, b"6", b""),
                         Message(12, 7, 8, 9, b"", b"10"), Message(11, 65535, 0, 255, b"")])
        self.assertEqual(listing(octets), [
            "0 primary 1 2 type 65535 security yes",
            "58 message 8 3 4 coding 5 octets 1 area 0",
            "104 message 12 7 8 coding 9 octets 0 area 2",
            "150 message 11 65535 0 coding 255 octets 0 area -",
            "end 4 warnings 162 octets same"])


class Judging(unittest.TestCase):
    def test_every_octet_at_every_place(self):
        """At each place of some tapes, each octet is judged against the
        definition: a right one can be completed to a tape that writing gives;
        a wrong one is wrong by the table too."""
        message = Message(8, 1, 2, 3, b"\x7f" * 33, b"\x7f" * 5)
        secured = Primary(1, 2, 3, b"\x7f" * 50)
        for octets in (EXAMPLE, encode([message]), encode([secured])):
            acceptor = Acceptor()
            for place, given in enumerate(octets):
                for octet in range(256):
                    start = octets[:place] + bytes([octet])
                    verdict = judge_by_table(start)
                    self.assertEqual(acceptor.accepts(octet), verdict is None or verdict[0] == 19)
                    if not acceptor.accepts(octet):
                        self.assertEqual(verdict, (18, acceptor.operand_offset))
                    elif octet in (0, 1, 8, 11, 0x40, 0x50, given):
                        after = copy.deepcopy(acceptor)
                        after.advance(octet)
                        if after.operand == "message length" and after.value > 0:
                            continue        # completing would take long
                        if after.fields.get("message length", 0) > 64:
                            continue
                        if after.operand == "area length" and after.value > 0:
                            continue
                        whole = start + completed(after)
                        entries, verdict = read(whole)
                        self.assertIsNone(verdict)
                        self.assertEqual(encode([warning for _, warning in entries]), whole)
                self.assertTrue(acceptor.advance(given))
            self.assertTrue(acceptor.between_entries())

    def test_lengths(self):
        """Message lengths, and area lengths around what is left."""
        for high in range(256):
            for low in (0, 1, 128, 255):
                length = 256 * high + low
                verdict = read(tape_cases.header(8, length, 0, 0))[1]
                if length > 16384:
                    self.assertEqual(verdict, (18, 7))
                elif length > 0:
                    self.assertEqual(verdict, (19, 12))
                else:
                    self.assertIsNone(verdict)
        for length in (0, 1, 5, 255, 256, 257, 8192, 16127, 16128, 16129, 16383, 16384):
            left = 16384 - length
            for area_length in (0, 1, 255, 256, 16384, 65535, max(0, left - 1), left, left + 1,
                                left + 256):
                octets = tape_cases.header(12, length, 1, area_length)
                total = length + area_length
                if area_length > left:
                    expected = (18, 10)
                else:
                    expected = (19, 12) if total else None
                self.assertEqual(read(octets)[1], expected)
                high = 256 * (area_length // 256)
                self.assertEqual(read(octets[:11])[1], (18, 10) if high > left else (19, 11))

    def test_longest_completion(self):
        """High octet 0x40 of a length can be completed."""
        for start in (bytes.fromhex("4D 0B 00 00 00 00 00 40"),
                      bytes.fromhex("4D 0C 00 00 00 00 00 00 00 01 40")):
            acceptor = Acceptor()
            for octet in start:
                self.assertTrue(acceptor.advance(octet))
            whole = start + completed(acceptor)
            self.assertEqual(len(whole), 17420)
            self.assertIsNone(read(whole)[1])


class Cases(unittest.TestCase):
    @classmethod
    def setUpClass(cls):
        cls.cases = tape_cases.all_cases()

    def test_verdicts(self):
        for place, case in enumerate(self.cases):
            with self.subTest(case=place):
                verdict = read(case.octets)[1]
                self.assertEqual(judge_by_table(case.octets), verdict)
                if case.verdict != tape_cases.OPEN:
                    self.assertEqual(verdict, case.verdict)

    def test_entries(self):
        """The entries before a fault are a readable tape, written the same."""
        for place, case in enumerate(self.cases):
            with self.subTest(case=place):
                entries, verdict = read(case.octets)
                written = encode([warning for _, warning in entries])
                self.assertTrue(case.octets.startswith(written))
                if verdict is None:
                    self.assertEqual(written, case.octets)
                    self.assertTrue(listing(case.octets)[-1].endswith(" same"))

    def test_same_on_each_run(self):
        self.assertEqual(tape_cases.all_cases(), self.cases)

    def test_sample(self):
        entries, verdict = read(encode(sample.WARNINGS))
        self.assertIsNone(verdict)
        self.assertEqual([warning for _, warning in entries], sample.WARNINGS)
        lengths = [len(warning.message) for warning in sample.WARNINGS
                   if isinstance(warning, Message)]
        for length in (0, 32, 33):
            self.assertIn(length, lengths)


class RoundTrips(unittest.TestCase):
    def test_random_lists(self):
        source = tape_cases.Source(1)
        for _ in range(300):
            warnings = source.warnings(0, 6)
            octets = encode(warnings)
            entries, verdict = read(octets)
            self.assertIsNone(verdict)
            self.assertEqual([warning for _, warning in entries], warnings)
            for offset, warning in entries:
                entry = encode([warning])
                self.assertEqual(octets[offset:offset + len(entry)], entry)

    def test_random_damage(self):
        """Whatever is read from damaged octets is written the same."""
        source = tape_cases.Source(2)
        for _ in range(600):
            octets = bytearray(encode(source.warnings(1, 3)))
            place = source.below(len(octets))
            octets[place] = tape_cases.near(source, octets[place])
            octets = bytes(octets[:source.pick([None, place + 1, source.below(len(octets) + 1)])])
            entries, verdict = read(octets)
            self.assertEqual(verdict, judge_by_table(octets))
            if verdict is None:
                self.assertEqual(encode([warning for _, warning in entries]), octets)


if __name__ == "__main__":
    unittest.main()
