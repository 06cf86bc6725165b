"""Checks of the model of the lists of keys. Run from the repository's root:

    python3 -m unittest discover -s model
"""

import unittest
from collections import Counter

import keys_cases
from keys import KeyList, Lists, Network, OpenList, Pair, Primary, Remembered, answer

A = Network(262, 2, 1)
B = Network(262, 3, 1)
ONE, TWO, THREE = Pair(4352, 1), Pair(4352, 2), Pair(4353, 1)


class StampedLists:
    """A second judge. Each key has its clock and the number of the call that
    made it the newest, and the lists are in no order. It gives whole answers."""

    def __init__(self):
        self.stamp = 0
        self.open = {}           # key: (stamp, clock)
        self.remembered = {}

    @staticmethod
    def listing(entries, form):
        ordered = sorted((stamp, clock, key) for key, (stamp, clock) in entries.items())
        return "".join([str(len(entries))] + [" " + form % key + "@" + str(clock)
                                              for _, clock, key in ordered])

    @staticmethod
    def expired(entries, clock, period):
        gone = [key for key, (_, stored) in entries.items() if stored + period <= clock]
        for key in gone:
            del entries[key]
        return str(len(gone))

    def answer(self, line):
        self.stamp += 1
        call, *given = line.split(" ")
        given = tuple(map(int, given))
        if call == "list_open":
            return self.listing(self.open, "%d/%d")
        if call == "list":
            return self.listing(self.remembered, "%d-%d-%d:%d/%d")
        if call == "expire":
            return self.expired(self.remembered, *given)
        if call == "expire_open":
            return self.expired(self.open, *given)
        if call == "clear_open":
            return self.expired(self.open, 0, -2 ** 32)
        if call == "close":
            return "absent" if self.open.pop(given, None) is None else "removed"
        *key, clock = given
        key = tuple(key)
        if call == "open":
            if key not in self.open and len(self.open) == 8:
                return "full"
            if key in self.open:
                return "known"
            self.open[key] = (self.stamp, clock)
            return "stored"
        known = key in self.remembered
        if not known:
            same = {other: self.remembered[other] for other in self.remembered
                    if other[:3] == key[:3]}
            if len(same) == 2:
                del self.remembered[min(same, key=same.get)]
            elif len(self.remembered) == 12:
                del self.remembered[min(self.remembered, key=self.remembered.get)]
        self.remembered[key] = (self.stamp, clock)
        return "known" if known else "stored"


def keys_of(entries):
    return [entry.key for entry in entries]


class Documents(unittest.TestCase):
    def test_operations(self):
        entries = KeyList()
        for clock, key in enumerate((ONE, TWO, THREE)):
            self.assertIsNone(entries.find(key))
            entries.store(key, clock)
        self.assertEqual(entries.find(TWO), 1)
        entries.renew(ONE, 3)
        self.assertEqual(entries.entries, [(TWO, 1), (THREE, 2), (ONE, 3)])
        entries.remove(THREE)
        self.assertEqual(entries.entries, [(TWO, 1), (ONE, 3)])

    def test_expiry(self):
        for age, gone in ((10799, 0), (10800, 1), (10801, 1)):
            entries = KeyList()
            entries.store(ONE, 100)
            self.assertEqual(entries.expire(100 + age, 10800), gone)
        entries = KeyList()
        entries.store(ONE, 100)
        entries.store(TWO, 100)
        entries.store(THREE, 101)
        self.assertEqual(entries.expire(10900, 10800), 2)
        self.assertEqual(keys_of(entries.entries), [THREE])
        self.assertEqual(entries.expire(10900, 0), 1)

    def test_parts_compared(self):
        remembered = Remembered()
        for network in (A, B, Network(262, 2, 2), Network(263, 2, 1)):
            for pair in (ONE, TWO):
                self.assertEqual(remembered.remember(Primary(network, pair), 0), "stored")
        self.assertEqual(len(remembered.entries), 8)
        opened = OpenList()
        for pair in (ONE, TWO, THREE, Pair(1, 4352)):
            self.assertEqual(opened.open(pair, 0), "stored")

    def test_open_list(self):
        opened = OpenList()
        for serial in range(8):
            self.assertEqual(opened.open(Pair(1, serial), serial), "stored")
        self.assertEqual(opened.open(Pair(1, 8), 9), "full")
        self.assertEqual(opened.open(Pair(1, 0), 9), "known")
        self.assertEqual(opened.entries[0], (Pair(1, 0), 0))
        self.assertEqual(opened.close(Pair(1, 8)), "absent")
        self.assertEqual(opened.close(Pair(1, 3)), "removed")
        self.assertEqual(opened.open(Pair(1, 3), 9), "stored")
        self.assertEqual([key.serial for key in keys_of(opened.entries)],
                         [0, 1, 2, 4, 5, 6, 7, 3])
        self.assertEqual(opened.clear(), 8)
        self.assertEqual(opened.clear(), 0)

    def test_two_pairs_of_a_network(self):
        remembered = Remembered()
        remembered.remember(Primary(B, ONE), 0)
        remembered.remember(Primary(A, ONE), 1)
        remembered.remember(Primary(A, TWO), 2)
        self.assertEqual(remembered.remember(Primary(A, ONE), 3), "known")
        self.assertEqual(remembered.remember(Primary(A, THREE), 4), "stored")
        self.assertEqual(remembered.entries, [(Primary(B, ONE), 0), (Primary(A, ONE), 3),
                                              (Primary(A, THREE), 4)])

    def test_twelve_entries(self):
        def twelve():
            remembered = Remembered()
            for mnc in range(10):
                remembered.remember(Primary(Network(1, 2, mnc), ONE), mnc)
            remembered.remember(Primary(A, ONE), 10)
            remembered.remember(Primary(A, TWO), 11)
            return remembered

        # The older of two of this network, though it is not the oldest.
        remembered = twelve()
        remembered.remember(Primary(A, THREE), 12)
        self.assertEqual(len(remembered.entries), 12)
        self.assertIsNone(remembered.find(Primary(A, ONE)))
        # The oldest of all, for a network with no entry or with one.
        for network in (B, Network(1, 2, 5), Network(1, 2, 0)):
            remembered = twelve()
            remembered.remember(Primary(network, THREE), 12)
            self.assertEqual(len(remembered.entries), 12)
            self.assertIsNone(remembered.find(Primary(Network(1, 2, 0), ONE)))
        # Renewing removes nothing.
        remembered = twelve()
        before = keys_of(remembered.entries)
        self.assertEqual(remembered.remember(before[4], 12), "known")
        self.assertEqual(keys_of(remembered.entries), before[:4] + before[5:] + before[4:5])

    def test_lines(self):
        lists = Lists()
        for line, expected in (
                ("list", "0"), ("list_open", "0"), ("open 4352 1 7", "stored"),
                ("open 4352 1 8", "known"), ("open 4352 2 8", "stored"),
                ("list_open", "2 4352/1@7 4352/2@8"), ("remember 262 2 1 4352 1 9", "stored"),
                ("remember 262 3 1 4352 1 9", "stored"), ("remember 262 2 1 4352 1 10", "known"),
                ("list", "2 262-3-1:4352/1@9 262-2-1:4352/1@10"), ("expire 10808 10800", "0"),
                ("expire 10809 10800", "1"), ("expire_open 10809 10800", "2"),
                ("close 4352 1", "absent"), ("open 1 1 10809", "stored"),
                ("close 1 1", "removed"), ("clear_open", "0"),
                ("list", "1 262-2-1:4352/1@10")):
            self.assertEqual(answer(lists, line), expected)


class Cases(unittest.TestCase):
    @classmethod
    def setUpClass(cls):
        cls.calls, cls.answers = keys_cases.all_cases()

    def test_size(self):
        self.assertEqual(len(self.calls), len(self.answers))
        self.assertIn(len(self.calls), range(2700, 3500))

    def test_same_on_each_run(self):
        self.assertEqual(keys_cases.all_cases(), (self.calls, self.answers))

    def test_judges_agree(self):
        judge = StampedLists()
        for line, expected in zip(self.calls, self.answers):
            self.assertEqual(judge.answer(line), expected)

    def test_clocks(self):
        """Clocks never fall and reach the last one. Some repeat."""
        clocks = []
        for line in self.calls:
            call, *given = line.split(" ")
            if call in ("open", "remember"):
                clocks.append(int(given[-1]))
            elif call in ("expire", "expire_open"):
                clocks.append(int(given[0]))
        self.assertEqual(clocks, sorted(clocks))
        self.assertEqual(clocks[-1], 2 ** 32 - 1)
        self.assertGreater(sum(one == other for one, other in zip(clocks, clocks[1:])), 500)
        self.assertGreater(sum(2 ** 32 - 10800 < clock for clock in clocks), 100)

    def test_networks(self):
        """All networks given are legal."""
        for line in self.calls:
            call, *given = line.split(" ")
            if call == "remember":
                mcc, digits, mnc = map(int, given[:3])
                self.assertLessEqual(mcc, 999)
                self.assertIn(digits, (2, 3))
                self.assertLess(mnc, 10 ** digits)

    def test_laws(self):
        lists = Lists()
        for line in self.calls:
            answer(lists, line)
            self.assertLessEqual(len(lists.open.entries), 8)
            self.assertLessEqual(len(lists.remembered.entries), 12)
            for entries in (lists.open.entries, lists.remembered.entries):
                self.assertEqual(len(set(keys_of(entries))), len(entries))
                clocks = [entry.clock for entry in entries]
                self.assertEqual(clocks, sorted(clocks))
            networks = Counter(entry.key.network for entry in lists.remembered.entries)
            self.assertLessEqual(max(networks.values(), default=0), 2)

    def test_kinds(self):
        """How often each answer and each way of making room occurs."""
        lists = Lists()
        seen = Counter()
        for line in self.calls:
            call, *given = line.split(" ")
            remembered = lists.remembered.entries[:]
            opened = lists.open.entries[:]
            reply = answer(lists, line)
            if call in ("open", "close"):
                seen[call, reply] += 1
                if reply == "known" and len(opened) == 8:
                    seen["open", "known and full"] += 1
            elif call == "remember":
                seen[call, reply] += 1
                if reply == "known":
                    continue
                here = set(keys_of(lists.remembered.entries))
                gone = [place for place, entry in enumerate(remembered) if entry.key not in here]
                network = Network(*map(int, given[:3]))
                count = sum(entry.key.network == network for entry in remembered)
                if count == 2:
                    seen["room", "network", len(remembered) == 12, gone == [0]] += 1
                elif len(remembered) == 12:
                    self.assertEqual(gone, [0])
                    seen["room", "oldest", count] += 1
                else:
                    self.assertEqual(gone, [])
                    seen["room", "none"] += 1
            elif call in ("expire", "expire_open"):
                clock, period = map(int, given)
                before, after = ((remembered, lists.remembered.entries) if call == "expire"
                                 else (opened, lists.open.entries))
                if any(clock - entry.clock == period for entry in before):
                    seen[call, period, "at the period"] += 1
                if any(clock - entry.clock == period - 1 for entry in after):
                    seen[call, period, "one second before"] += 1
                if 0 < len(after) < len(before):
                    seen[call, "some"] += 1
        for kind in [("open", "stored"), ("open", "known"), ("open", "full"),
                     ("open", "known and full"), ("close", "removed"), ("close", "absent"),
                     ("remember", "known"), ("remember", "stored"),
                     ("room", "network", True, True), ("room", "network", True, False),
                     ("room", "network", False, True), ("room", "network", False, False),
                     ("room", "oldest", 0), ("room", "oldest", 1), ("room", "none"),
                     ("expire", "some"), ("expire_open", "some")]:
            self.assertGreaterEqual(seen[kind], 10, kind)
        for call in ("expire", "expire_open"):
            for period in (10800, 1, 60, 86400):
                self.assertGreaterEqual(seen[call, period, "one second before"], 1)
                self.assertGreaterEqual(seen[call, period, "at the period"], 1)
            self.assertGreaterEqual(seen[call, 10800, "one second before"], 10)
            self.assertGreaterEqual(seen[call, 10800, "at the period"], 10)
            self.assertGreaterEqual(seen[call, 0, "at the period"], 1)


if __name__ == "__main__":
    unittest.main()
