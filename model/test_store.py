"""Checks of the model of the stores. Run from the repository's root:

    python3 -m unittest discover -s model
"""

import unittest
from collections import Counter

import store_cases
from store import (Refused, Segment, Store, answer, berths, given_segment, memory_sum, new_stores,
                   pattern, pool)

# Which refusals each call can give, after the table of calls in
# docs/STORES.md. Berths never refuse with 11.
REFUSALS = {
    "put": {4, 7, 11, 17},
    "drop": {4},
    "drop_all": set(),
    "slots": set(),
    "total": set(),
    "cost": {7},
    "held": set(),
    "held_in": {4},
    "has": {4},
    "lengths": {4, 17},
    "equals": {4, 17},
    "copy": {1, 4, 17},
}

CHANGES = ("put", "drop", "drop_all")


def refusal_of(call, *given):
    try:
        call(*given)
    except Refused as refused:
        return refused.refusal
    return None


def free(store):
    return store.total() - store.held()


class HistoryStore:
    """A second judge, after the definition of 'held' for a store by itself in
    docs/TERMS.md: a segment is held when it was put and its slot was not
    dropped since. It keeps the accepted changes and gives whole answers."""

    def __init__(self, slots, total, costs):
        self.slots = slots
        self.total = total
        self.costs = costs       # by octet count
        self.history = []        # ("put", slot, number, fields) or ("drop", slot or None)

    def held(self):
        """The fields `M A SEED` of each held segment, by slot and number."""
        dropped = set()
        held = {}
        for kind, slot, *rest in reversed(self.history):
            if kind == "drop" and slot is None:
                break
            if kind == "drop":
                dropped.add(slot)
            elif slot not in dropped:
                number, fields = rest
                held[slot, number] = fields
        return held

    def units(self, held):
        return sum(self.costs[counts(fields)] for fields in held)

    def answer(self, call, given):
        held = self.held()
        if call in ("slots", "total"):
            return f"ok {getattr(self, call)}"
        if call == "held":
            return f"ok {self.units(held.values())}"
        if call == "drop_all":
            self.history.append(("drop", None))
            return "ok"
        if call == "cost":
            count = int(given[0])
            return f"ok {self.costs[count]}" if count <= 256 else f"refused 7 {count}"
        slot = int(given[0])
        if slot >= self.slots:
            return f"refused 4 {slot}"
        if call == "drop":
            self.history.append(("drop", slot))
            return "ok"
        if call == "held_in":
            return f"ok {self.units(fields for place, fields in held.items() if place[0] == slot)}"
        number = int(given[1])
        if number >= 64:
            return f"refused 4 {number}"
        here = held.get((slot, number))
        if call == "has":
            return "ok no" if here is None else "ok yes"
        fields = tuple(given[2:])
        if call == "put":
            count = counts(fields)
            if count > 256:
                return f"refused 7 {count}"
            if here is not None:
                return "refused 17"
            left = self.total - self.units(held.values())
            if self.costs[count] > left:
                return f"refused 11 {self.costs[count]} {left}"
            self.history.append(("put", slot, number, fields))
            return "ok"
        if here is None:
            return "refused 17"
        if call == "lengths":
            return f"ok {here[0]} {here[1]}"
        if call == "equals":
            return "ok yes" if same(here, fields) else "ok no"
        if call == "copy":
            length = int(given[2])
            if length < counts(here):
                return f"refused 1 {length}"
            memory = (octets_of(here) + [238] * length)[:length]
            return f"ok {sum((place % 251 + 1) * memory[place] for place in range(length))}"
        raise AssertionError(call)


def counts(fields):
    return int(fields[0]) + (0 if fields[1] == "-" else int(fields[1]))


def octets_of(fields):
    """Octets of `M A SEED`: for each the one before it plus 7, and plus 1 more
    at each multiple of 32."""
    octets = []
    for length, seed in ((fields[0], int(fields[2])), (fields[1], int(fields[2]) + 100)):
        octet = seed % 256
        for place in range(0 if length == "-" else int(length)):
            if place > 0:
                octet = (octet + (8 if place % 32 == 0 else 7)) % 256
            octets.append(octet)
    return octets


def same(one, other):
    """Equality of two segments by their fields. Patterns of the same length
    differ in every octet when their seeds differ."""
    if one[:2] != other[:2]:
        return False
    return counts(one) == 0 or int(one[2]) % 256 == int(other[2]) % 256


class Documents(unittest.TestCase):
    def test_costs_of_pool(self):
        for count, units in ((0, 1), (1, 1), (32, 1), (33, 2), (64, 2), (65, 3), (255, 8),
                             (256, 8)):
            self.assertEqual(pool().cost(count), units)

    def test_parameters(self):
        self.assertEqual((berths().slots(), berths().total()), (3, 192))
        self.assertEqual((pool().slots(), pool().total()), (9, 512))
        self.assertEqual({berths().cost(count) for count in range(257)}, {1})

    def test_laws(self):
        for store in (berths(), pool()):
            costs = [store.cost(count) for count in range(257)]
            self.assertGreaterEqual(costs[0], 1)
            self.assertEqual(costs, sorted(costs))
            self.assertLessEqual(64 * costs[256], store.total())
            self.assertIn(store.slots(), range(2, 10))
            self.assertEqual(store.held(), 0)
        self.assertEqual(64 * pool().cost(256), pool().total())

    def test_rounding_once(self):
        """Message and area are counted together."""
        store = pool()
        store.put(0, 0, Segment(bytes(16), bytes(16)))
        self.assertEqual(store.held(), 1)
        store.put(0, 1, Segment(bytes(16), bytes(17)))
        self.assertEqual(store.held(), 3)
        store.put(1, 1, Segment(b"", b""))
        store.put(1, 2, Segment(b""))
        self.assertEqual((store.held(), store.held_in(0), store.held_in(1)), (5, 3, 2))

    def test_complete_warning(self):
        """An otherwise empty store takes every complete warning."""
        for store in (berths(), pool()):
            for slot in range(store.slots()):
                for number in range(64):
                    store.put(slot, number, Segment(bytes(128), bytes(128)))
                self.assertEqual(store.held(), 64 * store.cost(256))
                store.drop(slot)
                self.assertEqual(store.held(), 0)

    def test_order_of_put(self):
        store = pool()
        for number in range(64):
            store.put(1, number, Segment(bytes(256)))
        self.assertEqual(free(store), 0)
        large, small = Segment(bytes(200), bytes(57)), Segment(b"")
        self.assertEqual(refusal_of(store.put, 9, 64, large), (4, 9))
        self.assertEqual(refusal_of(store.put, 8, 64, large), (4, 64))
        self.assertEqual(refusal_of(store.put, 1, 63, large), (7, 257))
        self.assertEqual(refusal_of(store.put, 1, 63, small), (17,))
        self.assertEqual(refusal_of(store.put, 1, 63, Segment(bytes(256))), (17,))
        self.assertEqual(refusal_of(store.put, 2, 63, large), (7, 257))
        self.assertEqual(refusal_of(store.put, 2, 63, small), (11, 1, 0))
        self.assertEqual(refusal_of(store.put, 2, 63, Segment(bytes(33))), (11, 2, 0))

    def test_other_parameters(self):
        """A store with two slots that is full with one of them."""
        store = Store(slots=2, total=128, cost=lambda count: 2)
        for number in range(64):
            store.put(0, number, Segment(b""))
        self.assertEqual(refusal_of(store.put, 1, 0, Segment(b"")), (11, 2, 0))
        store.drop(0)
        self.assertIsNone(refusal_of(store.put, 1, 0, Segment(b"")))
        self.assertEqual(refusal_of(store.put, 2, 0, Segment(b"")), (4, 2))

    def test_other_calls(self):
        store = berths()
        self.assertFalse(store.has(2, 63))
        for call in (store.lengths, store.has):
            self.assertEqual(refusal_of(call, 3, 64), (4, 3))
            self.assertEqual(refusal_of(call, 2, 64), (4, 64))
        self.assertEqual(refusal_of(store.lengths, 2, 63), (17,))
        self.assertEqual(refusal_of(store.equals, 2, 63, Segment(bytes(257))), (17,))
        self.assertEqual(refusal_of(store.equals, 2, 64, Segment(bytes(257))), (4, 64))
        self.assertEqual(refusal_of(store.copy, 2, 63, bytearray()), (17,))
        self.assertEqual(refusal_of(store.copy, 3, 63, bytearray()), (4, 3))
        self.assertEqual(refusal_of(store.cost, 257), (7, 257))
        self.assertIsNone(refusal_of(store.drop, 2))
        self.assertEqual(refusal_of(store.drop, 3), (4, 3))
        self.assertEqual(refusal_of(store.held_in, 3), (4, 3))

    def test_equality(self):
        store = pool()
        store.put(0, 0, Segment(b"ab", b"c"))
        store.put(0, 1, Segment(b"ab", b""))
        store.put(0, 2, Segment(b"ab"))
        for number, given, equal in (
                (0, Segment(b"ab", b"c"), True), (0, Segment(b"a", b"bc"), False),
                (0, Segment(b"abc"), False), (0, Segment(b"abc", b""), False),
                (0, Segment(b"ab", b"d"), False), (0, Segment(b"ab"), False),
                (1, Segment(b"ab", b""), True), (1, Segment(b"ab"), False),
                (2, Segment(b"ab"), True), (2, Segment(b"ab", b""), False),
                (2, Segment(b"a"), False), (2, Segment(b"abc"), False),
                (2, Segment(b"ab", bytes(255)), False)):
            self.assertEqual(store.equals(0, number, given), equal)

    def test_copy(self):
        store = pool()
        store.put(8, 63, Segment(b"ab", b"c"))
        memory = bytearray(b"\xee" * 5)
        store.copy(8, 63, memory)
        self.assertEqual(memory, b"abc\xee\xee")
        memory = bytearray(b"\xee" * 3)
        store.copy(8, 63, memory)
        self.assertEqual(memory, b"abc")
        memory = bytearray(b"\xee" * 2)
        self.assertEqual(refusal_of(store.copy, 8, 63, memory), (1, 2))
        self.assertEqual(memory, b"\xee\xee")
        store.put(8, 62, Segment(b""))
        self.assertIsNone(refusal_of(store.copy, 8, 62, bytearray()))


class Lines(unittest.TestCase):
    def test_pattern(self):
        self.assertEqual(pattern(250, 3), bytes([250, 1, 8]))
        self.assertEqual(pattern(0, 34)[31:], bytes([217, 225, 232]))
        segment = given_segment("2", "1", "200")
        self.assertEqual(segment, Segment(bytes([200, 207]), bytes([44])))
        self.assertEqual(given_segment("0", "-", "5"), Segment(b""))
        self.assertEqual(given_segment("0", "0", "5"), Segment(b"", b""))

    def test_pattern_against_steps(self):
        for fields in (("256", "-", "0"), ("0", "256", "255"), ("100", "156", "99")):
            self.assertEqual(list(given_segment(*fields).octets()), octets_of(fields))

    def test_sum(self):
        self.assertEqual(memory_sum(b""), 0)
        self.assertEqual(memory_sum(bytes([3, 5])), 13)
        self.assertEqual(memory_sum(bytes(250) + bytes([1, 1])), 252)

    def test_answers(self):
        stores = new_stores()
        for line, expected in (
                ("pool put 8 63 2 1 10", "ok"), ("pool put 8 63 2 1 10", "refused 17"),
                ("berths has 2 63", "ok no"), ("pool has 8 63", "ok yes"),
                ("pool lengths 8 63", "ok 2 1"), ("pool put 8 62 33 - 0", "ok"),
                ("pool lengths 8 62", "ok 33 -"), ("pool held", "ok 3"),
                ("pool held_in 8", "ok 3"), ("pool held_in 7", "ok 0"),
                ("pool copy 8 63 4", f"ok {10 + 2 * 17 + 3 * 110 + 4 * 238}"),
                ("pool copy 8 63 2", "refused 1 2"), ("pool equals 8 63 2 1 10", "ok yes"),
                ("pool equals 8 63 2 1 266", "ok yes"), ("pool equals 8 63 3 - 10", "ok no"),
                ("pool drop 9", "refused 4 9"), ("pool drop 8", "ok"), ("pool held", "ok 0"),
                ("berths slots", "ok 3"), ("berths total", "ok 192"), ("berths cost 256", "ok 1"),
                ("berths cost 257", "refused 7 257"), ("berths drop_all", "ok")):
            self.assertEqual(answer(stores, line), expected)


class Cases(unittest.TestCase):
    @classmethod
    def setUpClass(cls):
        cls.calls, cls.answers = store_cases.all_cases()
        cls.split = [(call.split(" "), reply.split(" "))
                     for call, reply in zip(cls.calls, cls.answers)]

    def test_size(self):
        self.assertEqual(len(self.calls), len(self.answers))
        self.assertIn(len(self.calls), range(3500, 5000))

    def test_same_on_each_run(self):
        self.assertEqual(store_cases.all_cases(), (self.calls, self.answers))

    def test_refusals(self):
        """Every refusal in every call that can give it, and no other."""
        seen = Counter((call[0], call[1], int(reply[1])) for call, reply in self.split
                       if reply[0] == "refused")
        expected = {(name, call, number) for name in ("berths", "pool")
                    for call, numbers in REFUSALS.items() for number in numbers}
        expected.remove(("berths", "put", 11))
        self.assertEqual(set(seen), expected)
        self.assertGreaterEqual(min(seen.values()), 3)
        accepted = {(call[0], call[1]) for call, reply in self.split if reply[0] == "ok"}
        self.assertEqual(accepted, {(name, call) for name in ("berths", "pool")
                                    for call in REFUSALS})

    def test_values_of_refusals(self):
        values = {1: 1, 4: 1, 7: 1, 11: 2, 17: 0}
        for call, reply in self.split:
            if reply[0] == "refused":
                self.assertEqual(len(reply) - 2, values[int(reply[1])])
        # 4 with the slot and 4 with the number, in every call with both.
        for name in ("berths", "pool"):
            for kind in ("put", "has", "lengths", "equals", "copy"):
                given = [(int(call[2]), int(call[3]), int(reply[2])) for call, reply in self.split
                         if call[:2] == [name, kind] and reply[:2] == ["refused", "4"]]
                slots = new_stores()[name].slots()
                for number in (64, 255):
                    self.assertTrue(any(slot < slots and value == number
                                        for slot, _, value in given))
                for beyond in (slots, 255):
                    self.assertTrue(any(value == beyond for _, _, value in given))
                self.assertTrue(any(slot >= slots and number > 63 and slot != number
                                    and value == slot for slot, number, value in given))

    def test_judges_agree(self):
        judges = {"berths": HistoryStore(3, 192, [1] * 257),
                  "pool": HistoryStore(9, 512, [1] + [units for units in range(1, 9)
                                                      for _ in range(32)])}
        for call, reply in self.split:
            self.assertEqual(judges[call[0]].answer(call[1], call[2:]), " ".join(reply))

    def test_states(self):
        """Units held stay within the total. What is refused or only asked
        changes nothing. Each store is filled to its last unit and emptied."""
        stores = new_stores()
        full = Counter()
        empty = Counter()
        for line, expected in zip(self.calls, self.answers):
            name, call = line.split(" ")[:2]
            store = stores[name]
            before = dict(store.segments)
            units = store.held()
            reply = answer(stores, line)
            self.assertEqual(reply, expected)
            self.assertLessEqual(store.held(), store.total())
            self.assertEqual(store.held(), sum(store.held_in(slot)
                                               for slot in range(store.slots())))
            if reply.startswith("refused") or call not in CHANGES:
                self.assertEqual(store.segments, before)
            if store.held() == store.total() > units:
                full[name] += 1
            if store.held() == 0 < units:
                empty[name] += 1
        self.assertGreaterEqual(full["pool"], 10)
        self.assertGreaterEqual(full["berths"], 2)
        self.assertGreaterEqual(empty["pool"], 5)
        self.assertGreaterEqual(empty["berths"], 3)
        for store in stores.values():
            self.assertEqual(store.held(), 0)

    def test_edges(self):
        """What the calls must contain."""
        calls = set(self.calls)
        for name in ("berths", "pool"):
            for count in range(258):
                self.assertIn(f"{name} cost {count}", calls)
        put = [(call, reply) for call, reply in self.split if call[1] == "put"]
        for name in ("berths", "pool"):
            sums = {counts(call[4:]) for call, reply in put
                    if call[0] == name and reply == ["ok"]}
            self.assertLessEqual({0, 1, 31, 32, 33, 255, 256}, sums)
            for area in ("-", "0"):
                self.assertTrue(any(call[0] == name and call[4:6] == ["0", area]
                                    and reply == ["ok"] for call, reply in put))
        # A cost of one unit with none free, and of more units than are free.
        room = {tuple(reply[2:]) for call, reply in put if reply[:2] == ["refused", "11"]}
        self.assertIn(("1", "0"), room)
        self.assertTrue(any(int(free_units) > 0 for _, free_units in room))

    def test_comparisons(self):
        """Both answers of equals, and differences of each kind."""
        stores = new_stores()
        kinds = set()
        for line, reply in zip(self.calls, self.answers):
            name, call, *given = line.split(" ")
            if call == "equals" and reply.startswith("ok"):
                held = stores[name].segments[int(given[0]), int(given[1])]
                other = given_segment(*given[2:])
                self.assertEqual(reply == "ok yes", held == other)
                if held == other:
                    kinds.add((name, "equal"))
                elif other.count() > 256:
                    kinds.add((name, "too many"))
                elif held.octets() == other.octets() and held.message == other.message:
                    kinds.add((name, "presence"))
                elif held.octets() == other.octets():
                    kinds.add((name, "division"))
                elif held.count() == other.count() == 1:
                    kinds.add((name, "one octet"))
                elif abs(len(held.message) - len(other.message)) == 1:
                    kinds.add((name, "message length"))
            answer(stores, line)
        self.assertEqual(kinds, {(name, kind) for name in ("berths", "pool")
                                 for kind in ("equal", "too many", "presence", "division",
                                              "one octet", "message length")})


if __name__ == "__main__":
    unittest.main()
