"""A model of the stores in docs/STORES.md.

Store             a store: slots, total, cost function, and the held segments
                  by slot and number.
berths(), pool()  the two stores of the library.
answer(...)       the answer to one line of the file of store calls.

A store here is its meaning alone. The model has no places and no blocks.
"""

from dataclasses import dataclass
from typing import Optional

MOST_NUMBER = 63
MOST_OCTETS = 256        # message and area octets together
BLOCK_OCTETS = 32        # octets in a block of the pool

SHORT_MEMORY = 1
NO_PLACE = 4
TOO_MANY_OCTETS = 7
NO_ROOM = 11
NOT_HELD_OR_TAKEN = 17


@dataclass(frozen=True)
class Segment:
    """The part of a segment that a store knows. An absent area is None."""
    message: bytes
    area: Optional[bytes] = None

    def octets(self):
        return self.message + (self.area or b"")

    def count(self):
        return len(self.message) + len(self.area or b"")


class Refused(Exception):
    """A refused call. `refusal` is its number and values."""

    def __init__(self, *refusal):
        super().__init__(*refusal)
        self.refusal = refusal


class Store:
    """The calls of docs/STORES.md. Each makes its checks in their order,
    before any change."""

    def __init__(self, slots, total, cost):
        self.slot_count = slots
        self.total_units = total
        self.cost_of = cost      # units for each octet count from 0 to 256
        self.segments = {}       # (slot, number): segment

    # Checks

    def check_place(self, slot, number=0):
        if slot >= self.slot_count:
            raise Refused(NO_PLACE, slot)
        if number > MOST_NUMBER:
            raise Refused(NO_PLACE, number)

    def check_count(self, count):
        if count > MOST_OCTETS:
            raise Refused(TOO_MANY_OCTETS, count)

    def held_at(self, slot, number):
        if (slot, number) not in self.segments:
            raise Refused(NOT_HELD_OR_TAKEN)
        return self.segments[slot, number]

    # Changes

    def put(self, slot, number, segment):
        self.check_place(slot, number)
        self.check_count(segment.count())
        if (slot, number) in self.segments:
            raise Refused(NOT_HELD_OR_TAKEN)
        cost = self.cost_of(segment.count())
        free = self.total_units - self.held()
        if cost > free:
            raise Refused(NO_ROOM, cost, free)
        self.segments[slot, number] = segment

    def drop(self, slot):
        self.check_place(slot)
        self.segments = {place: segment for place, segment in self.segments.items()
                         if place[0] != slot}

    def drop_all(self):
        self.segments = {}

    # Questions

    def slots(self):
        return self.slot_count

    def total(self):
        return self.total_units

    def cost(self, count):
        self.check_count(count)
        return self.cost_of(count)

    def held(self):
        return sum(self.cost_of(segment.count()) for segment in self.segments.values())

    def held_in(self, slot):
        self.check_place(slot)
        return sum(self.cost_of(segment.count()) for place, segment in self.segments.items()
                   if place[0] == slot)

    def has(self, slot, number):
        self.check_place(slot, number)
        return (slot, number) in self.segments

    def lengths(self, slot, number):
        """Message length and area length. The latter is None if absent."""
        self.check_place(slot, number)
        segment = self.held_at(slot, number)
        return len(segment.message), None if segment.area is None else len(segment.area)

    def equals(self, slot, number, segment):
        self.check_place(slot, number)
        return self.held_at(slot, number) == segment

    def copy(self, slot, number, memory):
        """Copies the octets to the start of `memory`, a bytearray."""
        self.check_place(slot, number)
        octets = self.held_at(slot, number).octets()
        if len(memory) < len(octets):
            raise Refused(SHORT_MEMORY, len(memory))
        memory[:len(octets)] = octets


def berths():
    return Store(slots=3, total=192, cost=lambda count: 1)


def pool():
    """The cost of n octets is n / 32, rounded up, and at least 1."""
    return Store(slots=9, total=512, cost=lambda count: max(1, -(-count // BLOCK_OCTETS)))


# The lines of the case files

MEMORY_OCTET = 238       # each octet of a memory before copying out


def pattern(seed, count):
    return bytes((seed + 7 * place + place // 32) % 256 for place in range(count))


def given_segment(message_length, area_length, seed):
    """The segment of the fields `M A SEED`."""
    area = None
    if area_length != "-":
        area = pattern(int(seed) + 100, int(area_length))
    return Segment(pattern(int(seed), int(message_length)), area)


def memory_sum(memory):
    return sum((place % 251 + 1) * octet for place, octet in enumerate(memory))


def fields_of_answer(store, call, given):
    """The fields after `ok`."""
    if call in ("put", "equals"):
        slot, number, *segment = given
        result = getattr(store, call)(int(slot), int(number), given_segment(*segment))
    elif call == "copy":
        slot, number, length = map(int, given)
        memory = bytearray([MEMORY_OCTET] * length)
        store.copy(slot, number, memory)
        result = memory_sum(memory)
    else:
        result = getattr(store, call)(*map(int, given))
    if result is None:
        return []
    if isinstance(result, bool):
        return ["yes" if result else "no"]
    if isinstance(result, tuple):
        return ["-" if length is None else length for length in result]
    return [result]


def new_stores():
    return {"berths": berths(), "pool": pool()}


def answer(stores, line):
    """Makes the call of this line and gives the line of its answer."""
    name, call, *given = line.split(" ")
    try:
        fields = ["ok"] + fields_of_answer(stores[name], call, given)
    except Refused as refused:
        fields = ["refused", *refused.refusal]
    return " ".join(str(field) for field in fields)
