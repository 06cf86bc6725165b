"""Makes calls on both stores and the answers that belong to them.

    python3 model/store_cases.py CALLS ANSWERS

CALLS gets one call to a line, ANSWERS the line of the answer to each call.
README.md has the format of both. The output is the same on every run.
"""

from calls import Calls, write_files
from store import MOST_NUMBER, answer, new_stores
from tape_cases import Source

SEED = 20232

STORES = ["berths", "pool"]
SLOTS = [0, 1, 2, 3, 7, 8, 9, 255]
FAR_SLOTS = [256, 257, 65536, 4294967295]
NUMBERS = [0, 63, 64, 255]
COUNTS = [0, 1, 31, 32, 33, 63, 64, 65, 255, 256]
LARGE_COUNTS = [258, 288, 511, 512, 513, 65535, 65536, 65537, 65792]

# Splits of more than 256 octets into message and area.
TOO_MANY = [(257, "-"), (257, 0), (0, 257), (256, 1), (1, 256), (128, 129), (255, 2), (256, 256),
            (65536, "-"), (1, 65536), (65792, 0)]


class Run(Calls):
    """Makes calls on the model and keeps their lines and answers."""

    def __init__(self, source):
        super().__init__(source, new_stores(), answer)

    def seed(self):
        return self.source.below(256)

    def free(self, name):
        return self.model[name].total() - self.model[name].held()

    def octet_count(self, name, slot, number):
        """Octets of the segment held at this place, 0 if none is."""
        segment = self.model[name].segments.get((slot, number))
        return 0 if segment is None else segment.count()

    def units(self, name):
        """Units held, of all and of each slot."""
        self.ask(name, "held")
        for slot in range(self.model[name].slots()):
            self.ask(name, "held_in", slot)

    def copy_around(self, name, slot, number):
        """Copies out into memory one shorter, exact, one and 40 longer."""
        count = self.octet_count(name, slot, number)
        for length in (count - 1, count, count + 1, count + 40):
            if length >= 0:
                self.ask(name, "copy", slot, number, length)

    def copy_all(self, name):
        """Copies out everything that is held."""
        for slot, number in sorted(self.model[name].segments):
            self.ask(name, "copy", slot, number, self.octet_count(name, slot, number))


# Calls in a fixed order

def constants(run):
    """Costs of all octet counts, and beyond; slots and total."""
    for name in STORES:
        run.ask(name, "slots")
        run.ask(name, "total")
    for count in list(range(258)) + LARGE_COUNTS + [4294967295]:
        for name in STORES:
            run.ask(name, "cost", count)


def empty_stores(run):
    """Questions and drops where nothing is held."""
    for name in STORES:
        last = run.model[name].slots() - 1
        run.units(name)
        for slot, number in ((0, 0), (last, MOST_NUMBER)):
            run.ask(name, "has", slot, number)
            run.ask(name, "lengths", slot, number)
            run.ask(name, "equals", slot, number, 0, "-", run.seed())
            run.ask(name, "copy", slot, number, 0)
        run.ask(name, "drop", 0)
        run.ask(name, "drop", last)
        run.ask(name, "drop_all")
        run.ask(name, "held")


def places(run):
    """Slots and numbers at their edges in every call that has them."""
    def all_calls(name, slot, number):
        seed = run.seed()
        run.ask(name, "put", slot, number, 3, 2, seed)
        run.ask(name, "has", slot, number)
        run.ask(name, "lengths", slot, number)
        run.ask(name, "equals", slot, number, 3, 2, seed)
        run.ask(name, "copy", slot, number, 5)

    for slot in (0, 2, 3, 8, 9, 255):
        for number in NUMBERS:
            for name in STORES:
                all_calls(name, slot, number)
    for place, slot in enumerate(FAR_SLOTS):
        for name in STORES:
            all_calls(name, slot, NUMBERS[place])
    for slot in SLOTS + FAR_SLOTS:
        for name in STORES:
            run.ask(name, "held_in", slot)
    # The neighbours of a place that is held.
    for name in STORES:
        for slot, number in ((0, 1), (0, 62), (1, 0), (1, 63), (2, 62)):
            run.ask(name, "has", slot, number)
    for slot in [3, 9, 255, 256, 65536, 4294967295, 1, 2, 0, 0, 8, 7]:
        for name in STORES:
            run.ask(name, "drop", slot)
            run.ask(name, "held")
            run.ask(name, "has", 0, 63)


def octet_counts(run):
    """Octet counts at their edges, in several splits."""
    turn = 0
    for count in COUNTS:
        half = count // 2
        splits = [(count, "-"), (count, 0), (0, count), (half, count - half)]
        if count > 1:
            splits.append((count - 1, 1))
        for length, area in splits:
            name = STORES[turn % 2]
            slot = turn % run.model[name].slots()
            number = turn % 64
            seed = run.seed()
            turn += 1
            run.ask(name, "put", slot, number, length, area, seed)
            run.ask(name, "held_in", slot)
            run.ask(name, "lengths", slot, number)
            run.copy_around(name, slot, number)
            run.ask(name, "equals", slot, number, length, area, seed)
            run.ask(name, "put", slot, number, length, area, seed)
            if turn % 5 == 0:
                run.ask(name, "drop", slot)
                run.ask(name, "held")
    for length, area in TOO_MANY:
        for name in STORES:
            run.ask(name, "put", 1, 50, length, area, run.seed())
    for name in STORES:
        run.ask(name, "has", 1, 50)
        run.units(name)
        run.ask(name, "drop_all")
        run.units(name)


def equality(run):
    """Comparison with the octets held and with others close to them."""
    def others(length, area, seed):
        """Fields of segments that are equal or nearly so."""
        present = 0 if area == "-" else area
        count = length + present
        yield length, area, seed
        if present == 0:
            yield length, 0 if area == "-" else "-", seed
        yield length, area, (seed + 1) % 256
        yield length, area, (seed + 255) % 256
        yield length + 1, area, seed
        yield length, present + 1, seed
        if length > 0:
            yield length - 1, area, seed
            yield length - 1, present + 1, seed
            yield 0, count, seed
            yield 0, count, (seed + 156) % 256
        if present > 0:
            yield length, present - 1, seed
            yield length, "-", seed
            yield length + 1, present - 1, seed
            for other in (seed, (seed + 100) % 256):
                yield count, "-", other
                yield count, 0, other
        yield length + 256, area, seed
        yield length, present + 256, seed

    held = [(0, "-"), (0, 0), (1, "-"), (1, 0), (0, 1), (1, 1), (5, 3), (0, 33), (33, "-"),
            (32, 32), (256, "-"), (0, 256), (128, 128)]
    for number, (length, area) in enumerate(held):
        name = STORES[number % 2]
        slot = number % 3
        seed = run.seed()
        run.ask(name, "put", slot, number, length, area, seed)
        for given in others(length, area, seed):
            run.ask(name, "equals", slot, number, *given)
    # The same octets, divided between message and area in another way. The
    # message pattern of seed + 100 is the area pattern of seed.
    for name in STORES:
        for number, count in ((40, 1), (42, 32), (44, 256)):
            run.ask(name, "put", 1, number, 0, count, 7)
            run.ask(name, "put", 1, number + 1, count, 0, 107)
            for place in (number, number + 1):
                run.ask(name, "copy", 1, place, count)
                for given in ((0, count, 7), (count, 0, 107), (count, "-", 107)):
                    run.ask(name, "equals", 1, place, *given)
        for length, area in ((257, "-"), (0, 257), (256, 1), (65536, "-"), (256, 65536)):
            run.ask(name, "equals", 1, 45, length, area, 107)
        run.ask(name, "copy", 1, 45, 65536)
        run.ask(name, "drop_all")
        run.ask(name, "held")


def complete_warning(run):
    """One slot of the pool takes 64 segments of 256 octets."""
    for number in range(64):
        run.ask("pool", "put", 4, number, 256 - number, number, run.seed())
        run.ask("pool", "held")
    run.units("pool")
    run.ask("berths", "put", 1, 20, 200, 56, 9)
    run.ask("berths", "put", 0, 63, 0, "-", 9)


def orders(run):
    """Several checks fail at once. In the pool, slot 4 is full and nothing is
    free; the other slots are empty. In the berths, (1, 20) is held."""
    full = {"pool": (4, 20), "berths": (1, 20)}
    for name in STORES:
        slot, number = full[name]
        beyond = run.model[name].slots()
        seed = run.seed()
        # Slot, number, octets.
        for bad_slot, bad_number, length, area in (
                (beyond, 64, 257, "-"), (beyond, 64, 1, "-"), (beyond, number, 257, 0),
                (beyond, number, 256, "-"), (slot, 64, 257, "-"), (slot, 64, 256, "-"),
                (255, 255, 300, 300), (0, 255, 300, 300), (beyond + 1, 20, 1, 1), (64, 64, 1, 1),
                (255, 254, 1, 1), (254, 255, 1, 1)):
            run.ask(name, "put", bad_slot, bad_number, length, area, seed)
            run.ask(name, "equals", bad_slot, bad_number, length, area, seed)
            run.ask(name, "has", bad_slot, bad_number)
            run.ask(name, "lengths", bad_slot, bad_number)
            run.ask(name, "copy", bad_slot, bad_number, 0)
        # Octets, held, room.
        for length, area in ((257, "-"), (256, 1), (256, "-"), (0, "-"), (0, 0), (200, 56),
                             (0, 257)):
            run.ask(name, "put", slot, number, length, area, seed)
            run.ask(name, "equals", slot, number, length, area, seed)
        run.ask(name, "lengths", slot, number)
        # Not held, with memory that is short for any segment.
        for length in (0, 1, 300):
            run.ask(name, "copy", 0, 20, length)
        run.ask(name, "equals", 0, 20, 300, "-", seed)
        run.ask(name, "copy", slot, number, 0)
        run.ask(name, "copy", slot, number, 255)
        run.ask(name, "copy", slot, number, 256)
    for length, area in ((0, "-"), (0, 0), (1, "-"), (32, "-"), (33, "-"), (256, "-"), (257, "-"),
                         (16, 17), (0, 256), (0, 257)):
        run.ask("pool", "put", 0, 20, length, area, run.seed())
        run.ask("pool", "held")
    run.ask("pool", "drop", 3)
    run.ask("pool", "held")
    run.ask("pool", "drop", 4)
    run.ask("pool", "held")
    run.ask("pool", "has", 4, 20)


# Random walks. Each yields between calls, so that walks on the two stores can
# be mixed.

def random_split(source, count):
    """A split of this octet count into message and area."""
    return source.pick([(count, "-"), (count, "-"), (count, 0), (0, count)]
                       + [(count - part, part) for part in (source.below(count + 1),
                                                            source.below(count + 1))])


def question(run, name, slot, number):
    """A question about a place, or about units."""
    source = run.source
    count = run.octet_count(name, slot, number)
    kind = source.below(8)
    if kind == 0:
        run.ask(name, "held")
    elif kind == 1:
        run.ask(name, "held_in", slot)
    elif kind == 2:
        run.ask(name, "has", slot, number)
    elif kind == 3:
        run.ask(name, "lengths", slot, number)
    elif kind == 4:
        segment = run.model[name].segments.get((slot, number))
        if segment is None or source.below(4) == 0:
            run.ask(name, "equals", slot, number, *random_split(source, count), run.seed())
        else:
            # The seed is the first octet of the message, the area's is 100 more.
            octets = segment.octets() or bytes([run.seed()])
            seed = octets[0] if segment.message else (octets[0] + 156) % 256
            area = "-" if segment.area is None else len(segment.area)
            run.ask(name, "equals", slot, number, len(segment.message), area, seed)
    else:
        length = max(0, count + source.pick([0, 0, 0, 1, -1, 33]))
        run.ask(name, "copy", slot, number, length)


def edge(run, name):
    """A call with values at the edges, often refused."""
    source = run.source
    slot = source.pick(SLOTS)
    number = source.pick(NUMBERS + [source.below(64), source.below(64)])
    kind = source.below(8)
    if kind == 0:
        run.ask(name, "held_in", slot)
    elif kind == 1:
        run.ask(name, "has", slot, number)
    elif kind == 2:
        run.ask(name, "lengths", slot, number)
    elif kind == 3:
        count = source.pick(COUNTS + [257])
        run.ask(name, "equals", slot, number, *random_split(source, count), run.seed())
    elif kind == 4:
        run.ask(name, "copy", slot, number, source.pick(COUNTS))
    elif kind == 5:
        run.ask(name, "put", slot, number, *source.pick(TOO_MANY[:8]), run.seed())
    elif kind == 6:
        run.ask(name, "put", source.pick([9, 255]), number, 1, "-", run.seed())
    else:
        run.ask(name, "drop", source.pick([9, 10, 255, 256]))


def some_held(run, name):
    return run.source.pick(sorted(run.model[name].segments))


def fill(run, name, slots, counts):
    """Puts segments into these slots until no unit is free. `counts` is a
    function that gives an octet count."""
    source = run.source
    store = run.model[name]
    while run.free(name) > 0:
        slot = source.pick(slots)
        numbers = [number for number in range(64) if (slot, number) not in store.segments]
        taken = (slot, source.below(64))
        if taken in store.segments and source.below(8) == 0:
            run.ask(name, "put", *taken, *random_split(source, counts()), run.seed())
            yield
        if not numbers:
            slots = [other for other in slots if other != slot]
            continue
        number = source.pick(numbers)
        count = counts()
        if store.cost(count) > run.free(name):
            run.ask(name, "put", slot, number, *random_split(source, count), run.seed())
            yield
            # What is free exactly, or one unit less, or one octet too many.
            most = 32 * run.free(name)
            count = min(256, source.pick([most, most - 31, most - source.below(32), most + 1,
                                          max(0, most - 32)]))
        run.ask(name, "put", slot, number, *random_split(source, count), run.seed())
        yield
        place = (slot, number) if source.below(3) else some_held(run, name)
        question(run, name, *place)
        if source.below(10) == 0:
            edge(run, name)
        yield


def full(run, name):
    """Calls on a store that has no unit free."""
    source = run.source
    store = run.model[name]
    run.ask(name, "slots")
    run.ask(name, "total")
    run.ask(name, "held")
    free_places = [(slot, number) for slot in range(store.slots()) for number in range(64)
                   if (slot, number) not in store.segments]
    for count in (0, source.pick(COUNTS), 257):
        if free_places:
            place = source.pick(free_places)
            run.ask(name, "put", *place, *random_split(source, count), run.seed())
            run.ask(name, "has", *place)
        run.ask(name, "put", *some_held(run, name), *random_split(source, count), run.seed())
        yield
    for _ in range(6):
        place = some_held(run, name)
        run.ask(name, "copy", *place, run.octet_count(name, *place))
        yield


def drop_some(run, name, count):
    """Drops this many slots one after another. What the others hold stays."""
    source = run.source
    store = run.model[name]
    slots = list(range(store.slots()))
    for _ in range(count):
        slot = source.pick(slots)
        slots.remove(slot)
        before = [number for number in range(64) if (slot, number) in store.segments]
        run.ask(name, "drop", slot)
        run.ask(name, "held")
        number = source.pick(before or [0])
        run.ask(name, *source.pick([("held_in", slot), ("has", slot, number),
                                    ("lengths", slot, number),
                                    ("equals", slot, number, 0, "-", run.seed()),
                                    ("copy", slot, number, source.pick([0, 256]))]))
        yield
        if source.below(4) == 0:
            run.ask(name, "drop", slot)     # now an empty slot
        if store.segments:
            question(run, name, *some_held(run, name))
        yield


def pool_walk(run):
    source = run.source

    def large():
        return source.pick([256, 255, 225, 224, 200 + source.below(57)])

    def mixed():
        return source.pick(COUNTS + [256, 256, 224, 225, source.below(257), source.below(257)])

    def middle():
        return source.pick([96, 97, 128, 129, 160, 192, 193, 64 + source.below(150)])

    every = list(range(9))
    # Slots, octet counts, how many slots are dropped at the end.
    cycles = [(every, mixed, 9), (every, large, 4), (every, middle, 3), (every, mixed, 5),
              (every, large, 0), ([7, 8], large, 1), (every, large, 6), (every, mixed, 3),
              (every, middle, 4), ([0, 4, 8], large, 2), (every, large, 9)]
    for turn, (slots, counts, dropped) in enumerate(cycles):
        yield from fill(run, "pool", slots, counts)
        yield from full(run, "pool")
        if turn == 3:
            run.copy_all("pool")
        if dropped == 0:
            run.ask("pool", "drop_all")
            run.units("pool")
        else:
            yield from drop_some(run, "pool", dropped)


def berths_walk(run):
    source = run.source

    def counts():
        return source.pick(COUNTS + [source.below(257)])

    for dropped in (1, 0):
        yield from fill(run, "berths", [0, 1, 2], counts)
        yield from full(run, "berths")
        if dropped == 0:
            run.ask("berths", "drop_all")
            run.units("berths")
        else:
            yield from drop_some(run, "berths", dropped)


def mixed_walks(run):
    """The two walks, mixed at random until both are over."""
    walks = [pool_walk(run), berths_walk(run)]
    while walks:
        walk = walks[-1] if run.source.below(10) < 3 else walks[0]
        if next(walk, "over") == "over":
            walks.remove(walk)


def all_cases():
    """The lines of the calls and those of the answers."""
    run = Run(Source(SEED))
    constants(run)
    empty_stores(run)
    places(run)
    octet_counts(run)
    equality(run)
    complete_warning(run)
    orders(run)
    mixed_walks(run)
    for name in STORES:
        run.ask(name, "drop_all")
        run.ask(name, "held")
    return run.calls, run.answers


if __name__ == "__main__":
    write_files(all_cases)
