"""Makes calls on both outlets and the answers that belong to them.

    python3 model/outlet_cases.py CALLS ANSWERS

CALLS gets one call to a line, ANSWERS the line of the answer to each call.
README.md has the format of both. The output is the same on every run.
"""

from calls import Calls, write_files
from outlet import LARGEST_NUMBER, answer, new_outlets
from tape_cases import Source

SEED = 20234

OUTLETS = ["rack", "tape"]
BLOCKS = [12, 8, 11]
OTHER_BLOCKS = [0, 7, 9, 10, 13, 255]
LENGTHS = [0, 1, 31, 32, 33, 63, 64, 65, 255, 256]
BUFFERS = [16384, 16384, 16385, 16400]
SHORT_BUFFERS = [0, 1, 50, 8192, 9999]

# A call is large when it gives, lends or buffers more octets than this. So an
# accepted take always is. The number of large calls is kept low.
LARGE = 10000

# Shapes: (N,) is a primary and (BLOCK, M, A) a message, with the fields of the
# case files.

SMALL_SHAPES = [("-",), (50,), (11, 0, "-"), (12, 0, "-"), (12, 0, 0), (8, 5, 0), (8, 32, "-"),
                (11, 33, "-"), (12, 0, 32), (8, 0, 33), (12, 32, 33), (8, 33, 32)]

# 16,384 octets together.
LARGEST_SHAPES = [(12, 1, 16383), (11, 16384, "-"), (8, 16384, 0), (12, 0, 16384), (8, 8192, 8192),
                  (12, 16383, 1)]

# No warnings, with few octets.
SMALL_FAULTS = [(length,) for length in (0, 1, 49, 51, 100, 306)] + [
    (block, length, area) for block in OTHER_BLOCKS for length, area in ((5, "-"), (0, 0))] + [
    (11, 0, 0), (11, 5, 0), (11, 0, 1), (11, 32, 33), (10, 3, 4), (75, 0, "-"), (139, 1, "-")]

# No warnings, with many octets. Several checks can fail at once.
LARGE_FAULTS = [(12, 16385, "-"), (8, 0, 16385), (12, 16384, 1), (8, 1, 16384), (11, 16385, "-"),
                (11, 16384, 1), (10, 16384, 1)]


class Run(Calls):
    """Makes calls on the model and keeps their lines and answers."""

    def __init__(self, source):
        super().__init__(source, new_outlets(), answer)

    def give(self, name, shape):
        """Gives something of this shape. All else is random."""
        source = self.source
        pair = (source.number(), source.number())
        if len(shape) == 1:
            self.ask(name, "give", "primary", *pair, source.number(), *shape, source.below(256))
        else:
            block, length, area = shape
            self.ask(name, "give", "message", block, *pair, source.below(256), length, area,
                     source.below(256))

    def cost(self, name, shape):
        self.ask(name, "cost", "primary" if len(shape) == 1 else "message", *shape)

    def take(self, name):
        self.ask(name, "take", self.source.pick(BUFFERS))

    def held(self, name):
        return len(self.model[name].warnings)

    def free(self, name):
        return self.model[name].free()

    def state(self, name):
        """What is first, what is free, and the tape unless it is long."""
        self.ask(name, "first")
        self.ask(name, "free")
        if name == "tape" and 32768 - self.free("tape") <= LARGE:
            self.ask("tape", "octets")


# Calls in a fixed order

def costs(run):
    """Costs of shapes at the edges, and of what is no warning."""
    shapes = [(length,) for length in (
        "-", 0, 1, 49, 50, 51, 100, 255, 256, 306, 65535, 65536, 65586, 2 ** 32 + 50,
        2 ** 63 + 50, LARGEST_NUMBER)]
    # Each length of one part.
    for length in range(68):
        shapes.append((BLOCKS[length % 3], length, "-"))
        shapes.append((BLOCKS[length % 2], 0, length))
    # Both parts, cut separately.
    for length in (1, 31, 32, 33, 64):
        for area in (0, 1, 31, 32, 33, 64):
            shapes.append((BLOCKS[area % 2], length, area))
    # Around 16,384 octets.
    for block in BLOCKS:
        for length in (16352, 16353, 16383, 16384, 16385):
            shapes.append((block, length, "-"))
    for place, length in enumerate((0, 1, 31, 32, 33, 8192, 16352, 16383, 16384)):
        for count in (16383, 16384, 16385):
            if length <= count:
                shapes.append((BLOCKS[place % 2], length, count - length))
    for shape in shapes:
        for name in OUTLETS:
            run.cost(name, shape)
    # Each block, in turn with an absent and with a present area.
    for block in range(256):
        run.cost(OUTLETS[block % 2], (block, 5, (3, "-", "-", 0)[block % 4]))
    for block in BLOCKS + OTHER_BLOCKS:
        for area in ("-", 0, 40):
            for name in OUTLETS:
                run.cost(name, (block, 40, area))


def far_costs(run):
    """Costs of lengths whose sum passes 16, 32 or 64 bits, and orders of the
    checks."""
    most = LARGEST_NUMBER
    lengths = [(most, "-"), (most, 0), (most, 1), (1, most), (0, most), (most, most),
               (most - 1, 1), (most - 1, 2), (most - 16384, 16384), (most - 16383, 16384),
               (most - 16383, 16383), (16384, most - 16383), (2 ** 63, 2 ** 63),
               (2 ** 63, 2 ** 63 - 1), (2 ** 63 - 1, 2 ** 63 + 5), (2 ** 63, "-"),
               (2 ** 32, "-"), (2 ** 32 + 5, 3), (5, 2 ** 32), (2 ** 32 - 1, 1),
               (65536, "-"), (65568, 0), (1, 65536), (65535, 1), (32768, 32768)]
    for place, (length, area) in enumerate(lengths):
        for turn, name in enumerate(OUTLETS):
            run.cost(name, (BLOCKS[(place + turn) % 2], length, area))
    for name in OUTLETS:
        for block in OTHER_BLOCKS[:5]:
            for length, area in ((16385, "-"), (most, most)):
                run.cost(name, (block, length, area))
        for length, area in ((0, 0), (0, 1), (16384, 0), (16384, 1), (0, 16385), (16385, 0),
                             (0, most), (most, most), (16385, "-"), (most, "-"), (65536, "-")):
            run.cost(name, (11, length, area))


def empty_outlets(run):
    """Questions and takes where nothing is held."""
    for name in OUTLETS:
        run.state(name)
        for length in SHORT_BUFFERS + [16383, 16384, 16400]:
            run.ask(name, "take", length)
        run.state(name)


def no_warnings(run):
    """Gives of what is no warning."""
    for name in OUTLETS:
        for shape in SMALL_FAULTS:
            run.give(name, shape)
        run.state(name)
        for shape in LARGE_FAULTS:
            run.give(name, shape)
        run.state(name)
    # Lengths that would be right if only 16 bits of them counted.
    run.give("rack", (8, 1, 65536))
    run.give("rack", (12, 35000, 35000))
    run.give("tape", (12, 70000, "-"))
    run.give("tape", (65586,))
    for name in OUTLETS:
        run.state(name)


def largest(run):
    """Messages of 16,384 octets."""
    for shapes, lengths in ((LARGEST_SHAPES[:3], (0, 16383, 16384, 70000, 16400)),
                            (LARGEST_SHAPES[3:], (16385, 16384, 16384))):
        for shape in shapes:
            run.give("rack", shape)
            run.state("rack")
        run.give("rack", (11, 0, "-"))
        for length in lengths:
            run.ask("rack", "take", length)
            run.state("rack")
    # On tape there is room for one and something less.
    for turn, shape in enumerate(LARGEST_SHAPES):
        run.give("tape", shape)
        run.state("tape")
        if turn == 0:
            run.ask("tape", "octets")
            run.give("tape", LARGEST_SHAPES[0])
            run.ask("tape", "take", 0)
            run.state("tape")
        if turn % 2 == 0:
            run.give("tape", SMALL_SHAPES[turn])
        run.ask("tape", "take", (16384, 16400, 16384, 16385, 70000, 16384)[turn])
        run.state("tape")
        if turn % 2 == 0:
            run.take("tape")
            run.state("tape")


# Walks. Each yields between calls, so that walks on the two outlets can be
# mixed.

def tiny_shape(source):
    """The shape of a warning that takes at most 114 octets on tape."""
    if source.below(3) == 0:
        return source.pick([("-",), (50,)])
    return shape_with(source, source.below(4))


def random_shape(source):
    """The shape of a warning with few octets."""
    if source.below(3) == 0:
        return source.pick([("-",), (50,)])
    block = source.pick(BLOCKS)
    area = "-"
    if block != 11:
        area = source.pick(["-", 0] + LENGTHS + [source.below(300)])
    return block, source.pick(LENGTHS + [source.below(300)]), area


def shape_with(source, commands):
    """The shape of a message with this many data commands."""
    block = source.pick(BLOCKS)
    in_area = 0 if block == 11 else source.pick([0, 1, commands // 2, source.below(commands + 1)])
    in_area = min(in_area, commands)
    length, area = [count and 32 * count - source.pick([0, 31, source.below(32)])
                    for count in (commands - in_area, in_area)]
    if block == 11 or (area == 0 and source.below(2)):
        area = "-"
    return block, length, area


def edge(run, name):
    """A call that changes nothing."""
    source = run.source
    kind = source.below(5)
    if kind == 0:
        run.ask(name, "take", source.pick(SHORT_BUFFERS))
    elif kind == 1:
        run.cost(name, source.pick([random_shape(source), shape_with(source, source.below(512))]))
    elif kind == 2:
        run.cost(name, source.pick(SMALL_FAULTS + LARGE_FAULTS))
    else:
        run.give(name, source.pick(SMALL_FAULTS))


def full(run, name):
    """Calls on an outlet in which no warning has room."""
    source = run.source
    for shape in (source.pick([("-",), (50,)]), (source.pick(BLOCKS), 0, "-"), (8, 0, 0),
                  random_shape(source), (49,), (source.pick(OTHER_BLOCKS), 0, "-"), (11, 0, 0),
                  source.pick(SMALL_FAULTS)):
        run.give(name, shape)
        yield
    run.cost(name, random_shape(source))
    run.ask(name, "take", source.pick(SHORT_BUFFERS))
    run.state(name)
    yield


# Numbers held by the rack, one after another. Each number comes up with each
# place as that of the oldest warning.
LEVELS = [1, 0, 1, 0, 2, 0, 3, 1, 3, 2, 3, 0, 2, 1, 3, 2, 3, 1, 3, 2, 3, 2, 3, 1, 3, 0, 3, 2, 3,
          1]


def rack_walk(run):
    """Gives and takes, up and down to these numbers held."""
    source = run.source
    shapes = list(SMALL_SHAPES)
    run.ask("rack", "take", 16384)
    for turn, level in enumerate(LEVELS):
        while run.held("rack") != level:
            if run.held("rack") > level:
                run.take("rack")
            else:
                if not shapes:
                    shapes.append(source.pick([random_shape(source), tiny_shape(source),
                                               shape_with(source, source.below(300))]))
                run.give("rack", shapes.pop(0))
            run.state("rack")
            yield
            if source.below(2):
                edge(run, "rack")
                yield
        if level == 3 and turn % 4 == 0:
            yield from full(run, "rack")
        elif level == 3:
            run.give("rack", random_shape(source))
            yield


def small_entries(run):
    """A short tape, seen after each change, until it is empty again."""
    source = run.source
    shapes = list(SMALL_SHAPES)
    while shapes or run.held("tape"):
        if shapes and run.held("tape") < 1 + source.below(5):
            run.give("tape", shapes.pop(0))
        else:
            run.take("tape")
        run.state("tape")
        yield
        if source.below(2):
            edge(run, "tape")
            yield
    run.ask("tape", "take", 0)
    run.ask("tape", "take", 16384)


def exact(free):
    """The fewest entries that take exactly this many octets: the count of
    primaries, of messages, and of data commands in these. From 172 octets on
    each even number has such entries."""
    for entries in range(40):
        for primaries in range(entries + 1):
            messages = entries - primaries
            rest = free - 58 * primaries - 12 * messages
            if rest == 0 or (rest > 0 and rest % 34 == 0 and messages > 0):
                return primaries, messages, rest // 34
    raise AssertionError(free)


def fill_tape(run, leave=0):
    """Gives until exactly this many octets of the tape are free."""
    source = run.source
    primaries, messages, commands = exact(run.free("tape") - leave)
    shapes = [source.pick([("-",), (50,)]) for _ in range(primaries)]
    for left in range(messages, 0, -1):
        part = commands // left
        commands -= part
        shapes.append(shape_with(source, part))
    while shapes:
        shape = shapes.pop(source.below(len(shapes)))
        if not shapes and leave == 0:
            # One data command more than fits.
            if len(shape) == 1:
                run.give("tape", (12, 33, "-"))
            else:
                run.give("tape", (shape[0], shape[1] + 32, shape[2]))
            yield
        run.give("tape", shape)
        run.ask("tape", "free")
        yield


def last_octet(run):
    """Fills the empty tape to its last octet, frees some and fills it again.

    An empty message and four others with 962 data commands in all take
    12 + 4 * 12 + 962 * 34 = 32,768 octets."""
    source = run.source
    run.give("tape", (12, 0, "-"))
    for commands in (240, 241, 240, 241):
        # One data command more than fits, before the last one.
        if run.held("tape") == 4:
            run.give("tape", (8, 32 * 242, "-"))
        run.give("tape", shape_with(source, commands))
        run.state("tape")
        yield
    run.ask("tape", "octets")
    yield from full(run, "tape")
    # The rest of 32,756 octets moves. Then 12 octets are free.
    run.take("tape")
    run.state("tape")
    run.ask("tape", "octets")
    for shape in (("-",), (50,), (11, 1, "-"), (8, 0, 0), (8, 0, 0)):
        run.give("tape", shape)
        run.ask("tape", "free")
        yield
    # 240 data commands and 12 octets are free. Entries with 239 and two of
    # 12 octets leave 10.
    run.take("tape")
    run.state("tape")
    for shape in ((12, 32 * 240, 1), (8, 32 * 240 + 1, "-"), (12, 32 * 238, 32), ("-",),
                  (8, 1, "-"), (12, 0, 1), (11, 0, "-"), (12, 0, 0), (50,), (11, 0, "-"),
                  (12, 0, 0)):
        run.give("tape", shape)
        run.ask("tape", "free")
        yield
    run.ask("tape", "octets")
    run.ask("tape", "take", 16383)
    run.take("tape")
    run.state("tape")
    yield from fill_tape(run)
    yield from full(run, "tape")


def middle_entries(run, takes):
    """Entries of some thousand octets. Each take is followed by gives until
    one is refused."""
    source = run.source
    for _ in range(takes):
        run.take("tape")
        run.state("tape")
        yield
        while True:
            shape = shape_with(source, 20 + source.below(230))
            run.give("tape", shape)
            refused = run.answers[-1] != "ok"
            run.state("tape")
            yield
            if refused:
                break
        edge(run, "tape")
        yield


def many_entries(run):
    """Short entries until the tape is full, four times."""
    source = run.source
    # Octets left free, and what is given then. The first needs 2 more.
    ends = [(56, [(50,), (12, 0, 1)]), (44, [(11, 32, "-"), (8, 0, 0), (12, 0, "-"), (11, 0, "-")]),
            (78, [(12, 1, 1), ("-",), (8, 0, 0)]), (0, [])]
    for leave, shapes in ends:
        while run.free("tape") < 1000:
            run.take("tape")
            run.state("tape")
            yield
        while run.free("tape") > 400:
            run.give("tape", tiny_shape(source))
            run.ask("tape", "free")
            if source.below(8) == 0:
                edge(run, "tape")
            yield
        yield from fill_tape(run, leave)
        for shape in shapes:
            run.give("tape", shape)
            run.state("tape")
            yield
        run.ask("tape", "octets")
        yield from full(run, "tape")


def tape_walk(run):
    yield from small_entries(run)
    yield from last_octet(run)
    yield from middle_entries(run, 4)
    yield from many_entries(run)


def mixed_walks(run):
    """The two walks, mixed at random until both are over."""
    walks = [tape_walk(run), rack_walk(run)]
    while walks:
        walk = walks[-1] if run.source.below(10) < 3 else walks[0]
        if next(walk, "over") == "over":
            walks.remove(walk)


def costs_again(run):
    """The same costs after all changes. The tape is full now."""
    for name in OUTLETS:
        for shape in SMALL_SHAPES + LARGEST_SHAPES + SMALL_FAULTS[:8] + LARGE_FAULTS:
            run.cost(name, shape)
        run.state(name)


def all_cases():
    """The lines of the calls and those of the answers."""
    run = Run(Source(SEED))
    costs(run)
    far_costs(run)
    empty_outlets(run)
    no_warnings(run)
    largest(run)
    mixed_walks(run)
    costs_again(run)
    return run.calls, run.answers


if __name__ == "__main__":
    write_files(all_cases)
