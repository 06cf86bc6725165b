"""A model of the outlets in docs/OUTLETS.md.

Outlet          an outlet: total, cost function, and the list of warnings that
                it holds, the oldest first.
rack(), tape()  the two outlets of the library.
answer(...)     the answer to one line of the file of outlet calls.

An outlet here is its meaning alone. The model has no places, and its tape
outlet keeps no tape: the octets that it lends are written when asked for.
"""

from dataclasses import dataclass
from typing import Optional

from store import MEMORY_OCTET, Refused, memory_sum, pattern
from tape import MOST_OCTETS, SECURITY_OCTETS, Message, Primary, encode

LARGEST_NUMBER = 2 ** 64 - 1
BUFFER_OCTETS = MOST_OCTETS      # the least that a take needs

SHORT_BUFFER = 1
WRONG_BLOCK = 3
AREA_IN_BLOCK_11 = 6
TOO_MANY_OCTETS = 7
NO_ROOM = 12
WRONG_SECURITY = 15
NOTHING_HELD = 16


# Shapes

@dataclass(frozen=True)
class PrimaryShape:
    """`security` is the length of the security information, None if absent."""
    security: Optional[int]


@dataclass(frozen=True)
class MessageShape:
    """`message` and `area` are lengths. An absent area is None."""
    block: int
    message: int
    area: Optional[int]


def length_of(part):
    return None if part is None else len(part)


def shape_of(warning):
    if isinstance(warning, Primary):
        return PrimaryShape(length_of(warning.security))
    return MessageShape(warning.block, len(warning.message), length_of(warning.area))


def check(shape):
    """The checks of 'What is no warning', in their order."""
    if isinstance(shape, PrimaryShape):
        if shape.security not in (None, SECURITY_OCTETS):
            raise Refused(WRONG_SECURITY, shape.security)
    else:
        if shape.block not in (11, 12, 8):
            raise Refused(WRONG_BLOCK, shape.block)
        if shape.block == 11 and shape.area is not None:
            raise Refused(AREA_IN_BLOCK_11)
        count = shape.message + (shape.area or 0)
        if count > MOST_OCTETS:
            raise Refused(TOO_MANY_OCTETS, min(count, LARGEST_NUMBER))


# Warnings

def without_octets(warning):
    """The kind and the parts of a warning without its octets. Of the security
    information it has the length, or None if absent."""
    if isinstance(warning, Primary):
        return ("primary", warning.identifier, warning.serial, warning.type,
                length_of(warning.security))
    return ("message", warning.block, warning.identifier, warning.serial, warning.coding,
            len(warning.message), length_of(warning.area))


def octets_of(warning):
    """What a take copies to the buffer."""
    if isinstance(warning, Primary):
        return warning.security or b""
    return warning.message + (warning.area or b"")


# Outlets

class Outlet:
    """The calls of docs/OUTLETS.md. Each makes its checks in their order,
    before any change."""

    def __init__(self, total, cost):
        self.total = total
        self.cost_of = cost      # units for each shape of a warning
        self.warnings = []       # the oldest first

    # Changes

    def give(self, warning):
        cost = self.cost(shape_of(warning))
        free = self.free()
        if cost > free:
            raise Refused(NO_ROOM, cost, free)
        self.warnings.append(warning)

    def take(self, buffer):
        """Copies the octets to the start of `buffer`, a bytearray."""
        if len(buffer) < BUFFER_OCTETS:
            raise Refused(SHORT_BUFFER, len(buffer))
        if not self.warnings:
            raise Refused(NOTHING_HELD)
        warning = self.warnings.pop(0)
        octets = octets_of(warning)
        buffer[:len(octets)] = octets
        return without_octets(warning)

    # Questions

    def first(self):
        """None if nothing is held."""
        return without_octets(self.warnings[0]) if self.warnings else None

    def free(self):
        return self.total - sum(self.cost_of(shape_of(warning)) for warning in self.warnings)

    def cost(self, shape):
        check(shape)
        return self.cost_of(shape)


class TapeOutlet(Outlet):
    def octets(self):
        """The tape that the outlet lends."""
        return encode(self.warnings)


def rack():
    return Outlet(total=3, cost=lambda shape: 1)


def tape_cost(shape):
    """The number of octets that writing takes."""
    if isinstance(shape, PrimaryShape):
        return 58
    return 12 + 34 * -(-shape.message // 32) + 34 * -(-(shape.area or 0) // 32)


def tape():
    return TapeOutlet(total=32768, cost=tape_cost)


# The lines of the case files

def given_length(field):
    return None if field == "-" else int(field)


def given_part(field, seed):
    """The octets of a part with this length, None if absent."""
    return None if field == "-" else pattern(seed, int(field))


def given_warning(kind, *fields):
    """The value of the fields after `give`. It can be no warning."""
    if kind == "primary":
        identifier, serial, number, length, seed = fields
        return Primary(int(identifier), int(serial), int(number), given_part(length, int(seed)))
    block, identifier, serial, coding, length, area_length, seed = fields
    return Message(int(block), int(identifier), int(serial), int(coding),
                   given_part(length, int(seed)), given_part(area_length, int(seed) + 100))


def given_shape(kind, *fields):
    """The shape of the fields after `cost`."""
    if kind == "primary":
        return PrimaryShape(*map(given_length, fields))
    return MessageShape(*map(given_length, fields))


def fields_of_answer(outlet, call, given):
    """The fields after `ok`. None is printed as `-`."""
    if call == "give":
        outlet.give(given_warning(*given))
        return []
    if call == "take":
        buffer = bytearray([MEMORY_OCTET] * int(given[0]))
        parts = outlet.take(buffer)
        return [*parts, memory_sum(buffer)]
    if call == "first":
        return outlet.first() or [None]
    if call == "free":
        return [outlet.free()]
    if call == "cost":
        return [outlet.cost(given_shape(*given))]
    if call == "octets":
        octets = outlet.octets()
        return [len(octets), memory_sum(octets)]
    raise AssertionError(call)


def new_outlets():
    return {"rack": rack(), "tape": tape()}


def answer(outlets, line):
    """Makes the call of this line and gives the line of its answer."""
    name, call, *given = line.split(" ")
    try:
        fields = ["ok", *fields_of_answer(outlets[name], call, given)]
    except Refused as refused:
        fields = ["refused", *refused.refusal]
    return " ".join("-" if field is None else str(field) for field in fields)
