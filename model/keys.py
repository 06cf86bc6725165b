"""A model of the lists of keys in docs/KEYS.md.

KeyList      a list of any kind of key, with the operations of the document.
OpenList     the pairs of open warnings, at most 8.
Remembered   the remembered primaries, at most 12, with the rule for room.
answer(...)  the answer to one line of the file of calls on lists of keys.
"""

from typing import NamedTuple

MOST_OPEN = 8
MOST_REMEMBERED = 12
MOST_OF_NETWORK = 2


class Pair(NamedTuple):
    identifier: int
    serial: int


class Network(NamedTuple):
    mcc: int
    digits: int
    mnc: int


class Primary(NamedTuple):
    """The key of a remembered primary."""
    network: Network
    pair: Pair


class Entry(NamedTuple):
    key: tuple
    clock: int


class KeyList:
    """Entries in age order, the oldest first."""

    def __init__(self):
        self.entries = []

    def find(self, key):
        """The place of the key, or None."""
        for place, entry in enumerate(self.entries):
            if entry.key == key:
                return place
        return None

    def store(self, key, clock):
        assert self.find(key) is None
        self.entries.append(Entry(key, clock))

    def renew(self, key, clock):
        self.remove(key)
        self.store(key, clock)

    def remove(self, key):
        del self.entries[self.find(key)]

    def expire(self, clock, period):
        """Removes all entries of this age or more. Answers how many went."""
        before = len(self.entries)
        self.entries = [entry for entry in self.entries if clock - entry.clock < period]
        return before - len(self.entries)

    def clear(self):
        count = len(self.entries)
        self.entries = []
        return count


class OpenList(KeyList):
    def open(self, pair, clock):
        if self.find(pair) is not None:
            return "known"
        if len(self.entries) >= MOST_OPEN:
            return "full"
        self.store(pair, clock)
        return "stored"

    def close(self, pair):
        if self.find(pair) is None:
            return "absent"
        self.remove(pair)
        return "removed"


class Remembered(KeyList):
    def leaving(self, network):
        """The entry that makes room for a new key of this network, or None."""
        same = [entry for entry in self.entries if entry.key.network == network]
        if len(same) >= MOST_OF_NETWORK:
            return same[0]
        if len(self.entries) >= MOST_REMEMBERED:
            return self.entries[0]
        return None

    def remember(self, primary, clock):
        if self.find(primary) is not None:
            self.renew(primary, clock)
            return "known"
        leaving = self.leaving(primary.network)
        if leaving is not None:
            self.remove(leaving.key)
        self.store(primary, clock)
        return "stored"


# The lines of the case files

def pair_text(pair):
    return f"{pair.identifier}/{pair.serial}"


def primary_text(primary):
    network = primary.network
    return f"{network.mcc}-{network.digits}-{network.mnc}:{pair_text(primary.pair)}"


def list_text(entries, key_text):
    return " ".join([str(len(entries))]
                    + [f"{key_text(entry.key)}@{entry.clock}" for entry in entries])


class Lists:
    """The two lists that the program holds."""

    def __init__(self):
        self.open = OpenList()
        self.remembered = Remembered()


def answer(lists, line):
    """Makes the call of this line and gives the line of its answer."""
    call, *given = line.split(" ")
    given = [int(field) for field in given]
    if call == "open":
        identifier, serial, clock = given
        return lists.open.open(Pair(identifier, serial), clock)
    if call == "close":
        return lists.open.close(Pair(*given))
    if call == "expire_open":
        return str(lists.open.expire(*given))
    if call == "clear_open":
        return str(lists.open.clear())
    if call == "list_open":
        return list_text(lists.open.entries, pair_text)
    if call == "remember":
        *network, identifier, serial, clock = given
        return lists.remembered.remember(
            Primary(Network(*network), Pair(identifier, serial)), clock)
    if call == "expire":
        return str(lists.remembered.expire(*given))
    if call == "list":
        return list_text(lists.remembered.entries, primary_text)
    raise AssertionError(call)
