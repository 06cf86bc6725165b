"""Makes calls on the two lists of keys and the answers that belong to them.

    python3 model/keys_cases.py CALLS ANSWERS

CALLS gets one call to a line, ANSWERS the line of the answer to each call.
README.md has the format of both. The output is the same on every run.
"""

from calls import Calls, write_files
from keys import Lists, Network, Pair, answer
from tape_cases import Source

SEED = 20233

PERIOD = 10800
PERIODS = [0, 1, 60, 86400]
LAST_CLOCK = 2 ** 32 - 1

# Networks that differ in one part only, next to each other.
NETWORKS = [Network(262, 2, 1), Network(262, 3, 1), Network(262, 2, 2), Network(263, 2, 1),
            Network(262, 3, 10), Network(262, 2, 10), Network(0, 2, 0), Network(0, 3, 0),
            Network(999, 3, 999), Network(999, 2, 99), Network(999, 3, 99), Network(1, 2, 0),
            Network(262, 3, 2), Network(263, 3, 1), Network(0, 2, 1), Network(310, 3, 260)]

# Pairs that differ in one part only, next to each other.
PAIRS = [Pair(4352, 1), Pair(4352, 2), Pair(4353, 1), Pair(4353, 2), Pair(1, 4352),
         Pair(4352, 257), Pair(0, 0), Pair(0, 65535), Pair(65535, 0), Pair(65535, 65535),
         Pair(4352, 0), Pair(2, 1)]


class Run(Calls):
    """Makes calls on the model and keeps their lines and answers. The clock
    of the calls never falls."""

    def __init__(self, source):
        super().__init__(source, Lists(), answer)
        self.clock = 0

    def at(self, clock):
        """Sets the clock."""
        assert self.clock <= clock <= LAST_CLOCK
        self.clock = clock

    def after(self, seconds):
        self.at(min(self.clock + seconds, LAST_CLOCK))

    def open(self, pair):
        self.ask("open", *pair, self.clock)

    def close(self, pair):
        self.ask("close", *pair)

    def remember(self, network, pair):
        self.ask("remember", *network, *pair, self.clock)

    def expire(self, period=PERIOD):
        self.ask("expire", self.clock, period)

    def expire_open(self, period=PERIOD):
        self.ask("expire_open", self.clock, period)

    def expire_both(self, period=PERIOD):
        self.expire(period)
        self.expire_open(period)

    def show(self):
        self.ask("list")
        self.ask("list_open")

    def clear(self):
        """Empties both lists. The clock stays."""
        self.expire(0)
        self.ask("clear_open")


# Calls in a fixed order

def empty_lists(run):
    run.show()
    for period in [PERIOD] + PERIODS:
        run.expire_both(period)
    run.ask("clear_open")
    run.close(PAIRS[0])
    run.show()


def open_list(run):
    """Storing, finding, removing, a full list."""
    for pair in PAIRS[:8]:
        run.open(pair)
        run.ask("list_open")
        run.after(run.source.pick([0, 0, 1, 5]))
    for pair in PAIRS:
        run.open(pair)          # 8 are known, the others find a full list
    run.ask("list_open")
    # Remove in the middle, at the start, at the end, and what is absent.
    for place in (3, 0, 7, 3, 9):
        run.close(PAIRS[place])
        run.ask("list_open")
    # Parts exchanged, or one part only.
    for pair in (Pair(1, 4353), Pair(4353, 3), Pair(4354, 1), Pair(4353, 1)):
        run.close(pair)
    for pair in (PAIRS[0], PAIRS[7], PAIRS[0], PAIRS[3], PAIRS[2], PAIRS[9], PAIRS[10]):
        run.open(pair)
    run.ask("list_open")
    run.ask("clear_open")
    run.ask("list_open")
    run.ask("clear_open")
    # A known pair keeps its place and its clock.
    run.open(PAIRS[0])
    run.after(10)
    run.open(PAIRS[1])
    run.after(10)
    run.open(PAIRS[0])
    run.ask("list_open")
    run.after(PERIOD - 20)
    run.expire_open()
    run.ask("list_open")
    run.clear()


def expiry(run):
    """One second before the period, at the period, one second after."""
    for period in [PERIOD] + PERIODS:
        for early in (1, 0, -1):
            if period < early:
                continue
            run.remember(NETWORKS[0], PAIRS[0])
            run.open(PAIRS[0])
            run.remember(NETWORKS[0], PAIRS[1])
            run.open(PAIRS[1])
            run.after(1)
            run.remember(NETWORKS[1], PAIRS[0])
            run.open(PAIRS[2])
            run.after(max(0, period - early - 1))
            run.expire_both(period)
            run.show()
            run.expire_both(period)
            run.after(1)
            run.expire_both(period)
            run.show()
            run.clear()
    # Each of 12 and of 8 entries by itself.
    for place in range(12):
        run.remember(NETWORKS[place], PAIRS[0])
        if place < 8:
            run.open(PAIRS[place])
        run.after(1)
    run.after(PERIOD - 13)
    for _ in range(14):
        run.expire_both()
        run.ask("list")
        run.after(1)
    run.clear()
    # All stored at one clock: none goes, then all go.
    for place in range(12):
        run.remember(NETWORKS[place], PAIRS[place])
        run.open(PAIRS[place])
    run.after(PERIOD - 1)
    run.expire_both()
    run.show()
    run.after(1)
    run.expire_both()
    run.show()
    # A renewed entry is as old as its renewal.
    for place in range(3):
        run.remember(NETWORKS[place], PAIRS[0])
    run.after(5000)
    run.remember(NETWORKS[1], PAIRS[0])
    run.after(PERIOD - 5000)
    run.expire()
    run.ask("list")
    run.after(4999)
    run.expire()
    run.after(1)
    run.expire()
    run.ask("list")


def networks(run):
    """Two pairs of each network; which of them goes."""
    first, second, third, fourth = PAIRS[:4]
    for place in range(0, 14, 2):
        network, near = NETWORKS[place], NETWORKS[place + 1]
        run.clear()
        run.remember(network, first)
        run.remember(near, first)
        run.remember(network, second)
        run.remember(near, first)
        run.ask("list")
        run.after(run.source.pick([0, 1]))
        run.remember(network, third)        # first goes
        run.ask("list")
        run.remember(network, second)       # known, now the newest
        run.remember(network, fourth)       # third goes
        run.remember(network, third)        # second goes
        run.ask("list")
        run.remember(near, fourth)
        run.remember(near, fourth)
        run.remember(near, first)
        run.remember(near, third)           # fourth goes
        run.ask("list")


def twelve(run):
    """A list with 12 entries."""
    first, second, third, fourth = PAIRS[:4]

    def six_networks():
        """Two pairs of each of six networks."""
        run.clear()
        for pair in (first, second):
            for network in NETWORKS[:6]:
                run.remember(network, pair)
                run.after(run.source.pick([0, 0, 1, 3]))
        run.ask("list")

    def twelve_networks():
        """One pair of each of twelve networks."""
        run.clear()
        for network in NETWORKS[:12]:
            run.remember(network, first)
            run.after(run.source.pick([0, 0, 1, 3]))
        run.ask("list")

    # The older of the network's two pairs, wherever it stands.
    for place in range(6):
        six_networks()
        run.remember(NETWORKS[place], third)
        run.ask("list")
        run.remember(NETWORKS[place], fourth)
        run.ask("list")
    # Renewed first, so that the other one is the older.
    for place in (0, 3, 5):
        six_networks()
        run.remember(NETWORKS[place], first)
        run.remember(NETWORKS[place], third)
        run.ask("list")
    # A network that has no entry: the oldest of all, one after another.
    six_networks()
    for place in range(6, 16):
        run.remember(NETWORKS[place], first)
        run.ask("list")
    # A network that has one entry: the oldest of all too, even its own.
    for place in (0, 1, 7, 11):
        twelve_networks()
        run.remember(NETWORKS[place], second)
        run.ask("list")
        run.remember(NETWORKS[place], third)
        run.ask("list")
    # Renewing all 12 removes nothing and gives the order of renewal.
    twelve_networks()
    for place in (5, 11, 0, 1, 1, 10, 2, 9, 3, 8, 4, 7, 6):
        run.remember(NETWORKS[place], first)
    run.ask("list")
    run.remember(NETWORKS[12], first)
    run.ask("list")
    # Room by expiry, then nothing goes.
    six_networks()
    run.after(60)
    run.remember(NETWORKS[2], first)
    run.expire(60)
    run.ask("list")
    run.remember(NETWORKS[0], third)
    run.remember(NETWORKS[2], third)
    run.remember(NETWORKS[2], fourth)
    run.ask("list")
    run.clear()


# Random walks

def pass_time(run, most):
    """Sets the clock on: not at all, a little, or to a place near the expiry
    of some entry."""
    source = run.source
    kind = source.below(8)
    if kind < 3:
        return
    if kind < 6:
        run.after(source.below(most + 1))
        return
    entries = run.model.remembered.entries + run.model.open.entries
    if entries:
        clock = source.pick(entries).clock + PERIOD - source.below(2)
        if run.clock <= clock <= run.clock + 3 * most:
            run.at(clock)


def expire_some(run):
    source = run.source
    if source.below(7):
        period = PERIOD
    else:
        period = source.pick(PERIODS + [LAST_CLOCK])
        # Period 0 empties the list, so it comes less often.
        if period == 0 and source.below(3):
            period = PERIOD
    if source.below(3):
        run.expire(period)
    if source.below(3):
        run.expire_open(period)


def walk(run, steps, networks, pairs, most):
    """Calls at random on these networks and pairs. The clock goes on by
    `most` seconds or less at a time."""
    source = run.source
    remembered = run.model.remembered
    for _ in range(steps):
        kind = source.below(24)
        if kind < 9:
            before = len(remembered.entries)
            run.remember(source.pick(networks), source.pick(pairs))
            if len(remembered.entries) == before and source.below(3) == 0:
                run.ask("list")
        elif kind < 11:
            if remembered.entries:
                primary = source.pick(remembered.entries).key
                run.remember(primary.network, primary.pair)
        elif kind < 16:
            run.open(source.pick(pairs))
        elif kind == 16:
            entries = run.model.open.entries
            if entries and source.below(3):
                run.close(source.pick(entries).key)
            else:
                run.close(source.pick(pairs))
        elif kind < 20:
            pass_time(run, most)
            expire_some(run)
        elif kind == 20:
            run.ask("list")
        elif kind == 21:
            run.ask("list_open")
        elif kind == 22 and source.below(4) == 0:
            run.ask("clear_open")
        pass_time(run, most // 10)


def late_clocks(run):
    """The last clocks below 2 to the power 32."""
    # Entries that are old when the clock jumps: they go.
    run.at(2 ** 31 - 1)
    for place in range(3):
        run.remember(NETWORKS[place], PAIRS[place])
        run.open(PAIRS[place])
        run.after(1)
    run.expire_both()
    run.show()
    run.at(LAST_CLOCK - 3 * PERIOD)
    run.expire_both()
    run.show()
    walk(run, 150, NETWORKS[:7], PAIRS[:6], 600)
    run.at(max(run.clock, LAST_CLOCK - PERIOD - 2))
    run.clear()
    # The clock plus the period passes 2 to the power 32.
    for place in range(4):
        run.remember(NETWORKS[place], PAIRS[place])
        run.open(PAIRS[place])
        run.after(1)
    run.expire_both()
    run.at(LAST_CLOCK - 1)
    for place in range(4, 8):
        run.remember(NETWORKS[place], PAIRS[place])
        run.open(PAIRS[place])
    for period in (86400, LAST_CLOCK, PERIOD):
        run.expire_both(period)
        run.show()
    # The last clock of all, repeated.
    run.at(LAST_CLOCK)
    run.expire_both()
    run.show()
    for period in (PERIOD, 86400, 60, 1):
        run.remember(NETWORKS[8], PAIRS[0])
        run.open(PAIRS[9])
        run.expire_both(period)
        run.show()
    walk(run, 120, NETWORKS[:14], PAIRS[:4], 0)
    run.show()
    run.expire_both(0)
    run.show()


def all_cases():
    """The lines of the calls and those of the answers."""
    run = Run(Source(SEED))
    empty_lists(run)
    open_list(run)
    expiry(run)
    networks(run)
    twelve(run)
    walk(run, 350, NETWORKS[:3], PAIRS[:5], 900)
    walk(run, 350, NETWORKS[:7], PAIRS[:4], 300)
    walk(run, 350, NETWORKS, PAIRS, 300)
    walk(run, 250, NETWORKS, PAIRS[:2], 40)
    walk(run, 300, NETWORKS[:8], PAIRS, 3000)
    late_clocks(run)
    return run.calls, run.answers


if __name__ == "__main__":
    write_files(all_cases)
