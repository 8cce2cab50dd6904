#!/usr/bin/env python3
"""A model of the inserters, and a maker of tables to rehearse them with.

    rehearsal.py answer < stdin > stdout
        prints the answers to a table, which are what the program rehearsal has
        to print
    rehearsal.py extend < old-stdin > new-stdin
        prints the old table, which should have no lines for the sets d, e
        and f, followed by new lines for these

Both print to stderr how often each rule was carried out in each set and how
many bytes each channel holds.  Every run makes the same output.

A line of a table is the letter of a set, a blank, and one of
    XYZ HH   a look: HostClk, HostAck and nReverseRequest (H or L), a byte
    drop     the cable is dropped
    ask      what do the channels hold?
"""

import copy
import random
import sys
from collections import Counter, namedtuple

CHANNELS = 8                # channels above these keep nothing
LAST_CHANNEL = 127          # where a reading starts
ADDRESS = 128               # command bytes from here on are addresses
ASKED = [0, 1, 2, 3, 4, 5, 6, 7, 8, 127]
REST = 0                    # the "rule" of a look that changes nothing
RULES = [1, 2, 3, 4, 5, 6, 7, REST]

Cell = namedtuple("Cell", "byte data")
Look = namedtuple("Look", "host_clk host_ack n_reverse_request byte")
Record = namedtuple("Record", "channel byte")


# ---------------------------------------------------------------- the model


class Lanes:
    """Eight equal stretches of bytes, one for each channel."""

    delay = 0

    def __init__(self, size, fill):
        self.memory = [fill] * size
        self.stretch = size // CHANNELS
        self.lengths = [0] * CHANNELS

    def length(self, channel):
        return self.lengths[channel]

    def free(self, channel):
        return self.stretch - self.lengths[channel]

    def byte(self, channel, place):
        if place >= self.lengths[channel]:
            return None
        return self.memory[channel * self.stretch + place]

    def add(self, channel, byte):
        place = channel * self.stretch + self.lengths[channel]
        self.memory[place] = byte
        self.lengths[channel] += 1


class Pool:
    """Records in the order of arrival, shared by all channels."""

    delay = 2

    def __init__(self, size, fill):
        self.memory = [fill] * size
        self.used = 0

    def of(self, channel):
        return [record.byte for record in self.memory[:self.used]
                if record.channel == channel]

    def length(self, channel):
        return len(self.of(channel))

    def free(self, channel):
        return len(self.memory) - self.used

    def byte(self, channel, place):
        bytes_held = self.of(channel)
        return bytes_held[place] if place < len(bytes_held) else None

    def add(self, channel, byte):
        self.memory[self.used] = Record(channel, byte)
        self.used += 1


class Inserter:
    """The far end of the cable, over a store of bytes."""

    def __init__(self, store, offers):
        self.store = store
        self.offers = list(offers)
        self.carried_out = Counter()
        self.renew()

    def renew(self):
        """All that a new inserter and a dropped one have in common."""
        self.channel = LAST_CHANNEL
        self.count = None
        self.shown = None
        self.reverse = False
        self.periph_clk = True
        self.periph_ack = False
        self.n_ack_reverse = True
        self.patience = self.store.delay

    # -- what can be done with it

    def look(self, look):
        """Carries out the rule for a look, and answers its number."""
        rule = self.rule(look)
        self.carried_out[rule] += 1
        self.carry_out(rule, look)
        return rule

    def drop(self):
        self.renew()

    def lines(self):
        """PeriphClk, PeriphAck, nAckReverse, nPeriphRequest, Xflag."""
        return (self.periph_clk, self.periph_ack, self.n_ack_reverse,
                not self.offers, True)

    def shown_byte(self):
        return 0 if self.shown is None else self.shown.byte

    def length(self, channel):
        return self.store.length(channel) if channel < CHANNELS else 0

    def free(self, channel):
        return self.store.free(channel) if channel < CHANNELS else 0

    def byte(self, channel, place):
        if channel >= CHANNELS:
            return None
        return self.store.byte(channel, place)

    # -- which rule applies

    def rule(self, look):
        """The first rule that applies to a look."""
        return self.reverse_rule(look) if self.reverse \
            else self.forward_rule(look)

    def reverse_rule(self, look):
        if look.n_reverse_request:
            return 1
        if not look.host_ack and self.shown is None and self.offers:
            return 5
        if look.host_ack and not self.periph_clk:
            return 6
        if not look.host_ack and self.shown is not None and self.periph_clk:
            return 7
        return REST

    def forward_rule(self, look):
        if (not look.n_reverse_request and look.host_clk
                and not self.periph_ack):
            return 2
        if not self.fits(cell_of(look)):
            return REST
        if not look.host_clk and not self.periph_ack:
            return 3
        if look.host_clk and self.periph_ack:
            return 4
        return REST

    def fits(self, cell):
        if not cell.data or self.channel >= CHANNELS:
            return True
        return self.repeats() <= self.store.free(self.channel)

    def repeats(self):
        return 1 if self.count is None else self.count + 1

    # -- what a rule does

    def carry_out(self, rule, look):
        if rule == 1:
            self.turn_forward()
        elif rule == 2:
            self.turn_reverse()
        elif rule == 3:
            self.accept_or_wait()
        elif rule == 4:
            self.periph_ack = False
            self.join(cell_of(look))
        elif rule == 5:
            self.show()
        elif rule == 6:
            self.periph_clk = True
        elif rule == 7:
            self.withdraw()

    def turn_forward(self):
        self.reverse = False
        self.n_ack_reverse = True
        self.periph_clk = True
        self.periph_ack = False
        self.shown = None

    def turn_reverse(self):
        self.reverse = True
        self.n_ack_reverse = False

    def accept_or_wait(self):
        if self.patience == 0:
            self.periph_ack = True
            self.patience = self.store.delay
        else:
            self.patience -= 1

    def show(self):
        self.shown = self.offers[0]
        self.periph_ack = self.shown.data
        self.periph_clk = False

    def withdraw(self):
        self.offers.pop(0)
        self.shown = None
        self.periph_ack = False

    def join(self, cell):
        """A cell joins the reading."""
        if cell.data:
            self.keep(cell.byte)
        elif cell.byte >= ADDRESS:
            self.channel = cell.byte - ADDRESS
            self.count = None
        else:
            self.count = cell.byte

    def keep(self, byte):
        if self.channel < CHANNELS:
            for _ in range(self.repeats()):
                self.store.add(self.channel, byte)
        self.count = None


class Patch:
    """An inserter with other numbers for the channels of a lower one."""

    def __init__(self, table, lower):
        self.table = table
        self.lower = lower

    @property
    def carried_out(self):
        return self.lower.carried_out

    @property
    def store(self):
        return self.lower.store

    @property
    def offers(self):
        return self.lower.offers

    def look(self, look):
        return self.lower.look(self.translated(look))

    def translated(self, look):
        channel = look.byte - ADDRESS
        if look.host_ack or not 0 <= channel < CHANNELS:
            return look
        return look._replace(byte=ADDRESS + self.table[channel])

    def drop(self):
        self.lower.drop()

    def lines(self):
        return self.lower.lines()

    def shown_byte(self):
        return self.lower.shown_byte()

    def below(self, channel):
        return self.table[channel] if channel < CHANNELS else channel

    def length(self, channel):
        return self.lower.length(self.below(channel))

    def free(self, channel):
        return self.lower.free(self.below(channel))

    def byte(self, channel, place):
        return self.lower.byte(self.below(channel), place)


def cell_of(look):
    """The cell that a look shows."""
    return Cell(look.byte, look.host_ack)


def held(inserter):
    """How many bytes each channel holds."""
    return [inserter.length(channel) for channel in range(CHANNELS)]


# ----------------------------------------------------------------- the sets


OFFERS = """
    41 03c 85c 7f 79c 42 f2c 21c f0 77 f0c f3 4d 4dc c7c 20 15 0fc 89 c6c
    da e3c 44c 31 fd dfc 9a c5c d0c acc 0ec 53c a7c 35c 6cc 88 20 f7 22 4d
"""
OUTER = [3, 0, 7, 1, 6, 2, 5, 4]
INNER = [5, 2, 0, 4, 1, 7, 3, 6]
SHOWN_RECORDS = 12          # of set e, at the end of the answers


def all_offers():
    """Two hexadecimal digits are a byte; a c after them makes a command."""
    return [Cell(int(word[:2], 16), len(word) == 2)
            for word in OFFERS.split()]


def patched(lower):
    return Patch(OUTER, Patch(INNER, lower))


def all_sets():
    """A new inserter for each letter."""
    def over(store):
        return Inserter(store, all_offers())
    return {
        "a": over(Lanes(8, 1)),
        "b": over(Lanes(32, 2)),
        "c": over(Lanes(1600, 3)),
        "d": over(Pool(24, Record(9, 4))),
        "e": patched(over(Pool(300, Record(9, 5)))),
        "f": patched(over(Lanes(400, 6))),
    }


# -------------------------------------------------------------- the answers


def level(high):
    return "H" if high else "L"


def lines_text(inserter):
    return "".join(level(line) for line in inserter.lines())


def parsed_look(text):
    levels, byte = text.split()
    return Look(*(letter == "H" for letter in levels), int(byte, 16))


def channel_text(inserter, channel):
    length = inserter.length(channel)
    ends = str(inserter.byte(channel, length) is None).lower()
    text = "".join(f"{inserter.byte(channel, place):02X}"
                   for place in range(length))
    return f"{channel}: {length} {inserter.free(channel)} {ends} {text}"


def answers(inserter, text):
    """The lines that answer one line of a table."""
    if text == "ask":
        return [channel_text(inserter, channel) for channel in ASKED]
    if text == "drop":
        inserter.drop()
        return [lines_text(inserter)]
    inserter.look(parsed_look(text))
    return [f"{lines_text(inserter)} {inserter.shown_byte():02X}"]


def records_text(records):
    inner = ", ".join(f"Record {{ channel: {record.channel}, "
                      f"byte: {record.byte} }}" for record in records)
    return f"[{inner}]"


def memory_texts(sets):
    """The lines that end the answers."""
    return [str(sets["a"].store.memory),
            str(sets["b"].store.memory),
            records_text(sets["d"].store.memory),
            records_text(sets["e"].store.memory[:SHOWN_RECORDS]),
            str(sets["f"].store.memory)]


def answer(table):
    """Prints the answers to the lines of a table."""
    sets = all_sets()
    for line in table:
        letter, _, text = line.partition(" ")
        if letter in sets:
            print("\n".join(answers(sets[letter], text)))
        else:
            print("?")
    print("\n".join(memory_texts(sets)))
    for letter, inserter in sets.items():
        report(letter, inserter)


def report(letter, inserter):
    """Tells on stderr what a set has been through."""
    rules = ", ".join(f"{'rest' if rule == REST else rule}: "
                      f"{inserter.carried_out[rule]}" for rule in RULES)
    full = all(inserter.free(channel) == 0 for channel in range(CHANNELS))
    print(f"set {letter}: rules {rules}; bytes held {held(inserter)}; "
          f"{len(inserter.offers)} still on offer; "
          f"{'full' if full else 'not full'}", file=sys.stderr)


# ---------------------------------------------------------------- the hosts


SEED = 1284
TRIES = 5                   # looks at which a host waits for PeriphAck
ODD_BYTES = [0, 1, 2, 3, 4, 5, 6, 7, 0x7F, 0xFF,
             *range(0x80, 0x90)]    # worth more than their even share

# The course of one set: about so many lines in all, of them so many before
# its finale; at most so many bytes kept before its finale, in runs of at most
# so many; at most so many offers fetched; a tour of all channels at first, or
# none.
Plan = namedtuple("Plan", "lines before_finale kept longest fetched tour")

PLANS = {
    "d": Plan(1500, 1000, kept=9, longest=2, fetched=33, tour=False),
    "e": Plan(1500, 1100, kept=250, longest=30, fetched=70, tour=True),
    "f": Plan(1500, 1100, kept=230, longest=30, fetched=38, tour=True),
}


class Dice:
    """Chance, by random() alone: that stays the same in every Python."""

    def __init__(self, seed):
        self.source = random.Random(seed)

    def below(self, bound):
        return int(self.source.random() * bound)

    def between(self, low, high):
        return low + self.below(high - low + 1)

    def pick(self, choices):
        return choices[self.below(len(choices))]

    def level(self):
        return self.below(2) == 1

    def byte(self):
        return self.pick(ODD_BYTES) if self.level() else self.below(256)

    def high_channel(self):
        return self.pick([8, 9, 15, 16, 64, 126, 127,
                          self.between(CHANNELS, LAST_CHANNEL)])

    def shuffled(self, items):
        items = list(items)
        for last in range(len(items) - 1, 0, -1):
            other = self.below(last + 1)
            items[last], items[other] = items[other], items[last]
        return items


class Host:
    """Writes the lines for one set, going by what its inserter answers."""

    def __init__(self, letter, inserter, dice, plan):
        self.letter = letter
        self.inserter = inserter
        self.dice = dice
        self.plan = plan
        self.written = []
        self.since_ask = 0
        self.before_finale = True
        self.break_offs = 0
        self.taken = []         # the cells that joined the reading

    # -- single lines

    def write(self, text):
        self.written.append(f"{self.letter} {text}")
        self.since_ask += 1

    def ask(self):
        self.write("ask")
        self.since_ask = 0

    def ask_if_due(self):
        near_end = len(self.written) > self.plan.lines * 85 // 100
        if self.since_ask >= (15 if near_end else 60):
            self.ask()

    def drop(self):
        self.write("drop")
        self.inserter.drop()
        self.taken.append(Cell(ADDRESS + LAST_CHANNEL, False))
        self.ask_if_due()

    def show(self, look):
        """Shows a look to the inserter."""
        levels = "".join(level(line) for line in look[:3])
        self.write(f"{levels} {look.byte:02X}")
        if self.inserter.look(look) == 4:
            self.taken.append(cell_of(look))
        self.ask_if_due()

    def forward(self, host_clk, cell):
        self.show(Look(host_clk, cell.data, True, cell.byte))

    def backward(self, host_ack):
        """A look at a cell on offer; the byte does not matter."""
        byte = self.dice.pick([0, 0x55, ADDRESS + self.dice.below(CHANNELS)])
        self.show(Look(True, host_ack, False, byte))

    def periph_ack(self):
        return self.inserter.lines()[1]

    def is_reverse(self):
        return not self.inserter.lines()[2]

    # -- how much may be kept and fetched by now

    def by_now(self, whole, lines):
        return whole * len(self.written) // lines

    def may_keep(self):
        """How many bytes more may be kept for now."""
        if not self.before_finale:
            return 128
        limit = self.by_now(self.plan.kept, self.plan.before_finale)
        return max(0, limit - sum(held(self.inserter)))

    def may_fetch(self):
        """How many offers more may be fetched for now."""
        limit = self.by_now(self.plan.fetched, self.plan.lines)
        fetched = len(OFFERS.split()) - len(self.inserter.offers)
        return max(0, limit - fetched)

    def is_timely(self, look):
        """Does a look neither keep nor fetch more than it may?"""
        trial = copy.deepcopy(self.inserter)
        trial.look(look)
        kept = sum(held(trial)) - sum(held(self.inserter))
        fetched = len(self.inserter.offers) - len(trial.offers)
        return ((kept == 0 or kept <= self.may_keep())
                and (fetched == 0 or fetched <= self.may_fetch()))

    # -- the ways of a proper host

    def settle(self):
        """Back to forward, with no cell half sent."""
        if self.is_reverse():
            self.forward(True, Cell(0, False))
        if self.periph_ack():
            self.forward(True, Cell(ADDRESS + LAST_CHANNEL, False))

    def send(self, byte, data):
        """Sends a cell, or gives up when it is not accepted."""
        self.settle()
        cell = Cell(byte, data)
        for _ in range(TRIES):
            if self.periph_ack():
                break
            self.forward(False, cell)
        self.forward(True, cell)

    def address(self, channel):
        self.send(ADDRESS + channel, False)

    def count(self, number):
        self.send(number, False)

    def data(self, byte):
        self.send(byte, True)

    def run(self, byte, repeats):
        """A byte with its count, which one repeat may do without."""
        if repeats > 1 or self.dice.below(4) == 0:
            self.count(repeats - 1)
        self.data(byte)

    def turn_back(self):
        """Asks for the reverse way."""
        self.settle()
        self.backward(self.dice.level())

    # -- things to do

    def captions(self):
        """Runs of bytes to a few channels by turns."""
        channels = [self.dice.below(CHANNELS)
                    for _ in range(self.dice.between(1, 3))]
        if self.dice.below(4) == 0 or self.may_keep() == 0:
            channels.append(self.dice.high_channel())
        for channel in self.dice.shuffled(channels):
            self.address(channel)
            for _ in range(self.dice.between(1, 2)):
                self.caption(channel)

    def caption(self, channel):
        """A run for a channel, as long as it may be by now."""
        if channel >= CHANNELS:
            self.run(self.dice.byte(), self.dice.between(1, 128))
        elif self.may_keep() > 0:
            longest = min(self.dice.pick([1, 4, 8, 8, self.plan.longest]),
                          self.plan.longest, self.may_keep())
            self.run(self.dice.byte(), self.dice.between(1, longest))

    def overreach(self):
        """A run that is too long, then another count for the channel."""
        channel = self.dice.below(CHANNELS)
        free = self.inserter.free(channel)
        if free > 127:
            return
        self.address(channel)
        self.count(self.dice.between(free, min(127, free + 20)))
        self.data(self.dice.byte())
        self.count(self.dice.below(CHANNELS))
        self.caption(channel)

    def fetch(self):
        """Fetches offers, then turns forward."""
        self.turn_back()
        for _ in range(min(self.dice.between(2, 6), self.may_fetch())):
            self.backward(False)        # on show
            self.backward(True)
            self.backward(False)        # withdrawn
        self.backward(True)
        self.settle()

    def glance(self):
        """Looks at an offer and turns forward without fetching it."""
        self.turn_back()
        self.backward(False)
        if self.dice.level():
            self.backward(True)
        self.settle()

    def noise(self):
        """Looks by chance, but for those that would be untimely."""
        for _ in range(self.dice.between(10, 30)):
            look = Look(self.dice.level(), self.dice.level(),
                        self.dice.level(), self.dice.byte())
            if self.is_timely(look):
                self.show(look)

    def forward_noise(self):
        """Looks by chance, nReverseRequest high, mostly HostClk by turns."""
        self.settle()
        for step in range(self.dice.between(8, 20)):
            odd = step % 4 == 3
            look = Look(odd != (self.dice.below(8) == 0), self.dice.level(),
                        True, self.dice.byte())
            if self.is_timely(look):
                self.show(look)

    def haste(self):
        """HostClk goes high too early, and low again with another cell."""
        self.settle()
        for _ in range(self.dice.between(2, 4)):
            cell = Cell(ADDRESS + self.dice.below(16), False)
            for _ in range(self.dice.between(1, 2)):
                self.forward(False, cell)
            self.forward(True, cell)

    def second_thoughts(self):
        """Another cell at HostClk high than the one that was accepted."""
        channel = self.dice.below(CHANNELS)
        self.address(channel)
        self.count(min(127, self.inserter.free(channel)))
        while not self.periph_ack():
            self.forward(False, Cell(self.dice.below(CHANNELS), False))
        if self.inserter.free(channel) < 128:
            self.forward(True, Cell(self.dice.byte(), True))    # too long
        self.forward(True, Cell(ADDRESS + self.dice.below(16), False))

    def break_off(self):
        """A drop in the middle of something, each time of another thing."""
        things = [self.half_sent, self.half_waited, self.counted,
                  self.shown, self.half_fetched]
        things[self.break_offs % len(things)]()
        self.break_offs += 1
        self.drop()
        self.data(self.dice.byte())     # to no channel that keeps it

    def half_sent(self):
        self.settle()
        cell = Cell(ADDRESS + self.dice.below(CHANNELS), False)
        while not self.periph_ack():
            self.forward(False, cell)

    def half_waited(self):
        self.address(self.dice.below(CHANNELS))
        self.forward(False, Cell(self.dice.below(CHANNELS), False))

    def counted(self):
        self.address(self.dice.below(CHANNELS))
        self.count(self.dice.below(ADDRESS))

    def shown(self):
        self.turn_back()
        self.backward(False)

    def half_fetched(self):
        self.shown()
        self.backward(True)

    def tour(self):
        """Every channel that keeps bytes, with bytes like addresses.

        The first round leaves one byte of each, so that the first records
        of a pool tell all the channels of a patch apart.
        """
        for channel in self.dice.shuffled(range(CHANNELS)):
            self.address(channel)
            self.data(ADDRESS + (channel + 3) % CHANNELS)
        for channel in self.dice.shuffled(range(CHANNELS)):
            self.address(channel)
            self.count(channel)
            self.data(ADDRESS + CHANNELS - 1 - channel)
        for channel in (8, 15, 64, 127):
            self.address(channel)
            self.data(ADDRESS + channel % CHANNELS)

    # -- finales

    def fill(self, channel):
        """Runs that are too long, then one that just fits."""
        free = self.inserter.free(channel)
        self.address(channel)
        for number in (free, free + 1, 127):
            self.count(number)
            self.data(self.dice.byte())     # refused
        self.ask()
        self.count(free - 1)
        self.data(self.dice.byte())
        self.ask()
        self.data(self.dice.byte())         # refused
        self.count(0)
        self.data(self.dice.byte())         # refused

    def fill_pool(self):
        """Single bytes by turns, and a last run to the last record."""
        while self.inserter.free(0) > 6:
            for channel in self.dice.shuffled(range(CHANNELS)):
                if self.inserter.free(0) > 6:
                    self.address(channel)
                    self.run(self.dice.byte(), self.single_or_some())
        self.fill(self.dice.below(CHANNELS))
        self.try_all_channels()

    def single_or_some(self):
        """One repeat when few records are free, else more."""
        return 1 if self.inserter.free(0) < 26 else self.dice.between(4, 16)

    def try_all_channels(self):
        """Every channel refuses data, those that keep nothing take them."""
        for channel in self.dice.shuffled(range(CHANNELS)):
            self.address(channel)
            self.data(self.dice.byte())
        self.address(self.dice.high_channel())
        self.count(self.dice.below(ADDRESS))
        self.data(self.dice.byte())
        self.ask()

    def fill_two_lanes(self):
        for channel in self.dice.shuffled(range(CHANNELS))[:2]:
            self.leave_some(channel)
            self.fill(channel)
        self.fetch()

    def leave_some(self, channel):
        """Runs for a channel until it has few places left, but some."""
        self.address(channel)
        while self.inserter.free(channel) > 9:
            spare = self.inserter.free(channel) - 4
            self.run(self.dice.byte(), self.dice.between(1, min(12, spare)))

    # -- all of it

    def deck(self):
        """Things to do, each as often as it should come up."""
        things = {self.captions: 6, self.overreach: 1, self.fetch: 4,
                  self.glance: 1, self.noise: 4, self.forward_noise: 1,
                  self.haste: 1, self.second_thoughts: 1, self.break_off: 2}
        return self.dice.shuffled(
            thing for thing, times in things.items() for _ in range(times))

    def mix(self, lines):
        """One thing after another, until there are so many lines."""
        things = []
        while len(self.written) < lines:
            things = things or self.deck()
            things.pop()()

    def play(self):
        self.ask()
        if self.plan.tour:
            self.tour()
        self.mix(self.plan.before_finale)
        self.before_finale = False
        if isinstance(self.inserter.store, Pool):
            self.fill_pool()
        else:
            self.fill_two_lanes()
        self.mix(self.plan.lines)
        self.ask()


# ------------------------------------------------------------ the new table


def data_by_channel(taken):
    """The data that joined the reading, by the channel addressed."""
    by_channel = {}
    channel = LAST_CHANNEL
    for cell in taken:
        if cell.data:
            by_channel.setdefault(channel, []).append(cell.byte)
        elif cell.byte >= ADDRESS:
            channel = cell.byte - ADDRESS
    return by_channel


def check_full(host):
    """The pool is full, with bytes of every channel."""
    assert host.inserter.free(0) == 0
    assert all(held(host.inserter))


def check_variety(host):
    """All rules, channels, counts and bytes have had their turn."""
    assert all(host.inserter.carried_out[rule] >= 20 for rule in RULES)
    by_channel = data_by_channel(host.taken)
    assert all(channel in by_channel for channel in range(CHANNELS))
    assert any(CHANNELS <= channel < LAST_CHANNEL for channel in by_channel)
    kept = {byte for channel in range(CHANNELS)
            for byte in by_channel[channel]}
    assert set(range(ADDRESS, ADDRESS + CHANNELS)) <= kept
    assert any(byte >= ADDRESS + CHANNELS for byte in kept)
    counted = {cell.byte for cell in host.taken if not cell.data}
    assert set(range(CHANNELS)) <= counted


def interleaved(parts, dice):
    """The lines of all parts, a few of one at a time, each in its order."""
    parts = [list(part) for part in parts]
    lines = []
    while any(parts):
        part = dice.pick([part for part in parts if part])
        size = dice.between(1, 12)
        lines += part[:size]
        del part[:size]
    return lines


def new_lines():
    """The lines for the sets that have a plan."""
    dice = Dice(SEED)
    sets = all_sets()
    hosts = {letter: Host(letter, sets[letter], dice, plan)
             for letter, plan in PLANS.items()}
    for letter, host in hosts.items():
        host.play()
        report(letter, host.inserter)
    check_full(hosts["d"])
    check_variety(hosts["e"])
    check_variety(hosts["f"])
    return interleaved([host.written for host in hosts.values()], dice)


def extend(table):
    """Prints a table and the new lines after it."""
    print("\n".join(table + new_lines()))


def main():
    commands = {"answer": answer, "extend": extend}
    if len(sys.argv) != 2 or sys.argv[1] not in commands:
        sys.exit(__doc__)
    commands[sys.argv[1]](sys.stdin.read().splitlines())


if __name__ == "__main__":
    main()
