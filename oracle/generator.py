"""Scripts of calls, each from a seed: oracle/generate writes one, oracle/compare runs many.

The model goes along, so that a script can aim at what its state makes interesting: the wrap, a full table, the window's edge at each cell
count, a buffer exactly full, repeats, late acks, a deadline's bounds; in scripts with far numbers the edge of far. Its answers come with the
script.
"""

import collections
import random

from model import (
    ACKS,
    CELL_COUNTS,
    CONSUMED,
    DATA,
    FAR,
    LEAST_CELLS,
    MOST_CELLS,
    MOST_DATA,
    MOST_FACTOR,
    MOST_LENT,
    MOST_TIME,
    PACKETS,
    RECEIVE_CLOSE,
    RECEIVE_FINISH,
    SEND_FINISH,
    SENT,
    TOO_LARGE,
    USABLE_INTERVAL,
    WRAP,
    Model,
    distance,
    pattern,
)

# What a script's numbers may be. Near: no two are far from each other. Far: received and acked ones may be far from what they are judged
# against. Marks: a mark, too, may be far from an acked or a resent number, and the original puts the two in an order.
NEAR_ONLY, FAR_TOO, FAR_MARKS = range(3)
MODES = {"near": NEAR_ONLY, "far": FAR_TOO, "marks": FAR_MARKS}

# But for what is far on purpose, every number of a script is at most this far from its start, so that no two are 2^30 apart.
NEAR = 2**29 - 1

# The edge of far, and the farthest of all: how far, either way, and how the tally names it.
EDGES = {FAR - 1: "2^30 - 1", FAR: "2^30", FAR + 1: "2^30 + 1", 2**31 - 1: "2^31 - 1", 2**31: "2^31"}

# A dump comes at least this often; where many messages are ready or held, in proportion less often, since it writes each.
DUMP_EVERY = 10
MANY = 64

# Where the original's order turns, and the wrap itself.
TURNS = (0, 2**30 - 1, 2**31, 3 * (2**30 - 1), 3 * 2**30)

BUFFERS = (1, 2, 9, 10, 11, 19, 20, 100, 1023, 1024, 1025, 2048, 6553, 65535, 65536, 65537, 131071, 131072)

# The cell counts of scripts that aren't told theirs, and how often.
SOME_CELLS = (64, 128, 4096, 65536, *CELL_COUNTS)
HOW_OFTEN = (60, 12, 8, 8, *[1] * len(CELL_COUNTS))
BAD_CELLS = (0, 1, 2, 32, 63, 65, 96, 127, 192, 320, 1000, 65535, 65537, 98304, 131072, 2**31, WRAP - 64, WRAP - 1)

# The window's edge, and how the tally names it: how far a number is from the first past the window.
WINDOW = {-1: "the window's last number", 0: "the first past the window", 1: "the second past the window"}
# A message that is no repeat, in the tally.
NEW = "new messages"

# The most messages of a tenth of the receive buffer: a larger tenth isn't aimed at.
TENTH_MESSAGES = 16

# Products of deadline factors. The round trip that each brings to 2^64 is within 2^56.
FACTORS_TOGETHER = (256, 257, 999, 1000, 1000**2, 999 * 1000**2, 1000**3)

BAD_FACTORS = (0, MOST_FACTOR + 1, 2**32, 2**32 + 1, 2**64 - 1)
BAD_BOUNDS = (MOST_TIME + 1, MOST_TIME + 2, 2**57, 2**64 - 1)

# How often each step is taken, mood by mood; a mood lasts for some dozens of calls.
MOODS = {
    "fill": {"send": 100, "flush": 3, "ack": 3, "receive": 2, "block": 1, "deadline": 10},
    "drain": {"ack": 70, "send": 6, "receive_consumed": 3, "deadline": 14},
    "both": {"send": 20, "ack": 20, "receive": 20, "take": 10, "takeack": 10, "flush": 4, "deadline": 16},
    "arrive": {"receive": 60, "show": 2, "take": 4, "takeack": 2, "pile": 1.3},
    "window": {"receive_edge": 40, "receive": 20, "take": 8, "takeack": 6},
    "hand out": {"take": 40, "takeack": 40, "receive": 10, "due": 6, "close": 4, "send_consumed": 8, "tenth": 2},
    "repeat": {"receive_again": 40, "takeack": 20, "receive": 10, "pile": 1.3},
    "links": {"add": 14, "remove": 10, "unconfirm": 12, "confirm": 8, "block": 6, "resend": 28, "send": 25, "ack": 10, "deadline": 16},
    "lost": {"unconfirm": 14, "resend": 60, "ack": 24, "add": 6, "flush": 6, "mark": 8, "send": 12, "deadline": 22},
    "trips": {"ping": 13, "pong": 15, "mark": 18, "ack": 34, "send": 30, "slow": 6, "flush": 6, "deadline": 20},
    "deadlines": {"deadline": 120, "send": 10, "flush": 6, "unconfirm": 4, "resend": 12, "ack": 8, "add": 6, "remove": 3, "pong": 2},
    "slow": {"slow": 32, "add": 12, "remove": 8, "block": 10, "confirm": 10, "unconfirm": 6, "pong": 6, "ping": 7, "deadline": 6},
    "messages": {"read": 50, "write": 50},
    "stall": {"stall": 1.5, "receive_edge": 12, "receive_again": 8, "show": 6, "take": 10, "takeack": 14, "hand_out": 1},
    "gaps": {"gap": 2, "skip": 1, "receive_edge": 20, "receive_again": 8, "take": 20, "takeack": 20, "due": 2},
    "round": {"round": 1.2, "receive_edge": 10, "receive": 10, "hand_out": 2, "takeack": 10, "send_consumed": 4},
    "odd": {"junk": 20, "lend": 9, "fresh": 4, "wrong_slot": 20, "wrong_time": 20, "send": 10, "receive": 10},
}
# What scripts with far numbers have besides, each as often as three of the others.
FAR_MOODS = {
    "far": {"receive_far": 30, "ack_far": 30, "receive": 20, "send": 20, "ack": 10, "mark": 10, "take": 8, "takeack": 8},
    "far marks": {"mark": 30, "ack_far": 20, "ack": 20, "send": 20, "unconfirm": 6, "resend": 30, "add": 4},
}
SELDOM = {"junk": 0.3, "lend": 0.3, "wrong_slot": 0.6, "wrong_time": 0.6, "mark": 0.3, "add": 0.4, "due": 0.4, "slow": 0.4}
SELDOM.update({"ping": 0.4, "pong": 0.4, "read": 0.4, "write": 0.4, "confirm": 0.3, "send_consumed": 0.4, "show": 0.4})
SELDOM.update({"deadline": 3, "close": 0.4})


def weights(steps):
    together = dict(SELDOM)
    for name, weight in steps.items():
        together[name] = together.get(name, 0) + weight
    names = list(together)
    sums, total = [], 0
    for name in names:
        total += together[name]
        sums.append(total)
    return names, sums


WEIGHTS = {mood: weights(steps) for mood, steps in (MOODS | FAR_MOODS).items()}


def met(end, roundtrip_factor, resent_factor, unreliable_factor, least, most, unreliable):
    """What an accepted deadline met, for the tally."""
    packet = end.first_sent()
    facts = {"a packet named": packet is not None, "none named": packet is None}
    if packet is None:
        return facts
    factors = [roundtrip_factor, resent_factor, unreliable_factor]
    in_use = [roundtrip_factor] + [resent_factor] * packet.resent + [unreliable_factor] * unreliable
    product = end.wait(packet, factors, unreliable)
    return facts | {
        "not the table's first": packet is not end.packets[0],
        "not resent": not packet.resent,
        "resent": packet.resent,
        "not flushed": packet.flushed is None,
        "flushed": packet.flushed is not None,
        "reliable": not unreliable,
        "unreliable": unreliable,
        "all factors 1": factors == [1, 1, 1],
        "a factor 1,000 in use": MOST_FACTOR in in_use,
        "product up to 2^60 below 2^64": 0 < TOO_LARGE - product <= 2**60,
        "product up to 2^60 above 2^64": 0 <= product - TOO_LARGE <= 2**60,
        "product 2^64 or more": product >= TOO_LARGE,
        "bounds equal": least == most,
        "raised to the minimum": product < least,
        "within the bounds": least <= product <= most,
        "cut to the maximum": product > most,
    }


def reader(end):
    """What the question whether a Consumed is due met, for the tally."""
    due, tenth = end.due(), end.buffer // 10
    if end.open:
        return {"open, due": due, "open, not due": not due}
    return {"closed, none untold": not due, "closed, due": due, "closed, due at a tenth or less": due and end.untold <= tenth}


def table(before, end, words, answer):
    """What a receive or a take met in the receive table, for the tally. Given what was there before: the next expected number, the one that
    refusal 12 counts from and how many messages were held."""
    rx, oldest, held = before
    moved = (end.rx - rx) % WRAP
    if words[0] == "take":
        return {"takes that passed over more than 64": (end.oldest() - oldest) % WRAP > MANY}
    past = (int(words[3]) - oldest) % WRAP - end.cells
    return {
        "receives of %s, answered %s" % (WINDOW.get(past), answer): past in WINDOW and answer in ("0", "12"),
        "receives with more than 64 ready": answer == "0" and len(end.ready) > MANY,
        "receives with more than 64 held": answer == "0" and len(end.held) > MANY,
        "receives that made more than 64 ready": moved > MANY,
        NEW: len(end.held) + moved > held,
    }


def edge(a, b):
    """At which edge of far a stands from b, in words; none elsewhere."""
    ahead = (a - b) % WRAP
    if ahead in EDGES:
        return EDGES[ahead] + " ahead"
    return EDGES[WRAP - ahead] + " behind" if WRAP - ahead in EDGES else None


class Script:
    """A script in the making: its lines, the model's answers, and what its deadlines, its questions for a Consumed, its far numbers and its
    receive table met. A cell count that is given is that of every accepted fresh."""

    def __init__(self, seed, calls, numbers=NEAR_ONLY, cells=None):
        self.random = random.Random("farthingkeg %d %d %d" % (seed, numbers, cells or 0))
        self.calls = calls
        self.numbers = numbers
        self.cells = cells
        self.moods = list(MOODS) if numbers == NEAR_ONLY else list(MOODS) + 3 * list(FAR_MOODS)
        self.lines = []
        self.answers = []
        self.deadlines = collections.Counter()
        self.dues = collections.Counter()
        self.fars = collections.Counter()
        self.tables = collections.Counter()
        # The cells that were used since the last accepted fresh.
        self.used = set()
        # The places of accepted acks and resends that met a mark far from their number.
        self.far_marks = []
        self.since_dump = 0
        self.model = Model()
        self.begin()
        while len(self.lines) < calls:
            self.mood()
        del self.lines[calls:], self.answers[calls:]

    @property
    def end(self):
        return self.model.end

    def call(self, *words):
        """Adds the call, and a dump when one is due. What is past the script's length is dropped."""
        if len(self.lines) >= self.calls:
            return
        if self.numbers != NEAR_ONLY and words[0] in ("receive", "ack", "resend"):
            self.put_judged(words)
        else:
            self.put(" ".join(map(str, words)))
        self.since_dump += 1
        many = 1 + (len(self.end.ready) + len(self.end.held)) // MANY
        if self.since_dump >= (DUMP_EVERY - 1) * many or self.chance(0.06 / many):
            self.put("dump")
            self.since_dump = 0

    def put(self, line):
        before = (self.end.rx, self.end.oldest(), len(self.end.held)) if self.end else None
        self.lines.append(line)
        self.answers.append(self.model.answer(line))
        words, answer = line.split(" "), self.answers[-1].split(" ")[0]
        if words[0] == "deadline" and answer == "0":
            self.deadlines.update(met(self.end, *map(int, words[1:])))
        if line == "due" and answer == "0":
            self.dues.update(reader(self.end))
        if words[0] in ("receive", "take") and answer != "?":
            self.note_table(table(before, self.end, words, answer), words)
        if words[0] == "fresh" and answer == "0":
            self.used = set()
            self.tables["accepted with %d cells" % self.end.cells] += 1

    def note_table(self, facts, words):
        self.tables.update(facts)
        if facts.get(NEW):
            cell = int(words[3]) % self.end.cells
            self.tables["new messages in a cell used before"] += cell in self.used
            self.used.add(cell)

    def put_judged(self, words):
        """Puts a call with a number, and notes how far that is from what it is judged against and from the link's mark. Unless the script
        is about far marks, one that an ack or a resend would meet is set anew first, near the number."""
        name, slot, _, number, *_ = words
        link = self.end.links[slot] if slot in self.live() else None
        judge = self.end.rx if name == "receive" else self.end.tx
        is_far, place = distance(number, judge) is None, edge(number, judge)
        is_marked = name != "receive" and link is not None and link.mark is not None
        far_mark = is_marked and not is_far and distance(link.mark, number) is None
        if far_mark and self.numbers == FAR_TOO:
            self.put("mark %d %d" % (slot, (number + self.pick(-1, 0, 1)) % WRAP))
            far_mark = False
        waiting = len(link.acks) if link else 0
        self.put(" ".join(map(str, words)))
        answer = self.answers[-1].split(" ")[0]
        if name != "resend":
            self.fars["%s far, answered %s" % (name, answer)] += is_far
            self.fars["receive far with 64 acks waiting, answered %s" % answer] += is_far and name == "receive" and waiting == ACKS
            self.fars["%s %s, answered %s" % (name, place, answer)] += place is not None and answer in ("0", "11", "13", "22")
        if far_mark and answer == "0":
            self.far_marks.append(len(self.lines) - 1)
            self.fars["%s with a far mark" % name] += 1

    # Choices.

    def chance(self, p):
        return self.random.random() < p

    def pick(self, *choices):
        return self.random.choice(choices)

    def below(self, n):
        return self.random.randrange(n)

    def live(self):
        return [slot for slot, link in enumerate(self.end.links) if link]

    def slot(self):
        live = self.live()
        if not live or self.chance(0.01):
            return self.pick(0, 3, 7, 8, 255)
        return self.random.choice(live)

    def time(self):
        """A time that is accepted."""
        step = self.pick(0, 0, 1, 1, 2, 5, 10, 100, 1000, self.below(10**6), self.below(10**10))
        if self.chance(0.0005):
            return MOST_TIME
        return min(self.end.time + step, MOST_TIME)

    def size(self):
        small = self.pick(0, 1, 1, 2, 3, 5, 8)
        if self.style == "small":
            return self.pick(MOST_DATA, MOST_DATA - 1, 100) if self.chance(0.01) else small
        if self.style == "large":
            return MOST_DATA if self.chance(0.9) else small
        return self.pick(MOST_DATA, MOST_DATA - 1, self.below(MOST_DATA), 100, 31, 32) if self.chance(0.06) else small

    def data(self, size):
        return self.random.randbytes(size).hex() or "-"

    def odd_data(self):
        """More than a message takes."""
        return self.data(self.pick(MOST_DATA + 1, MOST_DATA + 2, 2048))

    def near(self, number):
        """The number, or one that no rule meets often."""
        if self.chance(0.01):
            return (self.start + self.pick(-1, 1) * (NEAR - self.below(2000))) % WRAP
        return number % WRAP

    def far_number(self, number):
        """A number at an edge of far from that one, or about there, or anywhere beyond."""
        away = self.pick(*EDGES, *EDGES, FAR - self.below(200), FAR + self.below(200), FAR + self.below(FAR))
        return (number + self.pick(-1, 1) * away) % WRAP

    # The script.

    def begin(self):
        cells = self.cells or self.random.choices(SOME_CELLS, HOW_OFTEN)[0]
        self.start = self.pick(
            (WRAP - self.below(200)) % WRAP,
            (self.random.choice(TURNS) - self.below(200)) % WRAP,
            self.pick(0, 1, cells - 1, cells),
            self.below(WRAP),
        )
        most = cells * MOST_DATA
        buffer = self.pick(most, most, min(self.random.choice(BUFFERS), most), 1 + self.below(most))
        self.style = self.random.choices(("small", "mixed", "large"), (70, 28, 2))[0]
        # The ends of sending and of reading are final, so that most scripts meet them late or never.
        self.finish_from = self.below(2 * self.calls)
        self.close_from = self.below(2 * self.calls)
        if self.end and self.end.lent.get("records", cells) != cells:
            self.call("lend", "records", cells)
        self.fresh(self.start, buffer, cells)
        for _ in range(self.pick(1, 2, 2, 3, 8)):
            self.step_add()

    def fresh(self, start, buffer, cells):
        """64 cells are often not said."""
        self.call("fresh", start, buffer, *([] if cells == LEAST_CELLS and self.chance(0.5) else [cells]))

    def mood(self):
        names, sums = WEIGHTS[self.random.choice(self.moods)]
        for _ in range(10 + self.below(90)):
            name = self.random.choices(names, cum_weights=sums)[0]
            getattr(self, "step_" + name)()

    def may_finish(self):
        return len(self.lines) >= self.finish_from

    # Links.

    def step_add(self):
        identity = self.pick(self.below(12), self.below(12), 2**64 - 1, self.below(2**64))
        trip = self.pick(0, 1, 50, 99, 100, 101, 1000, self.below(10**9), MOST_TIME, *(self.long_trip() for _ in range(3)))
        limit = self.pick("-", trip, max(0, trip - 1), trip + 1, self.below(2000))
        if self.chance(0.02):
            trip, limit = self.pick((MOST_TIME + 1, "-"), (0, MOST_TIME + 1), (2**64 - 1, 2**64 - 1), (MOST_TIME, MOST_TIME))
        self.call("add", identity, trip, limit, int(self.chance(0.2)), int(self.chance(0.3)))

    def long_trip(self):
        """A round trip that the factors of a deadline bring to 2^64, from either side."""
        return min(TOO_LARGE // self.random.choice(FACTORS_TOGETHER) + self.below(2), MOST_TIME)

    def step_remove(self):
        if len(self.live()) > 1 or self.chance(0.1):
            self.call("remove", self.slot())

    def step_confirm(self):
        self.call("confirm", self.slot())

    def step_unconfirm(self):
        self.call("unconfirm", self.slot())

    def step_block(self):
        self.call("block", self.slot(), self.below(2))

    def step_ping(self):
        self.call("ping", self.slot(), self.time())

    def step_pong(self):
        self.call("pong", self.slot(), self.time())

    def step_slow(self):
        self.call("slow")

    def step_mark(self):
        if self.numbers == FAR_MARKS and self.chance(0.5):
            packets = [self.end.tx, *(packet.number for packet in self.end.packets)]
            return self.call("mark", self.slot(), self.far_number(self.random.choice(packets)))
        self.call("mark", self.slot(), self.near(self.end.tx + self.pick(-64, -3, -2, -1, 0, 0, 1, 5)))

    # Sending.

    def step_send(self):
        kind = self.random.choices((DATA, RECEIVE_CLOSE, RECEIVE_FINISH, SEND_FINISH), (90, 3, 3, 3))[0]
        if kind == SEND_FINISH and not self.may_finish():
            kind = DATA
        data = self.data(self.size()) if kind == DATA else "-"
        if self.chance(0.01):
            data = self.pick(self.odd_data(), self.data(1))
        self.call("send", self.slot(), self.time(), kind, 0, data)

    def step_send_consumed(self):
        untold = self.end.untold
        count = self.pick(untold, untold, 1, self.below(untold + 1), untold + 1, 0, WRAP - 1)
        self.call("send", self.slot(), self.time(), CONSUMED, count, "aa" if self.chance(0.01) else "-")

    def step_flush(self):
        self.call("flush", self.slot(), self.time())

    def step_resend(self):
        if not self.end.queue:
            return self.step_unconfirm() if self.chance(0.3) else self.step_send()
        number = self.pick(self.end.queue[0], self.random.choice(self.end.queue))
        if self.chance(0.05):
            number = self.near(self.end.tx - self.below(PACKETS + 2))
        self.call("resend", self.slot(), self.time(), number)

    def step_ack(self):
        packets = self.end.packets
        slot = self.slot()
        if packets and self.chance(0.85):
            packet = self.pick(packets[0], packets[0], packets[-1], self.random.choice(packets))
            number = packet.number
            # Mostly over the link that it went over; a late ack of a queued one may come over any.
            if packet.status == SENT and self.chance(0.8):
                slot = packet.slot
        else:
            first = packets[0].number if packets else self.end.tx
            number = self.pick(self.end.tx, self.end.tx + 1, first - 1, first - 2, self.end.tx - PACKETS, first - self.below(200))
        self.call("ack", slot, self.time(), self.near(number))

    def step_ack_far(self):
        """A far number, or one that just isn't; at times what is refused before that, 3 and 4. Often over a link with a mark."""
        marked = [slot for slot in self.live() if self.end.links[slot].mark is not None]
        slot, time, how = self.slot(), self.time(), self.below(12)
        if marked and self.chance(0.5):
            slot = self.random.choice(marked)
        if how == 0:
            slot = self.pick(8, 255, *(slot for slot in range(8) if slot not in self.live()))
        elif how == 1:
            time = self.pick(max(0, self.end.time - 1), MOST_TIME + 1)
        self.call("ack", slot, time, self.far_number(self.end.tx))

    # Deadlines.

    def step_deadline(self):
        """Factors and bounds at the edges that the named packet gives them; at times bad ones, whether or not one is named."""
        if self.end.first_sent() is None and self.chance(0.7):
            self.step_send()
        packet = self.end.first_sent()
        unreliable = self.below(2)
        factors = self.factors(packet, unreliable)
        wait = self.end.wait(packet, factors, unreliable) if packet else 0
        settings = factors + self.bounds(wait)
        if self.chance(0.08):
            self.spoil(settings)
        self.call("deadline", *settings, unreliable)

    def factors(self, packet, unreliable):
        """Three factors; of a long round trip often such that the product comes to 2^64 or stays just below it."""
        if self.chance(0.3):
            return [self.pick(1, MOST_FACTOR, self.factor())] * 3
        factors = [self.factor() for _ in range(3)]
        if packet and self.chance(0.5):
            # The first is always in use, so that it can make up for the others.
            wait = self.end.wait(packet, [1, *factors[1:]], unreliable)
            fitting = TOO_LARGE // max(wait, 1) + self.pick(-1, 0, 0, 1, 1)
            if 1 <= fitting <= MOST_FACTOR:
                factors[0] = fitting
        return factors

    def factor(self):
        return self.pick(1, 1, 2, 10, 256, MOST_FACTOR - 1, MOST_FACTOR, 1 + self.below(MOST_FACTOR))

    def bounds(self, wait):
        """A minimum and a maximum, often at the wait or next to it."""
        near = [min(max(0, wait + step), MOST_TIME) for step in (-1, 0, 1)]
        edges = (0, *near, *near, self.below(10**6), self.below(MOST_TIME), MOST_TIME - 1, MOST_TIME)
        return sorted(self.random.choices(edges, k=2))

    def spoil(self, settings):
        """Makes a factor bad, or the minimum pass the maximum, or one or both bounds pass 2^56."""
        how = self.below(4)
        if how == 0:
            settings[self.below(3)] = self.random.choice(BAD_FACTORS)
        elif how == 1:
            settings[3] = settings[4] + self.pick(1, 1, self.below(MOST_TIME))
        else:
            settings[4] = self.random.choice(BAD_BOUNDS)
            if how == 3:
                settings[3] = settings[4]

    # Receiving and handing out.

    def step_receive(self):
        self.receive(self.end.rx + self.pick(0, 0, 0, 0, 1, 2, self.below(8)))

    def step_receive_edge(self):
        edge = self.end.oldest() + self.end.cells
        end = self.end.rx + USABLE_INTERVAL
        self.receive(self.pick(edge - 2, edge - 1, edge - 1, edge, edge + 1, self.end.rx, end - 1, end, end + 1, end + self.below(2**20)))

    def step_receive_again(self):
        held = list(self.end.held)
        if held and self.chance(0.4):
            return self.receive(self.random.choice(held))
        self.receive(self.end.rx - 1 - self.pick(0, 1, self.below(80), self.end.cells, ACKS))

    def step_receive_far(self):
        """A far number, or one that just isn't; at times with what is refused before that, 2, 4 and 7, or after it, 13, 14 and 15."""
        slot, how = self.slot(), self.below(40)
        kind, count, data = DATA, 0, self.data(self.size())
        if how < 3:
            slot = self.pick(8, 255, *(slot for slot in range(8) if slot not in self.live()))
        elif how < 6:
            kind, data = self.pick((DATA, self.odd_data()), (SEND_FINISH, "aa"), (RECEIVE_CLOSE, self.odd_data()))
        elif how < 9:
            kind, count, data = CONSUMED, min(self.end.unconsumed + self.below(3), WRAP - 1), "-"
        elif how < 12:
            data = self.data(min(self.end.buffer - self.end.untaken + 1, MOST_DATA))
        elif how == 12 and slot in self.live():
            for _ in range(ACKS - len(self.end.links[slot].acks)):
                self.receive(self.end.rx - 1, DATA, slot, 0)
        elif how == 13:
            name = self.pick("received", "records")
            self.call("lend", name, self.end.length_of(name) - 1)
        self.call("receive", slot, kind, self.far_number(self.end.rx), count, data)
        if how == 13:
            self.call("lend", name, self.end.length_of(name))

    def step_receive_consumed(self):
        self.receive(self.end.rx, CONSUMED)

    def step_pile(self):
        """More acks than a link keeps, by repeats and by new messages."""
        slot = self.slot()
        link = self.end.links[slot] if slot in self.live() else None
        for _ in range(ACKS + 3 - len(link.acks) if link else 0):
            self.receive(self.end.rx - self.pick(0, 1, 1, 1, 2), slot=slot)
        for _ in range(self.pick(0, 1, 40)):
            self.call("takeack", slot)

    # The receive table, which may have more than 64 cells.

    def some_messages(self):
        """How many messages a step has: a few, or more than 64 cells hold, but not more than fit and never most of the script."""
        most = self.end.cells + 1
        return min(self.pick(2 + self.below(20), MANY + 1, MANY + self.below(80), most - 2, most), most, 3 + self.calls // 12)

    def arrive(self, number, kind=None):
        """A message that nothing but the window's edge refuses, where a link is live: a waiting ack is taken where there are 64, and the data
        fits the receive buffer."""
        if kind is None:
            kind = self.random.choices((DATA, CONSUMED, SEND_FINISH, RECEIVE_CLOSE), (82, 8, 5, 5))[0]
        live = self.live()
        slot = self.random.choice(live) if live else 0
        if live and len(self.end.links[slot].acks) == ACKS:
            self.call("takeack", slot)
        size = min(self.size(), self.end.buffer - self.end.untaken) if kind == DATA else 0
        self.call("receive", slot, kind, number % WRAP, 0, self.data(size))

    def step_stall(self):
        """Messages one after the other and none is taken, as while the reader's disk stalls."""
        for _ in range(self.some_messages()):
            self.arrive(self.end.rx)

    def step_gap(self):
        """The next expected message comes last, and what is behind it becomes ready at once; at times the window's last cell is in use too."""
        first = self.end.rx
        numbers = [first + n for n in range(1, self.some_messages())]
        if self.chance(0.5):
            self.random.shuffle(numbers)
        if self.chance(0.5):
            numbers.insert(self.below(len(numbers) + 1), self.end.oldest() + self.end.cells - 1)
        for number in [*numbers, first]:
            self.arrive(number)

    def step_skip(self):
        """Data, then messages that aren't handed out: taking the Data passes over them, and the window's edge moves as far."""
        for _ in range(min(len(self.end.ready), MANY)):
            self.call("take")
        self.arrive(self.end.rx, DATA)
        for _ in range(self.some_messages()):
            self.arrive(self.end.rx, self.pick(CONSUMED, RECEIVE_CLOSE))
        if self.chance(0.5):
            self.arrive(self.end.rx + self.pick(0, 1), self.pick(DATA, SEND_FINISH))
        self.arrive(self.end.oldest() + self.end.cells)
        self.call("take")
        for past in self.random.sample((-1, 0, 1), 3):
            self.arrive(self.end.oldest() + self.end.cells + past)

    def step_round(self):
        """Goes on through the table: what is received is taken, so that cells are used again."""
        for _ in range(self.some_messages()):
            self.arrive(self.end.rx)
            if self.chance(0.3):
                self.call("show")
            self.call("take")

    def step_hand_out(self):
        for _ in range(min(len(self.end.ready) + 1, self.some_messages())):
            self.step_take()

    def receive(self, number, kind=None, slot=None, exactly=None):
        if kind is None:
            kinds = (DATA, CONSUMED, SEND_FINISH, RECEIVE_CLOSE, RECEIVE_FINISH)
            kind = self.random.choices(kinds, (78, 10, 5, 4, 3))[0]
        if kind == RECEIVE_FINISH and not self.may_finish():
            kind = DATA
        count, data = 0, "-"
        if kind == CONSUMED:
            unconsumed = self.end.unconsumed
            count = self.pick(unconsumed, 0, 1, self.below(unconsumed + 1), self.below(unconsumed + 1), unconsumed + 1, WRAP - 1)
        elif kind == DATA:
            size = self.size()
            left = self.end.buffer - self.end.untaken
            if left < MOST_DATA and self.chance(0.3):
                size = self.pick(left, left + 1)
            data = self.data(size if exactly is None else exactly)
        if self.chance(0.01):
            data = self.pick(self.odd_data(), self.data(1))
        self.call("receive", self.slot() if slot is None else slot, kind, self.near(number), count, data)

    def step_show(self):
        self.call("show")

    def step_take(self):
        if self.chance(0.5):
            self.call("show")
        self.call("take")
        if self.chance(0.1):
            self.call("due")

    def step_takeack(self):
        waiting = [slot for slot in self.live() if self.end.links[slot].acks]
        self.call("takeack", self.random.choice(waiting) if waiting and self.chance(0.9) else self.slot())

    def step_due(self):
        self.call("due")

    def step_close(self):
        if len(self.lines) >= self.close_from:
            self.call("close")
            self.call("due")

    def step_tenth(self):
        """Takes exactly a tenth of the receive buffer, or nothing of a closed reader's, when a Consumed is just not due, and then a byte more."""
        slot = self.slot()
        if len(self.end.ready) > MANY or self.end.due_above() > TENTH_MESSAGES * MOST_DATA:
            return
        for _ in range(len(self.end.ready)):
            self.call("take")
        if self.end.untold:
            self.call("send", slot, self.time(), CONSUMED, self.end.untold, "-")
        most = self.end.due_above()
        for _ in range(most // MOST_DATA + 1):
            self.receive(self.end.rx, DATA, slot, max(0, min(most - self.end.untold, MOST_DATA)))
            self.call("take")
        self.call("due")
        self.receive(self.end.rx, DATA, slot, 1)
        self.call("take")
        self.call("due")

    # Messages.

    def number(self):
        return self.pick(0, 1, WRAP - 1, 2**31, self.below(WRAP))

    def message(self):
        kind = 1 + self.below(16)
        if kind == 4:
            return kind, self.pick(1, 2, 3, 4)
        if kind in (7, 8, 10, 11, 12):
            return kind, self.number()
        if kind == 9:
            return kind, self.number(), self.number()
        if kind == 13:
            return kind, self.pick(0, 1, 255, 256, 257, MOST_DATA - 1, MOST_DATA, MOST_DATA + 1, self.below(1100), 5000)
        if kind == 14:
            return kind, self.below(2)
        return (kind,)

    def step_write(self):
        message = self.message()
        exact = {4: 2, 7: 5, 8: 5, 9: 9, 10: 5, 11: 5, 12: 5, 14: 2}.get(message[0], 1)
        if message[0] == 13:
            exact += message[1]
        room = self.pick(exact, exact - 1, exact + 1, 0, 2048, self.below(1100))
        self.call("write", min(room, 2048), *message)

    def step_read(self):
        frame = self.frame()
        damage = self.below(8)
        if damage == 0:
            frame = frame[: self.below(len(frame) + 1)]
        elif damage == 1:
            frame += self.random.randbytes(self.pick(1, 1, 4, 100))
        elif damage == 2:
            at = self.below(len(frame))
            frame = frame[:at] + self.random.randbytes(1) + frame[at + 1 :]
        elif damage == 3:
            frame = self.random.randbytes(self.pick(0, 1, 2, 5, 7, 9, 40))
        elif damage == 4:
            frame = bytes([self.below(256)]) + frame[1:]
        self.call("read", frame.hex() or "-")

    def frame(self):
        """A message's bytes, as a rule good ones."""
        message = self.message()
        kind = bytes([message[0]])
        if message[0] in (1, 2):
            return kind + b"LIAG\0\4" + self.random.randbytes(self.pick(0, 0, 1, 58, 80))
        if message[0] == 13:
            return kind + self.test_data(min(message[1], 2047))
        if message[0] in (4, 14):
            return kind + bytes(message[1:])
        return kind + b"".join(number.to_bytes(4, "big") for number in message[1:])

    def test_data(self, size):
        """The pattern, as a rule; else with a bit turned, at an edge or anywhere, or other bytes."""
        content = bytearray(pattern(size))
        if not size or self.chance(0.6):
            return content
        if self.chance(0.2):
            return self.pick(self.random.randbytes(size), bytes(size), pattern(size + 1)[1:])
        content[min(size - 1, self.pick(0, 1, 254, 255, 256, 257, size - 1, self.below(size)))] ^= 1 << self.below(8)
        return content

    # What is refused before anything is looked at, and what is no call.

    def step_fresh(self):
        if self.chance(0.9):
            self.refused_fresh()
        elif self.chance(0.4) and len(self.lines) + 100 < self.calls:
            self.begin()

    def refused_fresh(self):
        """21 for the receive buffer, for the cell count or for both; where another number of records is lent, 2, but only after 21."""
        lent = self.end.lent.get("records")
        cells = self.random.choice([count for count in CELL_COUNTS if count != lent])
        most = cells * MOST_DATA
        buffer = self.pick(1, most, 1 + self.below(most))
        why = self.pick("buffer", "cells", "both", "cells" if lent is None else "records")
        if why in ("buffer", "both"):
            buffer = self.pick(0, most + 1, most + 1, WRAP - 1)
        elif why == "cells":
            # What an accepted count would bear, so that it is the count that is refused.
            buffer = self.pick(1, LEAST_CELLS, buffer)
        if why in ("cells", "both"):
            cells = self.random.choice(BAD_CELLS)
        self.fresh(self.number(), buffer, cells)

    def wrong_length(self, name):
        """A length that the store, or the record space, must not be lent with: next to the right one, or right at another cell count."""
        right = self.end.length_of(name)
        unit = right // self.end.cells
        others = (LEAST_CELLS * unit, self.random.choice(CELL_COUNTS) * unit, MOST_CELLS * unit)
        lengths = (0, 1, right - 1, right + 1, right // 2, right * 2, self.end.cells, *others, MOST_LENT[name])
        return self.random.choice([length for length in lengths if length != right and length <= MOST_LENT[name]])

    def step_lend(self):
        """One of the three with a wrong length, over some calls and, at times, over a refused fresh, which leaves it so."""
        name = self.pick("sent", "received", "records")
        self.call("lend", name, self.wrong_length(name))
        steps = (self.step_send, self.step_receive, self.step_show, self.step_receive_again, self.step_take, self.step_ack, self.step_deadline)
        for _ in range(1 + self.below(4)):
            self.random.choice(steps)()
        if self.chance(0.4):
            self.refused_fresh()
            self.random.choice(steps[:5])()
        self.call("lend", name, self.end.length_of(name))

    def step_wrong_slot(self):
        slot = self.pick(*[slot for slot in range(12) if slot not in self.live()], 255)
        self.with_slot(slot, self.time())

    def step_wrong_time(self):
        time = self.pick(max(0, self.end.time - 1), 0, MOST_TIME + 1, 2**64 - 1)
        self.with_slot(self.slot(), time)

    def with_slot(self, slot, time):
        number = self.near(self.end.tx - 1)
        self.call(
            *self.pick(
                ("remove", slot) if slot not in self.live() else ("ping", slot, time),
                ("confirm", slot),
                ("unconfirm", slot) if slot not in self.live() else ("pong", slot, time),
                ("block", slot, 1),
                ("mark", slot, number),
                ("takeack", slot),
                ("ping", slot, time),
                ("pong", slot, time),
                ("flush", slot, time),
                ("send", slot, time, DATA, 0, "aa"),
                ("send", slot, time, CONSUMED, 0, "-"),
                ("resend", slot, time, number),
                ("ack", slot, time, number),
                ("receive", slot, DATA, self.near(self.end.rx), 0, "aa"),
            )
        )

    def step_junk(self):
        self.call(self.random.choice(JUNK))


class Full(Script):
    """A script that fills the receive table to its last cell, over and over, and takes what was filled: at times in any order and the next
    expected message last, so that all become ready at once; at times one after the other."""

    def begin(self):
        self.cells = self.cells or LEAST_CELLS
        self.start = self.pick(0, WRAP - self.below(self.cells), self.below(WRAP)) % WRAP
        self.style = "small"
        self.fresh(self.start, self.cells * MOST_DATA, self.cells)
        for identity in range(4):
            self.call("add", identity, 0, "-", 0, 0)

    def mood(self):
        first = self.end.rx
        numbers = [first + n for n in range(self.cells)]
        if self.chance(0.7):
            behind = numbers[1:]
            self.random.shuffle(behind)
            numbers = [*behind, first]
        few = self.chance(0.3)
        for number in numbers:
            self.arrive(number, self.pick(CONSUMED, RECEIVE_CLOSE) if few and self.chance(0.98) else None)
        self.edge()
        for _ in range(len(self.end.ready)):
            self.call("take")
            if self.chance(0.02):
                self.call("show")
                self.edge()
        self.call("take")

    def edge(self):
        """Past the window's last cell, and at times in it."""
        for past in self.random.sample((-1, 0, 1), self.pick(1, 2)):
            self.arrive(self.end.oldest() + self.cells + past)


class Trips:
    """A script of round trips and elapsed times of every size up to 2^56, each pair with both formulas' near edges."""

    def __init__(self, seed, calls):
        self.random = random.Random("farthingkeg trips %d" % seed)
        self.deadlines = collections.Counter()
        self.dues = collections.Counter()
        self.fars = collections.Counter()
        self.tables = collections.Counter()
        self.far_marks = []
        self.lines = []
        while len(self.lines) + 5 <= calls:
            trip, elapsed = self.time(), self.time()
            if self.random.random() < 0.3:
                elapsed = min(max(0, trip + self.random.randrange(-3, 4)), MOST_TIME)
            self.lines += ["fresh 0 1", "add 7 %d - 0 0" % trip, "send 0 0 7 0 -", "ack 0 %d 0" % elapsed, "dump"]
        model = Model()
        self.answers = [model.answer(line) for line in self.lines]

    def time(self):
        return min(self.random.randrange(2 ** self.random.randrange(1, 58)), MOST_TIME)


def script(mode, seed, calls, cells=None):
    """A script of that mode: near, far, marks, full, or trips, which has one size. Each accepted fresh has these cells, or what its seed gives."""
    if mode == "trips":
        return Trips(seed, calls)
    return Full(seed, calls, cells=cells) if mode == "full" else Script(seed, calls, MODES[mode], cells)


# Lines that are no calls.
JUNK = (
    "",
    " ",
    "dump ",
    " dump",
    "Dump",
    "show 0",
    "take 0",
    "sned 0 0 7 0 aa",
    "send 0 0 7 0",
    "send 0 0 7 0 aa aa",
    "send 0 0 8 0 -",
    "send 0 0 7 1 aa",
    "send 0 0 7 0 AA",
    "send 0 0 7 0 a",
    "send 0 0 7 0 ",
    "send  0 0 7 0 aa",
    "send 0 18446744073709551616 7 0 aa",
    "send 256 0 7 0 aa",
    "send 00 0 7 0 aa",
    "send -1 0 7 0 aa",
    "send +1 0 7 0 aa",
    "send 0 0 9 4294967296 -",
    "send 0 0 7 0 " + "aa" * 2049,
    "receive 0 13 0 0 -",
    "receive 0 10 0 1 -",
    "receive 0 7 4294967296 0 -",
    "receive 0 7 0 0 - -",
    "add 1 2 3 0 2",
    "add 1 2 3 0",
    "add 18446744073709551616 0 - 0 0",
    "add 1 - - 0 0",
    "block 0 2",
    "mark 0 -",
    "mark 0 4294967296",
    "ack 0 0 -",
    "resend 0 0",
    "remove",
    "remove 0 0",
    "lend sent 65538",
    "lend received 67108866",
    "lend records 65538",
    "lend records 4294967296",
    "lend record 64",
    "lend kept 65536",
    "lend sent",
    "fresh 0",
    "fresh 4294967296 1",
    "fresh 0 4294967296",
    "fresh 0 1 4294967296",
    "fresh 0 1 -",
    "fresh 0 1 064",
    "fresh 0 1 64 64",
    "read",
    "read 0",
    "read xx",
    "read " + "00" * 2049,
    "write 10",
    "write 2049 5",
    "write 10 0",
    "write 10 17",
    "write 10 256",
    "write 10 4 0",
    "write 10 4 5",
    "write 10 4",
    "write 10 5 0",
    "write 10 7",
    "write 10 9 1",
    "write 10 14 2",
    "write 10 7 4294967296",
    "due 1",
    "close 0",
    "closed",
    "deadline",
    "deadline 1 1 1 0 0",
    "deadline 1 1 1 0 0 0 0",
    "deadline 1 1 1 0 0 2",
    "deadline 1 1 1 0 0 -",
    "deadline 01 1 1 0 0 0",
    "deadline 18446744073709551616 1 1 0 0 0",
    "deadline 1 1 1 0 18446744073709551616 0",
    "slow 10",
    "takeack",
    "# dump",
)
