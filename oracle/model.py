#!/usr/bin/env python3
"""Document 01 and requests [1], [4], [5], [8], [9] and [11] of 02 as a model: answers the scripted calls of CALLS.md. Written from these papers alone.

    python3 oracle/model.py < SCRIPT
    python3 oracle/model.py --sound < SCRIPT     also asks after every call that the state is sound

Nothing here is taken from the crates or from the original; oracle/compare holds all three against each other.
"""

import collections
import re
import sys

WRAP = 2**32
MOST_TOTAL = WRAP - 1
MOST_TIME = 2**56
MOST_FACTOR = 1000
TOO_LARGE = 2**64
SLOTS = 8
PACKETS = 64
ACKS = 64
MOST_DATA = 1024
SENT_STORE = PACKETS * MOST_DATA
# 64 cells times a power of two, up to 65,536 (02, [8]).
CELL_COUNTS = tuple(64 * 2**n for n in range(11))
LEAST_CELLS, MOST_CELLS = CELL_COUNTS[0], CELL_COUNTS[-1]
USABLE_INTERVAL = 65536
# From here on, either way, two numbers are far from each other.
FAR = 2**30

DATA, CONSUMED, SEND_FINISH, RECEIVE_CLOSE, RECEIVE_FINISH = 7, 9, 10, 11, 12

SENT, RECEIVED, QUEUED = "sent", "received", "queued"


class Refused(Exception):
    """A call's refusal, by its number."""

    def __init__(self, number):
        super().__init__(number)
        self.number = number


class NotACall(Exception):
    """A line that answers `?`."""


def distance(a, b):
    """The one place where distance is asked for (02, [5]): the difference, wrapped at 2^32 and read as signed. None says "far"."""
    n = (a - b) % WRAP
    signed = n - WRAP if n >= WRAP // 2 else n
    return signed if -FAR < signed < FAR else None


def need_near(a, b):
    """The distance of two numbers that must not be far from each other."""
    away = distance(a, b)
    if away is None:
        raise Refused(22)
    return away


def is_past(a, b, least, most):
    """Whether a is past b by so many numbers, from the least to the most. Of far numbers none is past the other."""
    away = distance(a, b)
    return away is not None and least <= away <= most


def before(a, b):
    """Of far numbers none is before the other."""
    away = distance(a, b)
    return away is not None and away < 0


class Link:
    """A row, as adding leaves it."""

    def __init__(self, identity, roundtrip, max_ping, blocked, unconfirmed):
        self.identity = identity
        self.roundtrip = roundtrip
        self.max_ping = max_ping
        self.blocked = blocked
        self.unconfirmed = unconfirmed
        self.zero = False
        self.mark = None
        self.ping = None
        self.unacked = 0
        self.acks = []


class Packet:
    """A packet of the table. A queued one remembers the identity that it was last sent on, and every one whether it was resent."""

    def __init__(self, number, slot, identity, time, kind, count, length):
        self.number = number
        self.status = SENT
        self.slot = slot
        self.identity = identity
        self.time = time
        self.flushed = None
        self.resent = False
        self.kind = kind
        self.count = count
        self.length = length


class Message:
    """A received message that is ready or held."""

    def __init__(self, number, kind, count, length):
        self.number = number
        self.kind = kind
        self.count = count
        self.length = length


class End:
    """A state with its two stores. What a record says of a cell is the message that is ready or held there."""

    def __init__(self, start, buffer, cells, records):
        if cells not in CELL_COUNTS or not 1 <= buffer <= cells * MOST_DATA:
            raise Refused(21)
        if records != cells:
            raise Refused(2)
        self.cells = cells
        self.links = [None] * SLOTS
        self.tx = start
        self.packets = []
        self.queue = []
        self.unacked = 0
        self.unconsumed = 0
        self.unconsumable = 0
        self.last = (start - 1) % WRAP
        self.finished = False
        self.closed = False
        self.open = True
        self.rx = start
        self.ready = collections.deque()
        self.held = {}
        self.untaken = 0
        self.untold = 0
        self.buffer = buffer
        self.time = 0
        self.sent = bytearray(SENT_STORE)
        # The received store by its cells, each from its first use on: the largest store has 64 MiB.
        self.kept = {}
        # The lengths that a `lend` has set; all else is lent as it must be.
        self.lent = {}

    # What several calls ask.

    def length_of(self, name):
        """The length that a store, or the record space, must be lent with."""
        return {"sent": SENT_STORE, "received": self.cells * MOST_DATA, "records": self.cells}[name]

    def need_lent(self, *names):
        if any(self.lent.get(name, self.length_of(name)) != self.length_of(name) for name in names):
            raise Refused(2)

    def need_time(self, time):
        if time < self.time or time > MOST_TIME:
            raise Refused(3)

    def live(self, slot):
        if slot >= SLOTS or self.links[slot] is None:
            raise Refused(4)
        return self.links[slot]

    def need_data(self, kind, data):
        if len(data) > MOST_DATA or (data and kind != DATA):
            raise Refused(7)

    def oldest(self):
        """The number that refusal 12 counts from."""
        return self.ready[0].number if self.ready else self.rx

    # Links.

    def add(self, identity, roundtrip, max_ping, blocked, unconfirmed):
        if roundtrip > MOST_TIME or (max_ping is not None and max_ping > MOST_TIME):
            raise Refused(3)
        if None not in self.links:
            raise Refused(5)
        if any(link and link.identity == identity for link in self.links):
            raise Refused(6)
        slot = self.links.index(None)
        self.links[slot] = Link(identity, roundtrip, max_ping, blocked, unconfirmed)
        return slot

    def confirm(self, slot):
        self.live(slot).unconfirmed = False

    def block(self, slot, blocked):
        self.live(slot).blocked = blocked

    def mark(self, slot, number):
        self.live(slot).mark = number

    def ping(self, slot, time):
        self.need_time(time)
        self.live(slot).ping = time
        self.time = time

    def pong(self, slot, time):
        self.need_time(time)
        link = self.live(slot)
        if link.ping is not None:
            link.roundtrip = time - link.ping
            link.zero = False
            link.ping = None
        self.time = time

    def unconfirm(self, slot):
        link = self.live(slot)
        link.unconfirmed = True
        link.mark = None
        link.unacked = 0
        for packet in self.packets:
            if packet.status == SENT and packet.slot == slot:
                packet.status = QUEUED
        self.queue = [packet.number for packet in self.packets if packet.status == QUEUED]

    def remove(self, slot):
        self.unconfirm(slot)
        self.links[slot] = None

    def slow(self, rows):
        if rows != SLOTS:
            raise Refused(4)
        confirmed = [(slot, link) for slot, link in enumerate(self.links) if link and not link.unconfirmed]
        above = [slot for slot, link in confirmed if link.max_ping is not None and link.roundtrip > link.max_ping]
        if all(link.blocked or link.max_ping is None or slot in above for slot, link in confirmed):
            return []
        return above

    # Sending.

    def send(self, slot, time, kind, count, data):
        self.need_lent("sent")
        self.need_time(time)
        link = self.live(slot)
        self.need_data(kind, data)
        if kind in (DATA, SEND_FINISH) and self.finished:
            raise Refused(8)
        length = len(data)
        if max(self.unacked, self.unconsumed, link.unacked) + length > MOST_TOTAL:
            raise Refused(9)
        if kind == CONSUMED and not 1 <= count <= self.untold:
            raise Refused(9)
        if len(self.packets) == PACKETS:
            raise Refused(10)
        number = self.tx
        at = number % PACKETS * MOST_DATA
        self.sent[at : at + length] = data
        self.packets.append(Packet(number, slot, link.identity, time, kind, count, length))
        self.tx = (number + 1) % WRAP
        self.unacked += length
        self.unconsumed += length
        link.unacked += length
        if kind == SEND_FINISH:
            self.finished = True
        if kind == CONSUMED:
            self.untold -= count
        self.time = time
        return number

    def resend(self, slot, time, number):
        self.need_time(time)
        link = self.live(slot)
        if number not in self.queue:
            raise Refused(16)
        packet = next(packet for packet in self.packets if packet.number == number)
        if packet.identity == link.identity:
            raise Refused(17)
        packet.status = SENT
        packet.slot, packet.identity, packet.time, packet.flushed = slot, link.identity, time, None
        packet.resent = True
        self.queue.remove(number)
        link.unacked += packet.length
        if link.mark is not None and before(number, link.mark):
            link.mark = number
        self.time = time
        return packet

    def flush(self, slot, time):
        self.need_time(time)
        self.live(slot)
        for packet in self.packets:
            if packet.status == SENT and packet.slot == slot and packet.flushed is None:
                packet.flushed = time
        self.time = time

    def ack(self, slot, time, number):
        self.need_time(time)
        link = self.live(slot)
        back = need_near(self.tx, number)
        packet = None
        if 1 <= back <= len(self.packets):
            packet = self.packets[len(self.packets) - back]
        if link.mark is not None:
            away = distance(link.mark, number)
            if away is None or away <= 0:
                link.mark = None
            else:
                link.zero = True
        if packet:
            self.settle(packet, slot, link, time)
        while self.packets:
            self.last = self.packets[0].number
            if self.packets[0].status != RECEIVED:
                break
            self.unconsumable -= self.packets.pop(0).length
        self.time = time

    def settle(self, packet, slot, link, time):
        if packet.status == SENT and packet.slot == slot:
            link.unacked -= packet.length
            elapsed, trip = time - packet.time, link.roundtrip
            if link.zero:
                link.roundtrip = elapsed
            elif elapsed > trip:
                link.roundtrip = (trip + 3 * elapsed) // 4
            else:
                link.roundtrip = (99 * trip + elapsed) // 100
            link.zero = False
        elif packet.status == QUEUED:
            self.queue.remove(packet.number)
        else:
            return
        packet.status = RECEIVED
        self.unacked -= packet.length
        self.unconsumable += packet.length

    # Confirmation deadlines (02, [1]).

    def first_sent(self):
        """The first packet in table order that is Sent."""
        return next((packet for packet in self.packets if packet.status == SENT), None)

    def wait(self, packet, factors, unreliable):
        """The round trip of the packet's link times the factors that it meets, before the bounds."""
        roundtrip_factor, resent_factor, unreliable_factor = factors
        wait = self.links[packet.slot].roundtrip * roundtrip_factor
        if packet.resent:
            wait *= resent_factor
        if unreliable:
            wait *= unreliable_factor
        return wait

    def deadline(self, roundtrip_factor, resent_factor, unreliable_factor, least, most, unreliable):
        """The first Sent packet's slot, whether it was flushed, and its deadline; nothing when no packet is Sent."""
        factors = (roundtrip_factor, resent_factor, unreliable_factor)
        if any(not 1 <= factor <= MOST_FACTOR for factor in factors) or least > most or max(least, most) > MOST_TIME:
            raise Refused(21)
        packet = self.first_sent()
        if packet is None:
            return []
        wait = self.wait(packet, factors, unreliable)
        wait = most if wait >= TOO_LARGE else min(max(wait, least), most)
        flushed = packet.flushed is not None
        return [packet.slot, flushed, (packet.flushed if flushed else packet.time) + wait]

    # Receiving and handing out.

    def receive(self, slot, kind, number, count, data):
        self.need_lent("received", "records")
        link = self.live(slot)
        self.need_data(kind, data)
        length = len(data)
        offset = need_near(number, self.rx)
        new = offset >= 0 and number not in self.held
        if new and offset > USABLE_INTERVAL:
            raise Refused(11)
        if new and not is_past(number, self.oldest(), 0, self.cells - 1):
            raise Refused(12)
        if len(link.acks) == ACKS:
            raise Refused(13)
        if new and kind == DATA and self.untaken + length > self.buffer:
            raise Refused(14)
        if new and kind == CONSUMED and count > self.unconsumed:
            raise Refused(15)
        link.acks.append(number)
        if not new:
            return
        self.kept.setdefault(number % self.cells, bytearray(MOST_DATA))[:length] = data
        self.held[number] = Message(number, kind, count, length)
        if kind == DATA:
            self.untaken += length
        elif kind == CONSUMED:
            self.unconsumed -= count
        elif kind == RECEIVE_CLOSE:
            self.closed = True
        elif kind == RECEIVE_FINISH:
            self.finished = True
        while self.rx in self.held:
            message = self.held.pop(self.rx)
            if message.kind in (DATA, SEND_FINISH):
                self.ready.append(message)
            self.rx = (self.rx + 1) % WRAP

    def show(self):
        self.need_lent("received", "records")
        if not self.ready:
            raise Refused(19)
        return self.kept_bytes(self.ready[0])

    def take(self):
        self.need_lent("records")
        if not self.ready:
            raise Refused(19)
        message = self.ready[0]
        if message.kind == DATA:
            if self.untold + message.length > MOST_TOTAL:
                raise Refused(9)
            self.untaken -= message.length
            self.untold += message.length
        return self.ready.popleft()

    def take_ack(self, slot):
        link = self.live(slot)
        if not link.acks:
            raise Refused(19)
        return link.acks.pop(0)

    def close(self):
        self.open = False

    def due_above(self):
        return self.buffer // 10 if self.open else 0

    def due(self):
        return self.untold > self.due_above()

    # What is shown.

    def sent_bytes(self, packet):
        at = packet.number % PACKETS * MOST_DATA
        return self.sent[at : at + packet.length]

    def kept_bytes(self, message):
        return self.kept[message.number % self.cells][: message.length]

    def messages(self):
        """The ready messages, oldest first, and then the held ones in the order of their numbers."""
        return [*self.ready, *self.held_in_order()]

    def held_in_order(self):
        return [self.held[n] for n in sorted(self.held, key=lambda n: distance(n, self.rx))]

    def dump(self):
        out = [
            "end %d %d %d %d %d %d %d %d %d %d %d %d %d %d"
            % (
                self.tx,
                self.unacked,
                self.unconsumed,
                self.unconsumable,
                self.last,
                self.finished,
                self.closed,
                self.rx,
                self.untaken,
                self.untold,
                self.buffer,
                self.time,
                self.open,
                self.cells,
            )
        ]
        for slot, link in enumerate(self.links):
            if link:
                line = "link %d %d %d %s %d %d %d %s %s %d" % (
                    slot,
                    link.identity,
                    link.roundtrip,
                    or_none(link.max_ping),
                    link.blocked,
                    link.unconfirmed,
                    link.zero,
                    or_none(link.mark),
                    or_none(link.ping),
                    link.unacked,
                )
                out.append(" ".join([line, *map(str, link.acks)]))
        for p in self.packets:
            if p.status == SENT:
                sent = "%d %d %d %s %d" % (p.slot, p.identity, p.time, or_none(p.flushed), p.resent)
                what = "%s %d %d %d" % (sent, p.kind, p.count, p.length)
            elif p.status == RECEIVED:
                what = "%d" % p.length
            else:
                what = "%d %d %d %d" % (p.identity, p.kind, p.count, p.length)
            out.append("packet %d %s %s" % (p.number, p.status, what))
        if self.queue:
            out.append(" ".join(["queue", *map(str, self.queue)]))
        out += ["ready %d %d %d" % (m.number, m.kind, m.length) for m in self.ready]
        out += ["held %d %d %d %d" % (m.number, m.kind, m.count, m.length) for m in self.held_in_order()]
        for p in self.packets:
            if p.status != RECEIVED and p.length:
                out.append("sent %d %s" % (p.number % PACKETS, self.sent_bytes(p).hex()))
        for m in self.messages():
            if m.length:
                out.append("kept %d %s" % (m.number % self.cells, self.kept_bytes(m).hex()))
        return out

    def sound(self):
        """The paragraph "Sound means", clause by clause."""
        sent = [p for p in self.packets if p.status == SENT]
        queued = [p for p in self.packets if p.status == QUEUED]
        received = [p for p in self.packets if p.status == RECEIVED]
        live = [(slot, link) for slot, link in enumerate(self.links) if link]
        identities = [link.identity for _, link in live]
        messages = self.messages()
        since = [distance(m.number, self.oldest()) for m in self.ready]
        times = [p.time for p in sent] + [p.flushed for p in sent if p.flushed is not None]
        times += [link.ping for _, link in live if link.ping is not None]
        sizes = [self.unacked, self.unconsumed, self.unconsumable, self.untold, self.untaken]
        return (
            [p.number for p in self.packets] == [(self.tx - n) % WRAP for n in range(len(self.packets), 0, -1)]
            and not (self.packets and self.packets[0].status == RECEIVED)
            and all(self.links[p.slot] and self.links[p.slot].identity == p.identity for p in sent)
            and self.queue == [p.number for p in queued]
            and all(link.unacked == sum(p.length for p in sent if p.slot == slot) for slot, link in live)
            and self.unacked == sum(p.length for p in sent + queued)
            and self.unconsumable == sum(p.length for p in received)
            and self.untaken == sum(m.length for m in messages if m.kind == DATA) <= self.buffer
            and len(set(identities)) == len(identities)
            and all(m.kind in (DATA, SEND_FINISH) and before(m.number, self.rx) for m in self.ready)
            and all(is_past(m.number, self.oldest(), 0, self.cells - 1) for m in messages)
            and since == sorted(set(since))
            and all(before(self.rx, number) for number in self.held)
            and is_past(self.rx, self.oldest(), 0, self.cells)
            and all(time <= self.time for time in times)
            and len(self.packets) <= PACKETS
            and all(len(link.acks) <= ACKS and link.roundtrip <= MOST_TIME for _, link in live)
            and all(0 <= n <= MOST_TOTAL for n in sizes)
            and all(p.length <= MOST_DATA for p in self.packets)
            and all(m.length <= MOST_DATA for m in messages)
            and self.time <= MOST_TIME
            and self.cells in CELL_COUNTS
            and 1 <= self.buffer <= self.cells * MOST_DATA
        )


# Messages (002).

HANDSHAKES = (1, 2)
REFUSED, TEST_DATA, SET_BLOCK = 4, 13, 14
NUMBERED = (7, 8, 10, 11, 12)
ALONE = (3, 5, 6, 15, 16)
OPENING = b"LIAG\0\4"


def pattern(size):
    """The bytes of a TestData."""
    return bytes(n % 256 for n in range(size))


def read_message(frame):
    """The words of the message that all of the frame is."""
    kind, body = frame[:1], frame[1:]
    kind = kind[0] if kind else 0
    if kind in HANDSHAKES and body[: len(OPENING)] == OPENING:
        return [kind]
    if kind in ALONE and not body:
        return [kind]
    if kind == REFUSED and len(body) == 1 and 1 <= body[0] <= 4:
        return [kind, body[0]]
    if kind in NUMBERED and len(body) == 4:
        return [kind, int.from_bytes(body, "big")]
    if kind == CONSUMED and len(body) == 8:
        return [kind, int.from_bytes(body[:4], "big"), int.from_bytes(body[4:], "big")]
    if kind == TEST_DATA and len(body) <= MOST_DATA and body == pattern(len(body)):
        return [kind, len(body)]
    if kind == SET_BLOCK and len(body) == 1 and body[0] <= 1:
        return [kind, body[0]]
    raise Refused(20)


def write_message(room, message):
    """The bytes of a message, which must fit the room."""
    kind, rest = message[0], message[1:]
    if kind in HANDSHAKES or (kind == TEST_DATA and rest[0] > MOST_DATA):
        raise Refused(20)
    if kind == TEST_DATA:
        body = pattern(rest[0])
    elif kind in (REFUSED, SET_BLOCK):
        body = bytes(rest)
    else:
        body = b"".join(number.to_bytes(4, "big") for number in rest)
    if 1 + len(body) > room:
        raise Refused(7)
    return bytes([kind]) + body


# The words of a line.

MOST_BYTES = 2048
# One more than the longest that is right.
MOST_LENT = {"sent": SENT_STORE + 1, "received": MOST_CELLS * MOST_DATA + 1, "records": MOST_CELLS + 1}
PLAIN = re.compile(r"0|[1-9][0-9]{0,19}").fullmatch
HEX = re.compile(r"(?:[0-9a-f]{2})+").fullmatch


def number_below(limit):
    def parse(word):
        if PLAIN(word):
            number = int(word)
            if number < limit:
                return number
        raise NotACall

    return parse


u8, u32, u64 = number_below(2**8), number_below(2**32), number_below(2**64)
flag = number_below(2)


def time_or_none(word):
    return None if word == "-" else u64(word)


def data(word):
    if word == "-":
        return b""
    if HEX(word) and len(word) <= 2 * MOST_BYTES:
        return bytes.fromhex(word)
    raise NotACall


def reliable(kind):
    kind = u8(kind)
    if kind not in (DATA, CONSUMED, SEND_FINISH, RECEIVE_CLOSE, RECEIVE_FINISH):
        raise NotACall
    return kind


def lendable(word):
    if word not in MOST_LENT:
        raise NotACall
    return word


def reason(word):
    if word not in ("1", "2", "3", "4"):
        raise NotACall
    return int(word)


# What a message has after its kind.
WORDS = {kind: [u32] for kind in NUMBERED}
WORDS.update({kind: [] for kind in HANDSHAKES + ALONE})
WORDS.update({REFUSED: [reason], CONSUMED: [u32, u32], TEST_DATA: [u32], SET_BLOCK: [flag]})

CALLS = {
    "fresh": [u32, u32, u32],
    "add": [u64, u64, time_or_none, flag, flag],
    "remove": [u8],
    "confirm": [u8],
    "unconfirm": [u8],
    "block": [u8, flag],
    "ping": [u8, u64],
    "flush": [u8, u64],
    "pong": [u8, u64],
    "mark": [u8, u32],
    "send": [u8, u64, reliable, u32, data],
    "resend": [u8, u64, u32],
    "ack": [u8, u64, u32],
    "receive": [u8, reliable, u32, u32, data],
    "show": [],
    "take": [],
    "takeack": [u8],
    "due": [],
    "close": [],
    "deadline": [u64, u64, u64, u64, u64, flag],
    "slow": [number_below(SLOTS + 2)],
    "dump": [],
    "read": [data],
    "lend": [lendable, u32],
}
STATELESS = ("fresh", "read", "write")


def parse(line):
    """The call's name and arguments."""
    name, *words = line.split(" ")
    if name == "write":
        if len(words) < 2:
            raise NotACall
        return name, [number_below(MOST_BYTES + 1)(words[0]), parse_message(words[1:])]
    if name == "slow" and not words:
        words = [str(SLOTS)]
    if name == "fresh" and len(words) == 2:
        words.append(str(LEAST_CELLS))
    types = CALLS.get(name)
    if types is None or len(types) != len(words):
        raise NotACall
    args = [read(word) for read, word in zip(types, words)]
    if name == "send" and args[2] != CONSUMED and args[3] != 0:
        raise NotACall
    if name == "receive" and args[1] != CONSUMED and args[3] != 0:
        raise NotACall
    if name == "lend" and args[1] > MOST_LENT[args[0]]:
        raise NotACall
    return name, args


def parse_message(words):
    kind = u8(words[0])
    types = WORDS.get(kind)
    if types is None or len(types) != len(words) - 1:
        raise NotACall
    return [kind] + [read(word) for read, word in zip(types, words[1:])]


def or_none(value):
    return "-" if value is None else str(value)


def hexed(run):
    return run.hex() or "-"


class Model:
    """A script's run: the answer to each line."""

    def __init__(self):
        self.end = None

    def answer(self, line):
        try:
            name, args = parse(line)
            if self.end is None and name not in STATELESS:
                raise NotACall
            return "".join(["0", *self.perform(name, args)])
        except NotACall:
            return "?"
        except Refused as refused:
            return str(refused.number)

    def perform(self, name, args):
        """What stands after the 0, each part with what parts it from the one before."""
        end = self.end
        if name == "fresh":
            start, buffer, cells = args
            self.end = End(start, buffer, cells, end.lent.get("records", cells) if end else cells)
        elif name == "lend":
            end.lent[args[0]] = args[1]
        elif name == "read":
            return [" %d" % word for word in read_message(*args)]
        elif name == "write":
            return [" " + write_message(*args).hex()]
        elif name == "add":
            return [" %d" % end.add(*args)]
        elif name == "send":
            return [" %d" % end.send(*args)]
        elif name == "resend":
            packet = end.resend(*args)
            return [" %d %d %d %s" % (packet.kind, packet.count, packet.length, hexed(end.sent_bytes(packet)))]
        elif name == "show":
            return [" " + hexed(end.show())]
        elif name == "take":
            message = end.take()
            return [" %d %d %d" % (message.kind, message.number, message.length)]
        elif name == "takeack":
            return [" %d" % end.take_ack(*args)]
        elif name == "due":
            return [" %d" % end.due()]
        elif name == "deadline":
            return [" %d" % word for word in end.deadline(*args)]
        elif name == "slow":
            return [" %d" % slot for slot in end.slow(*args)]
        elif name == "dump":
            return ["\n" + line for line in end.dump() + ["."]]
        else:
            getattr(end, name)(*args)
        return []


def main():
    check = sys.argv[1:] == ["--sound"]
    if sys.argv[1:] and not check:
        sys.exit("usage: model.py [--sound] < SCRIPT")
    sys.stdin.reconfigure(encoding="latin-1", newline="\n")
    model = Model()
    for line in sys.stdin:
        answer = model.answer(line[:-1] if line.endswith("\n") else line)
        sys.stdout.write(answer + "\n")
        if check and model.end and not model.end.sound():
            sys.exit("not sound after: " + line)


if __name__ == "__main__":
    main()
