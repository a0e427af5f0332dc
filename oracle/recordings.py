"""The comparison of two recordings: a model of its paper, random pairs that aim at its edges, and pairs made by hand.

Written from the paper alone; nothing is taken from the crates. oracle/recordings holds the program `comparisons` against it.
Frames are read, and distances taken, as in model.py.
"""

import collections
import re

from model import (
    CONSUMED,
    DATA,
    FAR,
    MOST_DATA,
    RECEIVE_CLOSE,
    RECEIVE_FINISH,
    SEND_FINISH,
    TEST_DATA,
    WRAP,
    Refused,
    distance,
    pattern,
    read_message,
)

NUMBERED = (DATA, CONSUMED, SEND_FINISH, RECEIVE_CLOSE, RECEIVE_FINISH)
MOST_FRAME_DIGITS = 2080
MOST_PAYLOAD_DIGITS = 2048
MOST_NUMBERS = 1024
BAD_LINE, TOO_FAR, TOO_MANY = 20, 22, 23
FIRST, SECOND = "first", "second"


# The model.


class Refusal(Exception):
    """The one line that a refused pair gets. A line of the recording is counted from 1."""

    def __init__(self, number, whose, line):
        super().__init__("refused %d %s %d" % (number, whose, line))


def lines_of(recording):
    """A line ends by a line feed. A last one without counts unless it is empty."""
    lines = recording.split(b"\n")
    return lines if lines[-1] else lines[:-1]


START = re.compile(rb"[0-9a-f]{8}").fullmatch
DIGITS = re.compile(rb"(?:[0-9a-f]{2})*").fullmatch


def bytes_of(line, most):
    """What a line's digits say; None where it is too long, odd, or has a byte that is no digit."""
    if len(line) <= most and DIGITS(line):
        return bytes.fromhex(line.decode())
    return None


def message_of(line):
    """A frame's bytes and its words: the kind, and the number where it has one. None where the line is bad."""
    frame = bytes_of(line, MOST_FRAME_DIGITS)
    if frame is None:
        return None
    try:
        return frame, read_message(frame)
    except Refused:
        return None


def read(whose, recording):
    """The start number, and each numbered message in order: its frame's line, its number, its run of bytes."""
    lines = lines_of(recording)
    if not lines or not START(lines[0]):
        raise Refusal(BAD_LINE, whose, 1)
    messages = []
    rest = iter(enumerate(lines[1:], 2))
    for place, line in rest:
        message = message_of(line)
        if message is None:
            raise Refusal(BAD_LINE, whose, place)
        run, (kind, *words) = message
        if kind == DATA:
            # An absent payload is told by the frame's line.
            below, line = next(rest, (place, None))
            payload = None if line is None else bytes_of(line, MOST_PAYLOAD_DIGITS)
            if payload is None:
                raise Refusal(BAD_LINE, whose, below)
            run += payload
        if kind in NUMBERED:
            messages.append((place, words[0], run))
    return int(lines[0], 16), messages


def need_near(whose, start, messages):
    for place, number, _ in messages:
        if distance(number, start) is None:
            raise Refusal(TOO_FAR, whose, place)


def need_few(whose, messages):
    numbers = set()
    for place, number, _ in messages:
        numbers.add(number)
        if len(numbers) > MOST_NUMBERS:
            raise Refusal(TOO_MANY, whose, place)


def judged(first, second):
    """The start number and both recordings' messages. The refusals in their order over both."""
    start, one = read(FIRST, first)
    other_start, other = read(SECOND, second)
    if start != other_start:
        raise Refusal(BAD_LINE, SECOND, 1)
    need_near(FIRST, start, one)
    need_near(SECOND, start, other)
    need_few(FIRST, one)
    need_few(SECOND, other)
    return start, one, other


def standing(messages):
    """The run that stands for each number, which is the first, and the numbers with a conflict."""
    runs, conflicts = {}, set()
    for _, number, run in messages:
        if runs.setdefault(number, run) != run:
            conflicts.add(number)
    return runs, conflicts


def how_they_part(one, other):
    """The words for two runs of one number, or for one that the other recording doesn't have; none for equal ones."""
    if other is None:
        return [FIRST]
    if one is None:
        return [SECOND]
    for place, (a, b) in enumerate(zip(one, other)):
        if a != b:
            return ["differ", "%d" % place, "%02x" % a, "%02x" % b]
    if len(one) != len(other):
        return ["begins", "%d" % min(len(one), len(other))]
    return []


def listing(start, one, other):
    """The list's lines, and the summary."""
    (runs, conflicts), (other_runs, other_conflicts) = standing(one), standing(other)
    lines, parted = [], collections.Counter()
    for number in sorted(runs.keys() | other_runs.keys(), key=lambda number: distance(number, start)):
        name = "%08x" % number
        if number in conflicts:
            lines.append(name + " conflict first")
        if number in other_conflicts:
            lines.append(name + " conflict second")
        words = how_they_part(runs.get(number), other_runs.get(number))
        if words:
            lines.append(" ".join([name, *words]))
        parted[words[0] if words else "equal"] += 1
    if not lines:
        return ["equal: %d numbers" % len(runs)]
    counts = (len(runs), len(other_runs), parted["equal"], parted[FIRST], parted[SECOND], parted["differ"], parted["begins"])
    summary = "numbers: %d first, %d second; %d equal, %d only first, %d only second, %d differ, %d begin alike" % counts
    return lines + ["%s; conflicts: %d first, %d second" % (summary, len(conflicts), len(other_conflicts))]


def compare(first, second):
    """The text for a pair, with the full stop that ends it."""
    try:
        lines = listing(*judged(first, second))
    except Refusal as refusal:
        lines = [str(refusal)]
    return "".join(line + "\n" for line in lines + ["."])


# A batch: pair after pair, each under a header with the two lengths.

MOST_RECORDING = 24576


def packed(first, second):
    assert max(len(first), len(second)) <= MOST_RECORDING
    return b"%05d %05d\n" % (len(first), len(second)) + first + second


# Recordings in the making: a start line and entries. An entry is a message, or lines as they are.


class Message(collections.namedtuple("Message", "kind number body")):
    """A numbered message. The body is a Data's payload or a Consumed's count, and empty in the others."""

    def lines(self):
        frame = b"%02x%08x" % (self.kind, self.number % WRAP)
        digits = self.body.hex().encode()
        return frame + (b"\n" if self.kind == DATA else b"") + digits


def data(number, body=b""):
    return Message(DATA, number, body)


def consumed(number, count):
    return Message(CONSUMED, number, count.to_bytes(4, "big"))


def finish(number, kind=SEND_FINISH):
    return Message(kind, number, b"")


def recording(start, *entries, end=b"\n"):
    """A recording's bytes. A start that is no number is the line itself."""
    head = b"%08x" % (start % WRAP) if isinstance(start, int) else start
    return b"\n".join([head, *(entry.lines() if isinstance(entry, Message) else entry for entry in entries)]) + end


OPENING = b"4c4941470004"
ACK = b"08%08x"


def zeros(head, size):
    """A frame of that many bytes: its head, then zeros."""
    return head + b"0" * (2 * size - len(head))


def test_data(size):
    return b"%02x" % TEST_DATA + pattern(size).hex().encode()


def damaged(size, place):
    """TestData with the last bit of one byte turned."""
    digits = 2 + 2 * place
    frame = test_data(size)
    return frame[:digits] + b"%02x" % (place % 256 ^ 1) + frame[digits + 2 :]


# Frames without a number, each kind but Ack and TestData.
UNNUMBERED = [b"03", b"0401", b"0402", b"0403", b"0404", b"05", b"06", b"0e00", b"0e01", b"0f", b"10"]
UNNUMBERED += [b"01" + OPENING, b"02" + OPENING, b"01" + OPENING + b"ff", zeros(b"02" + OPENING, 20)]

# Good lines at their greatest length, or one byte below it.
LONG_GOOD = [test_data(MOST_DATA), test_data(MOST_DATA - 1), zeros(b"01" + OPENING, 1040), zeros(b"02" + OPENING, 1039)]

# Digits that are no message: lengths, kinds, reasons and flags beside those that are, broken openings, test data off its pattern.
NO_MESSAGE = [b"", b"00", b"11", b"ff", b"0000000000", b"1100000000", b"04", b"0400", b"0405", b"040101", b"0300", b"0500", b"0600"]
NO_MESSAGE += [b"0e", b"0e02", b"0eff", b"0e0000", b"0f00", b"1000", b"01", b"02", b"0100000000"]
NO_MESSAGE += [kind + b"000000" for kind in (b"07", b"08", b"0a", b"0b", b"0c")]
NO_MESSAGE += [kind + b"0000000000" for kind in (b"07", b"08", b"0a", b"0b", b"0c")]
NO_MESSAGE += [b"0900000000", b"0900000000000000", b"09000000000000000000"]
NO_MESSAGE += [b"014c49414700", b"014c4941470003", b"024c4941470005", b"014c4941470104", b"024d4941470004"]
NO_MESSAGE += [b"024c4841470004", b"014c4940470004", b"014c4941460004", b"034c4941470004", b"014c49414704"]

NO_MESSAGE += [damaged(1, 0), damaged(2, 1), damaged(257, 0), damaged(257, 256), damaged(MOST_DATA, MOST_DATA - 1)]

# Too long for their kind, or for any frame.
LONG_BAD = [test_data(MOST_DATA + 1), zeros(b"0d", 1040), zeros(b"01" + OPENING, 1041), zeros(b"02" + OPENING, 1042)]

# No digits: the bytes beside the digits, capitals, and what text might have.
NO_DIGITS = b"/:`g@AFGx \r\t\0\x80\xff"


# Random pairs.

STARTS = (0, 0, 0xFFFFFFFF, 0xFFFFFFFF, 0x7FFFFFFF, 0x80000000, 1, 0x3FFFFFFF, 0x40000000, 0xC0000000)
BIG_ONE_IN = 500


def pair(random):
    """Two recordings: the second mostly the first with a few edits."""
    return Pair(random).made()


class Pair:
    """A pair in the making. A side is a list of entries, and the start line stands apart."""

    def __init__(self, random):
        self.random = random
        self.start = random.choice(STARTS) if self.chance(0.7) else random.getrandbits(32)
        self.is_big = self.chance(1 / BIG_ONE_IN)
        # How far most numbers are from the start.
        self.reach = 60 if self.chance(0.04) else 5

    # Choices.

    def chance(self, p):
        return self.random.random() < p

    def pick(self, *choices):
        return self.random.choice(choices)

    def number(self):
        """Less than 2^30 from the start: near it mostly, or near the wrap, at the limit, anywhere."""
        if self.chance(0.8):
            away = self.random.randint(-self.reach, 2 * self.reach)
        elif self.chance(0.4):
            away = self.pick(-1, 1) * (FAR - self.pick(1, 1, 2, 3))
        elif self.chance(0.5):
            away = distance(self.random.randint(-3, 3) % WRAP, self.start)
        else:
            away = self.random.randint(1 - FAR, FAR - 1)
        return self.number() if away is None else (self.start + away) % WRAP

    def far_number(self):
        """About 2^30 from the start, on both sides of the limit, or 2^31."""
        away = self.pick(FAR - 1, FAR, FAR, FAR + 1, FAR + 2) if self.chance(0.8) else 2**31 + self.pick(-1, 0, 1)
        return (self.start + self.pick(-1, 1) * away) % WRAP

    def body(self, kind):
        if kind == CONSUMED:
            return self.pick(0, 1, 255, 256, 2**32 - 1, self.random.getrandbits(32)).to_bytes(4, "big")
        if kind != DATA:
            return b""
        if self.chance(0.01):
            return self.random.randbytes(self.pick(MOST_DATA - 1, MOST_DATA))
        if self.chance(0.1):
            # A payload that reads as a frame.
            return bytes.fromhex((self.pick(b"0a%08x", b"07%08x", ACK) % self.number()).decode())
        return self.random.randbytes(self.pick(0, 0, 1, 1, 2, 3, 4, 5, 9))

    def message(self, number):
        kind = DATA if self.chance(0.5) else self.random.choice(NUMBERED)
        return Message(kind, number, self.body(kind))

    def altered(self, message):
        """The same number with other content."""
        kind, number, body = message
        if self.chance(0.2) or kind not in (DATA, CONSUMED):
            kind = self.random.choice([other for other in NUMBERED if other != kind])
            return Message(kind, number, self.body(kind))
        if kind == CONSUMED or (body and self.chance(0.5)):
            at = self.pick(0, len(body) // 2, len(body) - 1)
            changed = body[at] ^ self.pick(1, 0x10, 0x80, self.random.randint(1, 255))
            return Message(kind, number, body[:at] + bytes([changed]) + body[at + 1 :])
        if body and (len(body) == MOST_DATA or self.chance(0.5)):
            return Message(kind, number, body[: self.pick(len(body) - 1, self.random.randrange(len(body)))])
        return Message(kind, number, body + self.pick(b"\0", b"\xff", body[:1] or b"\1", self.random.randbytes(2)))

    def unnumbered(self):
        """A good frame that is passed over. An Ack's number may be one of the messages', or too far."""
        if self.chance(0.4):
            return ACK % (self.number() if self.chance(0.7) else self.random.getrandbits(32))
        if self.chance(0.05):
            return self.random.choice(LONG_GOOD)
        return test_data(self.random.randrange(9)) if self.chance(0.1) else self.random.choice(UNNUMBERED)

    # Edits of content. Each changes a side's entries; what they bring in is good.

    def place_of_message(self, side):
        places = [at for at, entry in enumerate(side) if isinstance(entry, Message)]
        return self.random.choice(places) if places else None

    def put(self, side, entry, after=0):
        side.insert(self.random.randint(after, len(side)), entry)

    def drop(self, side):
        if side:
            del side[self.random.randrange(len(side))]

    def swap(self, side):
        if side:
            a, b = (self.random.randrange(len(side)) for _ in range(2))
            side[a], side[b] = side[b], side[a]

    def add(self, side):
        self.put(side, self.message(self.number()))

    def alter(self, side):
        at = self.place_of_message(side)
        if at is not None:
            side[at] = self.altered(side[at])

    def repeat(self, side):
        at = self.place_of_message(side)
        if at is not None:
            self.put(side, side[at])

    def contradict(self, side):
        """A repeat with other content, mostly a later one. It may come again, or the first may, or a third content."""
        at = self.place_of_message(side)
        if at is None:
            return
        first = side[at]
        other = self.altered(first)
        self.put(side, other, after=self.pick(0, at + 1, at + 1))
        while self.chance(0.4):
            self.put(side, self.pick(first, other, self.altered(first)), after=at + 1)

    def pass_over(self, side):
        self.put(side, self.unnumbered())

    # Damage.

    def spoiled(self, line):
        """The line with a byte that is no digit, or an odd number of digits."""
        at = self.random.randrange(len(line) + 1)
        bad = self.pick(bytes([self.random.choice(NO_DIGITS)]), bytes([self.random.choice(b"ABCDEF")]))
        return self.pick(line[:at] + bad + line[at + 1 :], line + self.pick(b"0", b"\r", b" "), line[:-1])

    def bad_entry(self):
        """One bad line, or a Data frame with a bad payload."""
        frame = b"07%08x" % self.number()
        if self.chance(0.3):
            size = self.pick(0, 1, 2, 9) if self.chance(0.9) else MOST_DATA
            payload = b"ab" * size
            return frame + b"\n" + (self.spoiled(payload) if self.chance(0.8) else b"ab" * (MOST_DATA + 1))
        if self.chance(0.4):
            return self.spoiled(self.pick(frame, self.unnumbered(), self.message(self.number()).lines()))
        return self.random.choice(LONG_BAD if self.chance(0.1) else NO_MESSAGE)

    def start_line(self):
        line = b"%08x" % self.start
        if self.chance(0.985):
            return line
        if self.chance(0.5):
            return b"%08x" % ((self.start + self.pick(-1, 1, 2**31)) % WRAP)
        return self.pick(self.spoiled(line), line + b"00", line.upper(), b"")

    def damaged(self, data):
        """A byte or a line changed, wherever it falls."""
        lines = data.split(b"\n")
        at, line = self.random.randrange(len(data) + 1), self.random.randrange(len(lines))
        byte = bytes([self.random.choice(b"0123456789abcdef\n\n" + NO_DIGITS)])
        return self.pick(
            data[:at] + byte + data[at:],
            data[:at] + byte + data[at + 1 :],
            data[:at] + data[at + 1 :],
            data[:at],
            b"\n".join(lines[:line] + lines[line + 1 :]),
            b"\n".join(lines[: line + 1] + lines[line:]),
            data.replace(b"\n", b"\r\n"),
        )

    # The whole.

    def edited(self, side):
        edits = (self.drop, self.swap, self.add, self.alter, self.alter, self.repeat, self.contradict, self.pass_over)
        for _ in range(self.pick(0, 1, 1, 2, 3, self.reach)):
            self.random.choice(edits)(side)

    def rearranged(self, side):
        """What changes nothing where no content is contradicted: other order, equal repeats, frames that are passed over."""
        self.random.shuffle(side)
        for _ in range(self.pick(0, 1, 3)):
            self.pick(self.repeat, self.pass_over)(side)

    def small(self):
        numbers = {self.number() for _ in range(self.pick(0, 1, 2, 3, 4, 6, 8, 12, 2 * self.reach))}
        first = [self.message(number) for number in sorted(numbers)]
        if self.chance(0.8):
            self.random.shuffle(first)
        if self.chance(0.05):
            return first, [self.message(self.number()) for _ in range(self.random.randrange(6))]
        if self.chance(0.3):
            self.edited(first)
        second = list(first)
        (self.rearranged if self.chance(0.2) else self.edited)(second)
        if self.chance(0.2):
            self.edited(first)
        return first, second

    def big(self):
        """About as many numbers as may be, in short messages, with repeats among them."""
        away = self.random.sample(range(-600, 600), MOST_NUMBERS + 2)
        if self.chance(0.3):
            away = self.random.sample(range(1 - FAR, FAR), MOST_NUMBERS + 2)
        entries = [finish((self.start + n) % WRAP) for n in away]
        sides = []
        for _ in range(2):
            side = entries[: MOST_NUMBERS + self.pick(-1, 0, 0, 0, 1, 1, 2)]
            other = self.pick(0.02, 0.9)
            for entry in self.random.sample(side, self.pick(0, 1, 3, 900)):
                side.append(finish(entry.number, RECEIVE_CLOSE) if self.chance(other) else entry)
            side += [ACK % self.random.getrandbits(32) for _ in range(self.pick(0, 3, 50))]
            self.random.shuffle(side)
            for _ in range(self.pick(0, 0, 3)):
                self.alter(side)
            sides.append(side)
        return sides

    def finished(self, side):
        """The bytes of a side, sometimes damaged."""
        if self.chance(0.05):
            self.put(side, self.bad_entry())
        if self.chance(0.2 if self.is_big else 0.04):
            number = self.far_number()
            self.put(side, self.message(number))
            if self.chance(0.2):
                self.put(side, self.message(number))
        if self.chance(0.01):
            side.append(b"07%08x" % self.number())
        end = b"\n" if self.chance(0.9) else self.pick(b"", b"", b"", b"", b"", b"\n\n")
        data = recording(self.start_line(), *side, end=end)
        if self.chance(0.02):
            data = self.damaged(data)
        if self.chance(0.002):
            data = self.pick(b"", b"\n", b"\n\n", data[:8], data[:9])
        return data[:MOST_RECORDING]

    def made(self):
        sides = self.big() if self.is_big else self.small()
        if self.chance(0.01):
            # The same message, too far, in both.
            entry = self.message(self.far_number())
            for side in sides:
                self.put(side, entry)
        first, second = map(self.finished, map(list, sides))
        return (second, first) if self.chance(0.2) else (first, second)


# Pairs made by hand.


class Cases:
    """The pairs, each under a line that says what it shows."""

    def __init__(self):
        self.pairs = []
        self.lists()
        self.conflicts()
        self.order()
        self.lines()
        self.frames()
        self.payloads()
        self.refusals()
        self.sizes()

    def case(self, first, second, start=0):
        """A side that is a list of entries gets the start line; bytes are the recording itself."""
        sides = (side if isinstance(side, bytes) else recording(start, *side) for side in (first, second))
        self.pairs.append(tuple(sides))

    def lists(self):
        case = self.case
        # Nothing but the start number.
        case([], [])
        # One number, and "1 numbers".
        case([finish(0)], [finish(0)])
        # Equal but for the order of the messages.
        case([data(0, b"\xaa"), consumed(1, 2), finish(2)], [finish(2), data(0, b"\xaa"), consumed(1, 2)])
        # Equal but for a repeat: it counts once.
        case([data(0, b"\xaa"), data(0, b"\xaa")], [data(0, b"\xaa")])
        # Equal but for every frame without a number, and Acks of the number at hand, another, and one too far.
        case([finish(0)], [*UNNUMBERED, test_data(0), test_data(3), ACK % 0, finish(0), ACK % 1, ACK % FAR, ACK % 2**31])
        # Only in the first.
        case([finish(0), finish(1)], [finish(0)])
        # Only in the second.
        case([finish(0)], [finish(0), finish(1)])
        # All in the first, none in the second; and the other way round.
        case([finish(0), finish(1)], [])
        case([], [finish(0), finish(1)])
        # The payload's first byte differs: place 5.
        case([data(0, b"\xaa\xbb\xcc")], [data(0, b"\x0a\xbb\xcc")])
        # A byte in the middle differs, in its low digit alone.
        case([data(0, b"\xaa\xb0\xcc")], [data(0, b"\xaa\xb1\xcc")])
        # The last byte differs, in its high digit alone.
        case([data(0, b"\xaa\xbb\x0c")], [data(0, b"\xaa\xbb\xfc")])
        # Two bytes differ: the first of them is told.
        case([data(0, b"\xaa\xbb\xcc")], [data(0, b"\xaa\xb1\xc1")])
        # A byte differs before one is at its end: that is told, and no beginning.
        case([data(0, b"\xaa\xbb\xcc")], [data(0, b"\xab\xbb")])
        # The first is a beginning of the second, and the other way round.
        case([data(0, b"\xaa")], [data(0, b"\xaa\xbb")])
        case([data(0, b"\xaa\xbb")], [data(0, b"\xaa")])
        # A blank payload is a beginning of any.
        case([data(0)], [data(0, b"\0")])
        # Blank payloads are equal.
        case([data(0)], [data(0)])
        # Data against SendFinish: they differ in the kind, though the shorter run has only the number besides.
        case([data(0)], [finish(0)])
        case([finish(0)], [data(0, b"\xaa")])
        # Data whose payload is what a Consumed has for a count.
        case([data(0, b"\0\0\0\1")], [consumed(0, 1)])
        # Consumed with other counts: in the last byte, and in the first.
        case([consumed(0, 1)], [consumed(0, 2)])
        case([consumed(0, 1)], [consumed(0, 2**32 - 1)])
        # Each of the short kinds against the next.
        case([finish(0), finish(1, RECEIVE_CLOSE)], [finish(0, RECEIVE_CLOSE), finish(1, RECEIVE_FINISH)])
        # Every kind of line, and the nine counts of the summary all different.
        first = [finish(n) for n in (0, 1, 10, 11, 12, 30, 31, 32, 33, 34)] + [data(40, b"\xaa\xbb")]
        second = [finish(n) for n in (0, 1, 20, 21, 22, 23)] + [finish(n, RECEIVE_CLOSE) for n in range(30, 35)] + [data(40, b"\xaa")]
        first += [finish(n, RECEIVE_FINISH) for n in (0, 10, 11, 30, 31, 40)]
        second += [finish(n, RECEIVE_FINISH) for n in (0, 1, 20, 21, 22, 30, 40)]
        case(first, second)

    def conflicts(self):
        case, one, other, third = self.case, data(0, b"\xaa"), data(0, b"\xbb"), data(0, b"\xcc")
        # A conflict in the first. The first stands: equal.
        case([one, other], [one])
        # A conflict in the second.
        case([one], [one, other])
        # In both, with what stands equal.
        case([one, other], [one, third])
        # The first stands and not the later, so these two differ.
        case([one, other], [other])
        case([other], [one, other])
        # In both, with what stands exchanged.
        case([one, other], [other, one])
        # In both, and one stands that is a beginning of the other.
        case([one, other], [data(0), other])
        # A conflict that recurs, with the first between and after, and a third content: listed once.
        case([one, other, other, one, third, other, one], [one])
        # The same in the second.
        case([one], [one, other, one, other, third])
        # A repeat whose payload is only longer, and one that is only shorter.
        case([one, data(0, b"\xaa\xbb")], [one])
        case([one, data(0)], [one])
        # A repeat of another kind.
        case([finish(0), finish(0, RECEIVE_CLOSE)], [finish(0)])
        # A repeat of a Consumed with another count.
        case([consumed(0, 1)], [consumed(0, 1), consumed(0, 2)])
        # A conflict on a number that only the first has, and one that only the second has.
        case([finish(1), one, other], [finish(1)])
        case([finish(1)], [one, finish(1), other])
        # The content of an Ack is no conflict with the number that it acks.
        case([ACK % 0, one, ACK % 0], [one])
        # A conflict in the first on one number and in the second on another, repeats far apart.
        case([one, finish(1), finish(2), other], [finish(1), one, finish(2), finish(1, RECEIVE_FINISH)])
        # A conflict in the first is none of the second, whatever stands there.
        case([one, other], [third])

    def order(self):
        case = self.case
        some = [finish(0), finish(-2), finish(-1), finish(1)]
        # The wrap: by the distance, fffffffe comes before ffffffff and 00000000 after.
        case(some, [], start=0xFFFFFFFF)
        # The same from 0, in the second.
        case([], some)
        # By the distance and not as they came: the messages of both between each other.
        case([finish(9), finish(1), finish(5)], [finish(7), finish(3), finish(-3)], start=4)
        # Where the sign of a number itself turns.
        case([finish(2**31), finish(2**31 - 1)], [finish(2**31 + 1), finish(2**31 - 2)], start=2**31 - 1)
        case([finish(2**31), finish(2**31 - 1)], [finish(2**31 + 1), finish(2**31 - 2)], start=2**31)
        for start in (0, 0xFFFFFFFF, 0x7FFFFFFF, 0x80000000, 0x40000000, 0xC0000000):
            # 2^30 - 1 both ways, the two ends in order.
            case([finish(start + FAR - 1), finish(start - FAR + 1)], [finish(start)], start=start)
            # 2^30 after the start number, and 2^30 before it.
            case([finish(start), finish(start + FAR)], [finish(start)], start=start)
            case([finish(start)], [finish(start), finish(start - FAR)], start=start)
        # 2^31 off, and one to either side of it.
        case([finish(0), finish(2**31)], [finish(0)])
        case([finish(0), finish(2**31 - 1)], [finish(0)])
        case([finish(0)], [finish(0), finish(2**31 + 1)])
        # More than 2^30 from each other, both within it of the start.
        case([finish(FAR - 1)], [finish(-FAR + 1)])

    def lines(self):
        case, good = self.case, [finish(0)]
        # No recording at all: line 1 is missing.
        case(b"", b"")
        case(good, b"")
        case(b"", good)
        # A blank first line.
        case(b"\n", good)
        case(good, b"\n" + recording(0))
        # The start number without a line feed.
        case(b"00000000", b"00000000\n")
        # Seven digits, nine, ten; a sign, a prefix; a space before or after.
        for line in (b"0000000", b"000000000", b"0000000000", b"+0000000", b"0x000000", b" 00000000", b"00000000 "):
            case(recording(line), good)
            case(good, recording(line))
        # A capital in the second's start number, which would else be that of the first.
        case(recording(10), recording(b"0000000A"))
        # No line feed after the last frame.
        case(recording(0, finish(0), finish(1), end=b""), [finish(0)])
        # No line feed after the last payload.
        case(recording(0, data(0, b"\xaa"), end=b""), [data(0, b"\xaa")])
        # A blank payload and its line feed; without it the payload is absent: the frame's line.
        case(recording(0, data(0), end=b"\n"), [data(0)])
        case(recording(0, finish(1), data(0), end=b""), [data(0)])
        # Neither payload nor the frame's line feed.
        case([data(0)], recording(0, finish(1), b"0700000000", end=b""))
        # A blank line at the end is a frame's, and bad.
        case(recording(0, finish(0), end=b"\n\n"), good)
        # A blank line after a blank payload.
        case(good, recording(0, data(0), end=b"\n\n"))
        # A blank line between frames.
        case([finish(0), b"", finish(1)], good)
        # CR LF everywhere: bad from line 1 on.
        case(recording(0, finish(0)).replace(b"\n", b"\r\n"), good)
        # CR LF after a frame, after a payload, after a blank payload.
        case([finish(0), b"0a00000001\r"], good)
        case(good, [b"0700000000\naa\r"])
        case([b"0700000000\n\r"], good)
        # CR alone ends no line.
        case(b"00000000\r0a00000000\n", good)
        # The bytes beside the digits, and others, in a start line, a frame, a payload.
        for byte in NO_DIGITS:
            case(b"0000000%c\n" % byte, good)
            case(good, [finish(1), b"0a0000000%c" % byte])
            case([finish(1), b"0700000000\na%c" % byte], good)
        # All sixteen digits are digits.
        case([data(0x01234567, bytes.fromhex("0123456789abcdef"))], [finish(0x09ABCDEF)])

    def frames(self):
        case, good = self.case, [finish(0)]
        # Each frame that is no message: a wrong length, kind, reason, flag or opening, or test data off its pattern.
        for frame in NO_MESSAGE:
            case([finish(1), frame], good)
        # An odd number of digits: of a number, of a kind.
        case([b"0a0000000"], good)
        case(good, [b"5"])
        # TestData of 1,024 bytes, 2,050 digits, is good; of 1,025 bad.
        case([test_data(MOST_DATA), finish(0)], good)
        case([test_data(MOST_DATA + 1), finish(0)], good)
        # A Welcome of 1,040 bytes, 2,080 digits, is good; a digit more, and a byte more, is bad.
        case([finish(0)], [zeros(b"01" + OPENING, 1040), finish(0)])
        case([finish(0)], [zeros(b"01" + OPENING, 1040) + b"0", finish(0)])
        case([finish(0)], [zeros(b"01" + OPENING, 1041), finish(0)])
        # A Connect likewise, whatever its rest says.
        case([b"02" + OPENING + b"f7" * 1033, finish(0)], good)
        case([b"02" + OPENING + b"f7" * 1034, finish(0)], good)
        # A SendFinish and a TestData that go on for 2,080 digits.
        case([zeros(b"0a", 1040)], good)
        case(good, [zeros(b"0d", 1040)])

    def payloads(self):
        case, good = self.case, [finish(0)]
        # A payload of 1,024 bytes, equal, and with the last byte other.
        case([data(0, b"\xaa" * 1024)], [data(0, b"\xaa" * 1024)])
        case([data(0, b"\xaa" * 1024)], [data(0, b"\xaa" * 1023 + b"\xab")])
        # One that is a beginning of it by a byte.
        case([data(0, b"\xaa" * 1024)], [data(0, b"\xaa" * 1023)])
        # A payload of 1,025 bytes: the payload's line.
        case([finish(0), data(1, b"\xaa" * 1025)], good)
        case(good, [finish(0), data(1, b"\xaa" * 1025)])
        # 2,047 digits, and 2,049.
        case([b"0700000000\n" + b"a" * 2047], good)
        case(good, [b"0700000000\n" + b"a" * 2049])
        # A payload that reads as a frame is none: a SendFinish, a Data, a Ping.
        case([data(0, bytes.fromhex("0a00000001")), data(1, bytes.fromhex("0700000002")), data(2, b"\5"), finish(3)], good)
        # A payload that is no frame is good, and so is what follows it.
        case([data(0, b"\xff"), data(1), finish(2)], [data(0, b"\xff"), data(1), finish(2)])
        # Only Data has a payload: the line after a TestData and a Consumed is a frame.
        case([test_data(2), b"aa"], good)
        case(good, [consumed(1, 1), b"", finish(0)])

    def refusals(self):
        case, good, bad, far = self.case, [finish(0)], b"ff", finish(FAR)
        # The line is counted over payloads: frames at 2, 4 and 6, the bad line at 7.
        case([data(0), data(1, b"\xaa"), finish(2), bad, bad], good)
        # A bad payload at line 5, its frame at 4.
        case(good, [data(0), b"0700000001\nxx"])
        # The earliest of a bad payload and a bad frame.
        case([b"0700000000\na", bad], good)
        # Line 9 of the first before line 2 of the second.
        case([*map(finish, range(7)), bad], [bad])
        # A bad line of the second before 22 in the first.
        case([far], [finish(0), bad])
        # A bad line of the first before 22 in the first, though it comes later.
        case([far, finish(0), bad], good)
        # The start numbers differ: line 1 of the second.
        case(recording(0, finish(0)), recording(1, finish(0)))
        # They differ by 2^31, and at the wrap.
        case(recording(0), recording(2**31))
        case(recording(0xFFFFFFFF), recording(0))
        # A bad line of the first, and one of the second, before start numbers that differ.
        case(recording(0, finish(0), bad), recording(1))
        case(recording(0), recording(1, finish(0), bad))
        # Start numbers that differ before 22 in the first, and in the second.
        case(recording(0, far), recording(1))
        case(recording(0), recording(1, finish(0), far))
        # 22 in the first, with a Data before it: the frame's line.
        case([data(0, b"\xaa"), data(FAR, b"\xbb"), data(FAR, b"\xbb")], good)
        # 22 in the second.
        case(good, [data(0, b"\xaa"), consumed(-FAR, 3)])
        # 22 in both: the first's, though its line is later.
        case([finish(0), finish(1), far], [far])
        # The earliest of two, though the later is farther.
        case([finish(0), far, finish(2**31)], good)
        # An Ack that is too far is passed over, and the message after it isn't.
        case([ACK % FAR, ACK % 2**31, finish(-FAR)], good)
        # Each numbered kind too far.
        for kind in NUMBERED:
            case(good, [finish(0), Message(kind, FAR, b"\0" * 4 if kind == CONSUMED else b"")])

    def sizes(self):
        case, good = self.case, [finish(0)]
        # As many numbers as may be: before and after the start, every second one first.
        many = [finish(n) for n in (*range(-512, 512, 2), *range(-511, 512, 2))]
        # 1,024 numbers, in other order.
        case(many, many[::-1])
        # 1,025: 23 in the first, in the second. The line is that of the last message.
        case([*many, finish(512)], good)
        case(good, [*many, finish(512)])
        # 1,024 numbers, and then repeats, a conflict and Acks of other numbers: no 23.
        acks = [ACK % n for n in range(2000, 2100)]
        case([*many, *many[:100], finish(0, RECEIVE_CLOSE), *acks], good)
        # The same with the 1,025th number among the repeats, and a 1,026th after: the line of the 1,025th.
        case([*many[:700], *many[:50], *many[700:], *many[:50], data(-513, b"\xaa"), finish(0), finish(600)], good)
        # 23 in the first before 23 in the second.
        case([*many, finish(512)], [finish(600), *many])
        # 22 in the second before 23 in the first.
        case([*many, finish(512)], [finish(0), finish(FAR)])
        # 22 in the first before 23 in the first, though its line is later.
        case([*many, finish(512), finish(-FAR)], good)
        # A bad line of the second before 23 in the first.
        case([*many, finish(512)], [finish(0), b""])
        # The longest list: 2,048 numbers, a conflict on each, across the wrap of the number itself.
        twice = [*many, *(finish(message.number, RECEIVE_CLOSE) for message in many)]
        case(twice, [message._replace(number=message.number + MOST_NUMBERS) for message in twice])
        # The longest recordings, which differ in their very last byte.
        longest = [data(n, b"\xaa" * (948 if n == 0 else 1024)) for n in range(12)]
        ends = [recording(0, *longest, end=b"")[:-1] + digit for digit in (b"a", b"b")]
        assert [len(one) for one in ends] == [MOST_RECORDING] * 2
        case(*ends)
        # A longest recording that is one line.
        case(good, b"0" * MOST_RECORDING)


def cases():
    return Cases().pairs
