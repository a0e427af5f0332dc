#!/usr/bin/env python3
"""What the replay program answers, by document 01 and requests [2], [5] and [11] of 02 alone: "The replay program", "Message bytes (002)",
"Receive" and "Hand out".

It is a model of its own: nothing here is taken from the crates. `input` writes the hand-made cases, `answers` the answers to what
it reads from standard input. From the root of the repository:

    python3 oracle/replay.py input > crates/replay/stdin
    python3 oracle/replay.py answers < crates/replay/stdin > crates/replay/stdout

Input in pieces (`Replay`) is a second model: it sees a line when it ends, and oracle/cuttings holds it against the whole.
"""

import sys

WRAP = 2**32
FAR = 2**30
RECEIVE_BUFFER = 65_536
DATA, ACK, CONSUMED, SEND_FINISH, RECEIVE_CLOSE, RECEIVE_FINISH = 7, 8, 9, 10, 11, 12
RELIABLE = (CONSUMED, SEND_FINISH, RECEIVE_CLOSE, RECEIVE_FINISH)
BAD = 20


def distance(a, b):
    """The difference, wrapped and read as signed; None where it is 2^30 or more either way, which request [5] calls far."""
    n = (a - b) % WRAP
    signed = n - WRAP if n >= WRAP // 2 else n
    return signed if -FAR < signed < FAR else None


def number(four):
    return int.from_bytes(four, "big")


def pattern(size):
    """"bytes 0, 1, 2 .. each modulo 256": what a TestData must hold, by request [11] of document 02."""
    return bytes(n % 256 for n in range(size))


def reading(frame):
    """What a frame reads as: kind, number and count, or None for bytes that are not a message."""
    if not frame:
        return None
    kind, body = frame[0], frame[1:]
    if kind in (1, 2):  # "must open with kind, the five bytes `LIAG\0` and version byte 4; .. ignores the rest"
        return (kind, 0, 0) if body[:6] == b"LIAG\0\4" else None
    if kind in (3, 5, 6, 15, 16):
        return (kind, 0, 0) if not body else None
    if kind == 4:
        return (kind, 0, 0) if len(body) == 1 and 1 <= body[0] <= 4 else None
    if kind in (DATA, ACK, SEND_FINISH, RECEIVE_CLOSE, RECEIVE_FINISH):
        return (kind, number(body), 0) if len(body) == 4 else None
    if kind == CONSUMED:
        return (kind, number(body[:4]), number(body[4:])) if len(body) == 8 else None
    if kind == 13:
        return (kind, 0, 0) if len(body) <= 1024 and body == pattern(len(body)) else None
    if kind == 14:
        return (kind, 0, 0) if len(body) == 1 and body[0] <= 1 else None
    return None


class End:
    """The receiving half of an end, with the one link's acks. Nothing is sent, so nothing is unconsumed."""

    def __init__(self):
        self.expected = 0
        self.ready = []
        self.held = {}
        self.acks = 0
        self.untold = 0

    def receive(self, kind, n, count, size):
        offset = distance(n, self.expected)
        oldest = self.ready[0][0] if self.ready else self.expected
        untaken = sum(s for _, s in self.ready) + sum(s for _, s in self.held.values())
        if size > 1024:
            return 7
        if offset is None:
            return 22
        again = offset < 0 or n in self.held
        if not again and offset > 65_536:
            return 11
        if not again and distance(n, oldest) >= 64:
            return 12
        if self.acks == 64:
            return 13
        if not again and untaken + size > RECEIVE_BUFFER:
            return 14
        if not again and kind == CONSUMED and count > 0:
            return 15
        self.acks += 1
        if not again:
            self.held[n] = (kind, size)
            while self.expected in self.held:
                kind, size = self.held.pop(self.expected)
                if kind in (DATA, SEND_FINISH):
                    self.ready.append((self.expected, size))
                self.expected = (self.expected + 1) % WRAP
        return 0

    def take_all(self):
        self.acks = 0
        while self.ready and self.untold + self.ready[0][1] < WRAP:
            self.untold += self.ready.pop(0)[1]


def bytes_of(line):
    """The bytes that a line's digits spell, or None."""
    if len(line) % 2 or any(c not in b"0123456789abcdef" for c in line):
        return None
    return bytes.fromhex(line.decode())


def answers(data):
    """The answer to each frame and the next expected number after it."""
    lines = data.split(b"\n")
    if lines[-1] == b"":
        lines.pop()
    end = End()
    at = 0
    while at < len(lines):
        frame = bytes_of(lines[at])
        at += 1
        read = None if frame is None or len(frame) > 1040 else reading(frame)
        if read is None:
            answer = BAD
        elif read[0] == DATA:
            payload = bytes_of(lines[at]) if at < len(lines) else None
            at += 1
            if payload is None or len(payload) > 1024:
                answer = BAD
            else:
                answer = end.receive(DATA, read[1], 0, len(payload))
        elif read[0] in RELIABLE:
            answer = end.receive(*read, 0)
        else:
            answer = 0
        end.take_all()
        yield answer, end.expected


LINE_TEXT = 12


def line_of(answer, expected):
    """"answer in two hex digits, a space, next expected number in eight"."""
    return b"%02x %08x\n" % (answer, expected)


def text_of(data):
    """What the program writes for a whole input."""
    return b"".join(line_of(*one) for one in answers(data))


class Replay:
    """A replay that is handed its input in pieces, cut anywhere."""

    def __init__(self):
        self.end = End()
        self.line = b""
        self.waiting = None  # the number of a Data whose payload is the next line

    def answer(self, line):
        """The text of a line that has ended; of a Data's frame, none yet."""
        found = bytes_of(line)
        if self.waiting is not None:
            number, self.waiting = self.waiting, None
            bad = found is None or len(found) > 1024
            return self.told(BAD if bad else self.end.receive(DATA, number, 0, len(found)))
        read = None if found is None or len(found) > 1040 else reading(found)
        if read is not None and read[0] == DATA:
            self.waiting = read[1]
            return b""
        if read is None:
            return self.told(BAD)
        return self.told(self.end.receive(*read, 0) if read[0] in RELIABLE else 0)

    def told(self, answer):
        self.end.take_all()
        return line_of(answer, self.end.expected)

    def feed(self, piece, room):
        """How many bytes of the piece are used, and the text: no line is gone on with whose text may not fit."""
        used, text = 0, b""
        while used < len(piece) and len(text) + LINE_TEXT <= room:
            end = piece.find(b"\n", used)
            if end < 0:
                self.line += piece[used:]
                return len(piece), text
            line, self.line = self.line + piece[used:end], b""
            text += self.answer(line)
            used = end + 1
        return used, text

    def close(self):
        """The text of a last line without a line feed, or of an absent payload."""
        text = self.answer(self.line) if self.line else b""
        if self.waiting is not None:
            self.waiting = None
            text = self.told(BAD)
        self.line = b""
        return text


def data(n, payload):
    return [f"07{n % WRAP:08x}", payload]


def numbered(kind, n):
    return [f"{kind:02x}{n % WRAP:08x}"]


def consumed(n, count):
    return [f"09{n % WRAP:08x}{count:08x}"]


def cases():
    """Lines, in the order of the program's paragraph."""
    # the paper's example
    yield from data(1, "aa") + data(0, "bb") + data(0, "bb") + data(65_539, "cc")
    # each of the five kinds, at once
    yield from data(2, "00ff") + consumed(3, 0) + numbered(10, 4) + numbered(11, 5) + numbered(12, 6)
    # and out of order, so that one frame passes several
    yield from numbered(12, 9) + numbered(10, 8) + consumed(10, 0) + data(7, "0123456789abcdef")
    # a Consumed of what was never sent: new, and then old
    yield from consumed(11, 1) + consumed(11, 0) + consumed(11, 1)
    # other good frames
    yield "014c49414700" + "04"
    yield "024c49414700" + "04ffff"
    yield from ("03", "0401", "0404", "05", "06", "0f", "10", "0d", "0d00", "0d" + pattern(1024).hex(), "0e00", "0e01")
    yield from numbered(8, 12)
    # bad frames: no message, none of the lengths, handshakes of another head
    yield from ("00", "11", "ff", "0400", "0405", "0e02", "0300", "07", "07000000", "0700000000aa", "090000000c")
    yield from ("0900000000000000000000", "0d" + "00" * 1025, "014c49414700" + "05", "014c494147")
    # bad frames: TestData of a byte too many, and off its pattern at the first byte, at the 257th and at the last
    yield from ("0d" + pattern(1025).hex(), "0d01", "0d" + pattern(256).hex() + "01", "0d" + pattern(1023).hex() + "fe")
    # not digits: upper case, an odd number, a blank line, a line of CR or NUL, digits with one, a space, a sign, bytes past 127
    yield from ("0F", "0e0", "", "\r", "05\r", "\0", "05\0", " 05", "05 ", "0x05", "+5", "0g", "05:", "0`", "0/", "é5")
    # a bad frame takes no payload line with it: the next line is a frame
    yield from ("070000000C", "05", "0700000", "05")
    # 1,040 bytes of a frame that reads as Connect, whatever follows its head, and 1,041; and 2,081 digits
    yield from ("024c49414700" + "04" + "ab" * 1033, "024c49414700" + "04" + "ab" * 1034, "024c49414700" + "04" + "ab" * 1033 + "a")
    yield "zz" * 5000
    # payloads: blank, of 1,024 bytes, bad, over 1,024 bytes, over 2,080 digits; none of the bad ones is received
    yield from data(12, "") + data(13, "5a" * 1024)
    yield from data(14, "5A") + data(14, "5") + data(14, "zz") + data(14, "05\r")
    yield from data(14, "5a" * 1025) + data(14, "5a" * 1040) + data(14, "5a" * 1041) + data(14, "5a" * 4000)
    # a frame in the payload's place is the payload
    yield from data(14, "05") + data(15, "0700000010")
    # the window: 63 past the next expected is held, 64 is not; 65,536 past is still 12, 65,537 past is 11
    yield from data(16 + 63, "01") + data(16 + 64, "01") + data(16 + 65_536, "01") + data(16 + 65_537, "01")
    # a repeat of one that is held, and of old ones, with other bytes, of another kind, and 2^30 - 1 before the next expected
    yield from data(16 + 63, "02") + data(0, "ee") + numbered(12, 0) + consumed(2, 9) + data(16 - FAR + 1, "")
    # 2^30 - 1 past it is 11; 2^30 and more is far, either way and of every kind; with a bad payload it is bad
    yield from data(16 + FAR - 1, "") + data(16 + FAR, "") + data(16 - FAR, "") + data(16 + 2**31, "") + data(16 + FAR, "5a" * 1025)
    yield from consumed(16 + FAR, 1) + numbered(10, 16 - FAR) + numbered(11, 16 + 2**31 - 1) + numbered(12, 16 - FAR - 1)
    # more repeats than acks wait: each was taken
    for _ in range(70):
        yield from data(3, "")
    # held until the gap closes; then all are taken at once, with the one that was held
    for k in range(17, 79):
        yield from data(k, "7e")
    yield from data(16, "7e")
    # a window full of data, which is the receive buffer exactly; before it the gap's payload is one byte too long
    for k in range(81, 144):
        yield from data(k, "7e" * 1024)
    yield from data(80, "7e" * 1025) + data(80, "7e" * 1024)
    # and once more, since all of it was taken
    yield from data(144, "7e" * 1024) + data(145, "7e")
    # more answers than the program's buffer has room for: 4,096 bytes are 341 lines
    for _ in range(1000):
        yield "05"
    # the last line, without a line feed: a Data without its payload
    yield from numbered(7, 146)


def main():
    if sys.argv[1:] == ["input"]:
        sys.stdout.buffer.write("\n".join(cases()).encode())
    elif sys.argv[1:] == ["answers"]:
        sys.stdout.buffer.write(text_of(sys.stdin.buffer.read()))
    else:
        sys.exit(__doc__)


if __name__ == "__main__":
    main()
