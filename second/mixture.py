"""Sequences as a sender sends them, and inputs that mix them by chance with frames that do not belong."""

from draw import Draw
from frame_cases import (OTHER_HEADERS, OTHER_PAYLOADS, closing, data, flipped, ip, listing, own_header, own_payload, wrong_header,
                         wrong_payload)
from sync import CLOSING, CONTROL_SIZE, HEADER_WIDTH, LAST_STAMP, LEAST_SIZE, LONGEST, PAYLOAD_WIDTH, remainder

SPOILED = (b"\x0A\x00\x01", b"\x0A\x00\x03\x00" + bytes(10), b"\x09\x00\x01\x00" + bytes(9), b"\x01\x20\x02\x00" + bytes(8_193),
           b"\x0A\x00\x01\x00" + bytes(8) + b"\x60\xEA")


def item(kind, body):
    return len(body).to_bytes(2, "little") + kind.to_bytes(2, "little") + body


def key(bearer, period, stamp):
    return item(1, bearer.to_bytes(4, "little") + period.to_bytes(4, "little") + stamp.to_bytes(2, "little"))


def frame_item(frame):
    return item(2, frame)


class Sequence:
    """The frames of one sequence: those of its data in order, and its closing as Type 0 and as Type 3.

    `part` makes what stands behind the checks for a payload of some length: most often the payload alone.
    """

    def __init__(self, draw, stamp, lengths, before, part=Draw.octets):
        self.stamp, self.lengths = stamp, lengths
        self.elapsed = [0]
        for length in lengths:
            self.elapsed.append(self.elapsed[-1] + length)
        self.count, self.octets = len(lengths), self.elapsed[-1]
        totals = (before[0] + self.count, before[1] + self.octets)
        self.data = [data(stamp, number, self.elapsed[number], part(draw, length)) for number, length in enumerate(lengths)]
        self.closing = closing(stamp, self.count, self.octets, totals)
        self.listing = listing(stamp, lengths, totals)


class Sending:
    """A sending of which frames are made only when asked for, so that high packet numbers cost nothing."""

    def __init__(self, draw, stamp):
        self.draw, self.stamp = draw, stamp
        self.count = draw.pick((draw.below(4), draw.below(12), draw.between(4_080, 4_098)))
        most = draw.pick((0, 1, 40, 40, 40, LONGEST))
        ends = draw.pick((most, 0))
        self.lengths = [draw.pick((ends, draw.below(most + 1))) for _ in range(self.count)]

    def part(self, length):
        """What stands behind the checks for a payload of this length."""
        return self.draw.octets(length)

    def before(self, number):
        return sum(self.lengths[:number])

    def place(self):
        """A packet number, most often near the beginning or the end."""
        near = self.draw.below(self.count) if self.draw.chance(2) else self.count - 1 - self.draw.below(min(self.count, 6))
        return near if self.draw.chance(2) else min(near, self.draw.below(6))

    def true_frame(self):
        if self.count == 0 or self.draw.chance(8):
            total = sum(self.lengths)
            # Many lengths make a long frame, so such a frame is rarer.
            if self.draw.chance(3 if self.count < 200 else 18):
                return listing(self.stamp, self.lengths)
            return closing(self.stamp, self.count, total, (self.count, total))
        number = self.place()
        return data(self.stamp, number, self.before(number), self.part(self.lengths[number]))

    def near_frame(self):
        """One that is off by a little, or stands right at a limit."""
        draw = self.draw
        little = draw.pick((-1, 0, 1))
        if self.count == 0 or draw.chance(4):
            count = max(0, self.count + draw.pick((-1, 0, 1)))
            octets = max(0, sum(self.lengths) + draw.pick((little, LONGEST * (count - self.count) + little)))
            return closing(self.stamp, count, octets, (count, octets))
        last, number = sorted((self.place(), self.place()))
        end = self.before(last + 1)
        elapsed = draw.pick((end, end + LONGEST * (number - last - 1), self.before(number))) + little
        length = max(0, self.lengths[number] + draw.pick((-1, 0, 0, 1)))
        return data(max(0, min(LAST_STAMP, self.stamp + draw.pick((0, 0, 0, 0, 1)))), number, max(0, elapsed), self.part(length))

    def frame(self):
        choice = self.draw.below(8)
        if choice < 5:
            return self.true_frame()
        if choice < 7:
            return self.near_frame()
        frame = self.true_frame()
        spoiled = (flipped(frame, self.draw.below(8 * len(frame))), frame[:self.draw.below(len(frame))], frame + b"\x00")
        return self.draw.pick(spoiled)


def other_check(draw, own, octets, polynomials, width):
    """What may stand in a check's place: one bit of it turned, any number, 0, or what another polynomial gives."""
    return draw.pick((own ^ 1 << draw.below(width), draw.below(1 << width), 0, remainder(octets, draw.pick(polynomials), width)))


class Noisy(Sending):
    """A sending with a wrong check in many of its frames."""

    def frame(self):
        choice = self.draw.below(4)
        if choice == 0:
            return super().frame()
        frame = self.near_frame() if self.draw.chance(3) else self.true_frame()
        kind = frame[0] >> 4
        if choice == 1 and kind != CLOSING:
            part = frame[LEAST_SIZE[kind]:]
            return wrong_payload(frame, other_check(self.draw, own_payload(frame), part, OTHER_PAYLOADS, PAYLOAD_WIDTH)).frame
        if choice < 3:
            control = frame[:CONTROL_SIZE[kind]]
            return wrong_header(frame, other_check(self.draw, own_header(frame), control, OTHER_HEADERS, HEADER_WIDTH)).frame
        return frame


class Partner(Sending):
    """A sending of IP packets most often, with 0 to 4 octets behind them; now and then with more, or with another IHL."""

    def __init__(self, draw, stamp):
        super().__init__(draw, stamp)
        self.lengths = [LONGEST if draw.chance(60) else draw.pick((20, 40, draw.between(20, 90))) for _ in self.lengths]

    def part(self, length):
        draw = self.draw
        if draw.chance(6):
            return super().part(length)
        version = draw.pick((4, 6)) if length >= 40 else 4
        behind = draw.below(7) if draw.chance(8) else draw.below(5)
        return ip(draw, version, length, length + behind, draw.below(16) if draw.chance(8) else 5)


def mixture(draw, most_frames, kind=Sending):
    """Some sequences with true frames, near ones and damaged ones; now and then an item that stops the program."""
    items = b""
    for _ in range(draw.between(1, 4)):
        stamp = draw.pick((0, 1, draw.below(60_000), LAST_STAMP))
        items += key(draw.below(1 << 32), draw.pick((0, draw.below(1 << 32))), stamp)
        sending = kind(draw, stamp)
        items += b"".join(frame_item(sending.frame()) for _ in range(draw.below(most_frames)))
        if draw.chance(16):
            items += draw.pick(SPOILED)
    return items[:draw.below(len(items) + 1)] if draw.chance(12) else items
