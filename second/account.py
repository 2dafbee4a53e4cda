"""The reception record as a plain dict of packets, its report, and the printed account.

Written from document 01 alone, and the checks behind refusals 4 and 7 from request 6 of document 02.
`python3 second/account.py < items` prints what document 01's program prints.
"""

import sys

from sync import Data, LAST_STAMP, LONGEST, Refused, read, refuse_if

MOST_CAPACITY = 65_535
ACCOUNT_CAPACITY = 4_096
HEAD_SIZE = 4
KEY_SIZE = 10
LONGEST_BODY = 8_192
KEY, FRAME = 1, 2


def holds(count, octets):
    """Whether some `count` payloads have so many octets together."""
    return 0 <= octets <= LONGEST * count


def explained(packets, closing):
    """Whether some sending explains these packets and this closing.

    Walks the heard packets in rising order. The unheard ones between two of them are free, so a sending exists exactly if each
    run of unheard ones can hold the octets that it has to.
    """
    place, octets = 0, 0
    for number in sorted(packets):
        elapsed, length = packets[number]
        if not holds(number - place, elapsed - octets):
            return False
        place, octets = number + 1, elapsed + length
    if closing is None:
        return True
    count, total = closing
    return count >= place and holds(count - place, total - octets)


class Record:
    """What one receiver heard of one sequence. No label is kept."""

    def __init__(self, bearer, period, stamp, capacity=ACCOUNT_CAPACITY):
        refuse_if(capacity > MOST_CAPACITY, 14)
        refuse_if(stamp > LAST_STAMP, 5)
        self.key = (bearer, period, stamp)
        self.capacity = capacity
        self.packets = {}  # packet number: (elapsed octets, payload length)
        self.closing = None  # (N, T) once a closing was heard

    def hear(self, bearer, period, frame):
        """Add what the frame says, or refuse. 13 and 14 have no cause here: a dict has no lists, and only hearing changes it."""
        said = read(frame)
        refuse_if((bearer, period, said.stamp) != self.key, 9)
        if isinstance(said, Data):
            self.hear_packet(said.number, (said.elapsed, len(said.payload)))
        else:
            self.hear_closing((said.packets, said.octets))

    def hear_packet(self, number, packet):
        refuse_if(number >= self.capacity, 10)
        refuse_if(self.packets.get(number, packet) != packet, 11)
        packets = {**self.packets, number: packet}
        refuse_if(not explained(packets, self.closing), 11)
        self.packets = packets

    def hear_closing(self, closing):
        """Type 3 is held as its closing only, so its lengths are not compared with what was heard."""
        refuse_if(closing[0] > self.capacity, 10)
        refuse_if(self.closing not in (None, closing), 11)
        refuse_if(not explained(self.packets, closing), 11)
        self.closing = closing

    def sent(self):
        """Packets and octets of the sequence. While open they reach to the last packet heard and count it."""
        if self.closing is not None:
            return self.closing
        if not self.packets:
            return 0, 0
        last = max(self.packets)
        return last + 1, sum(self.packets[last])

    def heard(self):
        return len(self.packets), sum(length for _, length in self.packets.values())

    def gaps(self):
        """First number, count and octets of each run of unheard packets, in rising order. No octets make a gap too."""
        found = []
        place, octets = 0, 0
        for number in sorted(self.packets):
            elapsed, length = self.packets[number]
            if number > place:
                found.append((place, number - place, elapsed - octets))
            place, octets = number + 1, elapsed + length
        count, total = self.sent()
        if count > place:
            found.append((place, count - place, total - octets))
        return found

    def account(self):
        """The lines that the program prints of this sequence."""
        sent, heard, gaps = self.sent(), self.heard(), self.gaps()
        # Missing octets are those of the unheard packets, so they are summed over the gaps.
        missing = sum(count for _, count, _ in gaps), sum(octets for _, _, octets in gaps)
        lines = [line("sequence", *self.key, "open" if self.closing is None else "closed")]
        lines += [line("sent", *sent), line("heard", *heard), line("missing", *missing)]
        lines += [line("gap", *gap) for gap in gaps]
        return lines + ["end"]


def line(*fields):
    return " ".join(str(field) for field in fields)


class BadInput(Exception):
    """An item that the program cannot take."""


def item_at(octets, offset):
    """Kind and body of the item that begins here."""
    head = octets[offset:offset + HEAD_SIZE]
    if len(head) < HEAD_SIZE:
        raise BadInput
    size = int.from_bytes(head[:2], "little")
    kind = int.from_bytes(head[2:], "little")
    body = octets[offset + HEAD_SIZE:offset + HEAD_SIZE + size]
    if size > LONGEST_BODY or len(body) < size:
        raise BadInput
    return kind, body


def begin(body):
    """The record that a key item begins."""
    if len(body) != KEY_SIZE:
        raise BadInput
    bearer, period, stamp = (int.from_bytes(part, "little") for part in (body[:4], body[4:8], body[8:]))
    if stamp > LAST_STAMP:
        raise BadInput
    return Record(bearer, period, stamp)


def take(record, place, kind, body):
    """The record after one item, and the lines that the item prints."""
    if kind == KEY:
        following = begin(body)
        return following, [] if record is None else record.account()
    if kind != FRAME or record is None:
        raise BadInput
    try:
        record.hear(*record.key[:2], body)
    except Refused as refused:
        return record, [line("refused", place, refused.number, *refused.checks)]
    return record, []


def printed(octets):
    """All that the program prints for this input. What was printed before a bad item stays."""
    lines = []
    record, offset, place = None, 0, 0
    while offset < len(octets):
        place += 1
        try:
            kind, body = item_at(octets, offset)
            record, more = take(record, place, kind, body)
        except BadInput:
            return text(lines + [line("bad input", offset)])
        lines += more
        offset += HEAD_SIZE + len(body)
    return text(lines if record is None else lines + record.account())


def text(lines):
    return "".join(each + "\n" for each in lines)


if __name__ == "__main__":
    sys.stdout.write(printed(sys.stdin.buffer.read()))
