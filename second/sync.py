"""Frames of SYNC version 1 on M1: PDU Types 0, 1 and 3, read and written.

Written from document 01 and TS 25.446 v17.0.0 alone, and from two requests of document 02: what is told of a wrong check (6) and what is
dropped behind an IP packet (2). So it can disagree with the library. Clear before quick: the checks divide one bit at a time.
"""

from typing import NamedTuple

LAST_STAMP = 59_999
LONGEST = 4_095  # octets of one payload: a Type 3 length has 12 bits
LAST_NUMBER = 65_534  # a closing PDU carries the count in 16 bits, so the last data PDU is one below 65,535
MOST_EXTENSION = 4
IPV4_HEADER, IPV6_HEADER = 20, 40  # octets of the shortest IPv4 header, and of every IPv6 header
LEAST_IHL = 5  # IPv4's header length, in words of four octets

CLOSING, DATA, COMPRESSED, LENGTHS = 0, 1, 2, 3
CONTROL_SIZE = {CLOSING: 17, DATA: 9, LENGTHS: 17}
LEAST_SIZE = {CLOSING: 18, DATA: 11, LENGTHS: 19}

# Clause 5.6.2. The highest bit stands for the highest power of D.
HEADER_GENERATOR, HEADER_WIDTH = 0b110_1111, 6  # D^6+D^5+D^3+D^2+D+1
PAYLOAD_GENERATOR, PAYLOAD_WIDTH = 0b110_0011_0011, 10  # D^10+D^9+D^5+D^4+D+1


class Refused(Exception):
    """A call that was refused, with document 01's number. Behind 4 and 7 stand the check found and the check worked out."""

    def __init__(self, number, *checks):
        super().__init__(f"refused {number}")
        self.number = number
        self.checks = checks


class Closing(NamedTuple):
    """What a Type 0 frame says."""

    stamp: int
    packets: int
    octets: int
    total_packets: int
    total_octets: int


class Data(NamedTuple):
    """What a Type 1 frame says."""

    stamp: int
    number: int
    elapsed: int
    payload: bytes


class Lengths(NamedTuple):
    """What a Type 3 frame says."""

    stamp: int
    packets: int
    octets: int
    total_packets: int
    total_octets: int
    lengths: tuple


def refuse_if(wrong, number):
    if wrong:
        raise Refused(number)


# The two checks


def bits_of(octets):
    """All bits, each octet's highest first."""
    for octet in octets:
        for place in range(7, -1, -1):
            yield octet >> place & 1


def remainder(octets, generator, width):
    """Divide the octets, followed by `width` zero bits, by the generator over GF(2). Nothing is preset or inverted."""
    rest = 0
    for bits in (bits_of(octets), [0] * width):
        for bit in bits:
            rest = rest << 1 | bit
            if rest >> width:
                rest ^= generator
    return rest


def header_check(control):
    """Over the control part as it stands: spare bits that are set count too."""
    return remainder(control, HEADER_GENERATOR, HEADER_WIDTH)


def payload_check(part):
    """Over the whole payload part, padding and extension included. No bits give 0."""
    return remainder(part, PAYLOAD_GENERATOR, PAYLOAD_WIDTH)


def hold_check(found, worked_out, number):
    """Tells both where they differ: the number alone leaves open whether the polynomial is wrong or the line noisy."""
    if found != worked_out:
        raise Refused(number, found, worked_out)


# The lengths of Type 3


def lengths_size(count):
    """W: the octets that this many lengths of 12 bits fill."""
    if count % 2 == 0:
        return 3 * count // 2
    return 3 * (count - 1) // 2 + 2


def pack_lengths(lengths, padding=0):
    """Twelve bits each without gaps; four padding bits end an odd count."""
    row = 0
    for length in lengths:
        row = row << 12 | length
    if len(lengths) % 2:
        row = row << 4 | padding
    return row.to_bytes(lengths_size(len(lengths)), "big")


def unpack_lengths(part, count):
    """The first `count` lengths; what follows them is padding or extension."""
    row = int.from_bytes(part, "big")
    width = 8 * len(part)
    return tuple(row >> width - 12 * (place + 1) & 0xFFF for place in range(count))


# The payload of Type 1


# Request 2 of document 02: "a Type 1 payload that starts as IPv4 or IPv6 has the length its IP header states (IPv4 total length, RFC 791;
# IPv6 payload length plus 40, RFC 8200), and the 0 to 4 octets after it are dropped. If the IP header is incomplete, has another version or
# IHL under 5, states less than its own header, more than is there or over 4 octets less, all of it is payload as before."
def payload_size(part):
    """How many of the octets behind the checks are payload. Nothing else of the IP header is judged."""
    if len(part) == 0:
        return 0
    version, ihl = part[0] >> 4, part[0] & 0x0F
    if version == 4 and len(part) >= IPV4_HEADER and ihl >= LEAST_IHL:
        header, stated = 4 * ihl, int.from_bytes(part[2:4], "big")
    elif version == 6 and len(part) >= IPV6_HEADER:
        header, stated = IPV6_HEADER, IPV6_HEADER + int.from_bytes(part[4:6], "big")
    else:
        return len(part)
    if stated < header or stated > len(part) or stated + MOST_EXTENSION < len(part):
        return len(part)
    return stated


# Impossible counts


def too_many_octets(octets, packets):
    return octets > LONGEST * packets


def data_impossible(number, elapsed):
    return number > LAST_NUMBER or too_many_octets(elapsed, number)


def closing_impossible(packets, octets, total_packets, total_octets):
    """Judges all but the sum of lengths, which reading and writing refuse with different numbers."""
    if too_many_octets(octets, packets) or total_packets < packets or total_octets < octets:
        return True
    return too_many_octets(total_octets - octets, total_packets - packets)


def closing_too_wide(packets, octets, total_packets, total_octets):
    """Counts that do not fit 2, 4, 3 and 5 octets. Only given counts can be so, never counts that were read."""
    return packets >= 1 << 16 or octets >= 1 << 32 or total_packets >= 1 << 24 or total_octets >= 1 << 40


# Reading


def read(frame):
    """Closing, Data or Lengths; or Refused, by the first cause in document 01's order."""
    refuse_if(len(frame) == 0, 1)
    kind = frame[0] >> 4
    refuse_if(kind == COMPRESSED, 2)
    refuse_if(kind > LENGTHS, 3)
    refuse_if(len(frame) < LEAST_SIZE[kind], 1)
    size = CONTROL_SIZE[kind]
    control = frame[:size]
    hold_check(frame[size] >> 2, header_check(control), 4)
    stamp = int.from_bytes(control[1:3], "big")
    refuse_if(stamp > LAST_STAMP, 5)
    number = int.from_bytes(control[3:5], "big")
    elapsed = int.from_bytes(control[5:9], "big")
    part = frame[LEAST_SIZE[kind]:]
    refuse_if(size_wrong(kind, part, number), 6)
    if kind != CLOSING:
        hold_check((frame[size] & 3) << 8 | frame[size + 1], payload_check(part), 7)
    if kind == DATA:
        refuse_if(data_impossible(number, elapsed), 8)
        return Data(stamp, number, elapsed, bytes(part[:payload_size(part)]))
    total_packets = int.from_bytes(control[9:12], "big")
    total_octets = int.from_bytes(control[12:17], "big")
    refuse_if(closing_impossible(number, elapsed, total_packets, total_octets), 8)
    if kind == CLOSING:
        return Closing(stamp, number, elapsed, total_packets, total_octets)
    lengths = unpack_lengths(part, number)
    refuse_if(sum(lengths) != elapsed, 8)
    return Lengths(stamp, number, elapsed, total_packets, total_octets, lengths)


def size_wrong(kind, part, number):
    """Whether a frame that is long enough for its type, with this part beyond the least size, has a size that its type never has."""
    if kind == CLOSING:
        return len(part) != 0
    if kind == DATA:
        return payload_size(part) > LONGEST
    return not lengths_size(number) <= len(part) <= lengths_size(number) + MOST_EXTENSION


# Writing


def control_part(kind, stamp, number, elapsed, totals=None, spare=0):
    """The control part with its fields as given. Only Types 0 and 3 have totals."""
    control = bytes([kind << 4 | spare])
    control += stamp.to_bytes(2, "big") + number.to_bytes(2, "big") + elapsed.to_bytes(4, "big")
    if totals is not None:
        control += totals[0].to_bytes(3, "big") + totals[1].to_bytes(5, "big")
    return control


def end_closing(control, padding=0):
    """A Type 0 frame: six bits of check, two of padding."""
    return control + bytes([header_check(control) << 2 | padding])


def join_parts(control, part):
    """A Type 1 or 3 frame: six bits of header check, then ten of payload check, then the payload part."""
    checks = header_check(control) << PAYLOAD_WIDTH | payload_check(part)
    return control + checks.to_bytes(2, "big") + bytes(part)


def lend(frame, room):
    """The frame, if the lent output has room for it. No room given is room enough."""
    refuse_if(room is not None and room < len(frame), 12)
    return frame


def write_closing(stamp, packets, octets, total_packets, total_octets, room=None):
    """A Type 0 frame. Refusals in order: 5, 8, 12."""
    counts = (packets, octets, total_packets, total_octets)
    refuse_if(stamp > LAST_STAMP, 5)
    refuse_if(closing_too_wide(*counts) or closing_impossible(*counts), 8)
    return lend(end_closing(control_part(CLOSING, stamp, packets, octets, counts[2:])), room)


def write_data(stamp, number, elapsed, payload, room=None):
    """A Type 1 frame. Refusals in order: 5, 20, 8, 12."""
    refuse_if(stamp > LAST_STAMP, 5)
    refuse_if(len(payload) > LONGEST, 20)
    refuse_if(data_impossible(number, elapsed), 8)
    return lend(join_parts(control_part(DATA, stamp, number, elapsed), payload), room)


def write_lengths(stamp, packets, octets, total_packets, total_octets, lengths, room=None):
    """A Type 3 frame. Refusals in order: 5, 8, 22, 12; a wrong sum of lengths is 22 here."""
    counts = (packets, octets, total_packets, total_octets)
    refuse_if(stamp > LAST_STAMP, 5)
    refuse_if(closing_too_wide(*counts) or closing_impossible(*counts), 8)
    refuse_if(len(lengths) != packets or any(length > LONGEST for length in lengths) or sum(lengths) != octets, 22)
    return lend(join_parts(control_part(LENGTHS, stamp, packets, octets, counts[2:]), pack_lengths(lengths)), room)


def write(fields):
    """Write again what was read. Spare bits and padding come out as zero, and an extension is dropped."""
    writer = {Closing: write_closing, Data: write_data, Lengths: write_lengths}[type(fields)]
    return writer(*fields)
