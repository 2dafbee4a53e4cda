"""Frames for the crate `second_frames`: good ones at every limit, and refused ones for every cause that reading has.

Each case says what it is meant to be: GOOD, a refusal's number, 4 or 7 with the checks found and worked out, or UNKNOWN where chance
made it; and how many octets are meant to be dropped behind an IP packet. Making stops where reading disagrees, so a case cannot quietly
show something else.
"""

from itertools import combinations
from typing import NamedTuple

import examples
from draw import Draw
from sync import (CLOSING, CONTROL_SIZE, DATA, HEADER_WIDTH, LAST_NUMBER, LAST_STAMP, LEAST_IHL, LEAST_SIZE, LENGTHS, LONGEST,
                  MOST_EXTENSION, PAYLOAD_WIDTH, control_part, end_closing, header_check, join_parts, lengths_size, pack_lengths,
                  payload_check, remainder)

GOOD, UNKNOWN = 0, None
MOST_PACKETS = (1 << 24) - 1
MOST_OCTETS = (1 << 40) - 1
WRAPS = 1_048_833  # the first count whose octets, at 4,095 each, pass 2^32
ALL_SIX, ALL_TEN = 0x3F, 0x3FF
# Other polynomials of the same width: the right one from its other end, and two more.
OTHER_HEADERS = (0b111_1011, 0b100_0011, 0b110_0111)
OTHER_PAYLOADS = (0b110_0110_0011, 0b100_0000_1001, 0b111_1101_1001)
CHECK_SEED = 562  # of the cases about checks, which came later: the others stay as they were
PACKET_SEED = 791  # of the cases about IP packets, which came later still
# Each side of each clause about IP packets, as `side` of the examples names it: the octets dropped, or a reason why none is that stands
# alone, so that nothing else keeps them. An IPv6 header never states less than itself.
SIDES = {(version, dropped, ()) for version in "46" for dropped in range(MOST_EXTENSION + 1)}
SIDES |= {(version, 0, (reason,)) for version in "46" for reason in ("incomplete", "more than is there", "over 4 less")}
SIDES |= {(version, 0, ("another version",)) for version in "01235789abcdef"}
SIDES |= {("", 0, ("incomplete",)), ("4", 0, ("IHL under 5",)), ("4", 0, ("less than its header",))}


class Case(NamedTuple):
    frame: bytes
    meant: object
    dropped: object = 0  # of a good frame


# Frames with right checks, whatever their fields say


def closing(stamp, packets, octets, totals, spare=0, padding=0):
    return end_closing(control_part(CLOSING, stamp, packets, octets, totals, spare), padding)


def data(stamp, number, elapsed, payload, spare=0):
    return join_parts(control_part(DATA, stamp, number, elapsed, None, spare), payload)


def listing(stamp, lengths, totals=None, spare=0, padding=0, extension=b"", octets=None):
    """A Type 3 frame. Where nothing else is given, its octets are the sum and its sequence is the period's first."""
    octets = sum(lengths) if octets is None else octets
    totals = (len(lengths), octets) if totals is None else totals
    control = control_part(LENGTHS, stamp, len(lengths), octets, totals, spare)
    return join_parts(control, pack_lengths(lengths, padding) + extension)


def flipped(frame, bit):
    """The frame with one bit turned, counted from the first octet's highest."""
    octets = bytearray(frame)
    octets[bit // 8] ^= 0x80 >> bit % 8
    return bytes(octets)


# Good frames


def bench(draw):
    good = (examples.A, examples.B, examples.C, examples.D, examples.E, data(0, 0, 0, examples.J))
    yield from (Case(frame, GOOD) for frame in good)
    yield Case(examples.D_PRINTED, 7)
    yield from (Case(frame, number) for frame, number in examples.F)
    yield Case(data(0, 0, 0, examples.J + b"\x00"), 6)  # what cannot be written is not read either


def good_closings(draw):
    for stamp in (0, 1, 255, 256, 59_998, LAST_STAMP):
        yield Case(closing(stamp, 0, 0, (0, 0)), GOOD)
    for packets in (1, 2, 255, 256, 4_096, 65_534, 65_535):
        for octets in (0, 1, LONGEST * packets - 1, LONGEST * packets):
            yield Case(closing(draw.below(60_000), packets, octets, (packets, octets)), GOOD)
    for more in (1, 255, 256, 65_536, WRAPS - 1, WRAPS, MOST_PACKETS - 7):
        for octets in (0, 4_000, LONGEST * more - 1, LONGEST * more):
            if octets <= LONGEST * more:
                yield Case(closing(draw.below(60_000), 7, 100, (7 + more, 100 + octets)), GOOD)
    yield Case(closing(LAST_STAMP, 65_535, LONGEST * 65_535, (MOST_PACKETS, LONGEST * MOST_PACKETS)), GOOD)
    yield Case(closing(1, 0, 0, (MOST_PACKETS, 1 << 32)), GOOD)


def good_data(draw):
    for stamp in (0, 1, 255, 256, 59_998, LAST_STAMP):
        yield Case(data(stamp, 0, 0, b"\x00"), GOOD)
    for number in (1, 2, 255, 256, 32_768, LAST_NUMBER):
        for elapsed in (0, 1, LONGEST * number - 1, LONGEST * number):
            yield Case(data(draw.below(60_000), number, elapsed, draw.octets(draw.below(4))), GOOD)
    for size in (1, 2, 3, 7, 8, 9, 62, 63, 64, 65, 127, 128, 129, 255, 256, 1_024, 2_048, LONGEST - 1, LONGEST):
        yield Case(data(draw.below(60_000), 3, 2 * size, draw.octets(size)), GOOD)
    for octet in (0x00, 0xFF, 0x80, 0x01):
        yield Case(data(draw.below(60_000), 1, LONGEST, bytes([octet]) * 200), GOOD)
    yield Case(data(LAST_STAMP, LAST_NUMBER, LONGEST * LAST_NUMBER, b"\xFF" * LONGEST), GOOD)


def good_listings(draw):
    for count in (0, 1, 2, 3, 4, 5, 6, 7, 16, 17, 255, 256, 1_001):
        yield Case(listing(draw.below(60_000), [draw.below(LONGEST + 1) for _ in range(count)]), GOOD)
    for count in (1, 2, 3, 8, 9):
        for length in (0, 1, LONGEST):
            totals = (MOST_PACKETS, count * length + LONGEST * (MOST_PACKETS - count))
            yield Case(listing(draw.below(60_000), [length] * count, totals), GOOD)
    for size in range(5):
        for count in (0, 1, 2, 3):
            lengths = [draw.below(LONGEST + 1) for _ in range(count)]
            yield Case(listing(draw.below(60_000), lengths, extension=draw.octets(size)), GOOD)
    for count in (4_096, 4_097):
        yield Case(listing(LAST_STAMP, [draw.below(10) for _ in range(count)]), GOOD)


def unjudged_bits(draw):
    """Spare bits and padding are not judged, but the checks cover them."""
    for spare in range(1, 16):
        stamp = draw.below(60_000)
        yield Case(closing(stamp, 1, 9, (2, 9), spare, spare % 4), GOOD)
        yield Case(data(stamp, 1, 9, draw.octets(spare), spare), GOOD)
        yield Case(listing(stamp, [1, 2, spare], None, spare, spare, bytes(spare % 5)), GOOD)
        # The check of the frame without its spare bits is a wrong one.
        for frame in (closing(stamp, 1, 9, (2, 9)), data(stamp, 1, 9, b"\x05"), listing(stamp, [spare])):
            if spare in (1, 8, 15):
                yield Case(bytes([frame[0] | spare]) + frame[1:], 4)
    for padding in (1, 2, 3):
        yield Case(closing(0, 0, 0, (0, 0), 0, padding), GOOD)


def drawn(draw):
    """Frames as a sender might send them."""
    for _ in range(20):
        lengths = [draw.below(LONGEST + 1) for _ in range(draw.below(20))]
        more = draw.below(1_000)
        totals = (len(lengths) + more, sum(lengths) + draw.below(LONGEST * more + 1))
        yield Case(listing(draw.below(60_000), lengths, totals), GOOD)
        yield Case(closing(draw.below(60_000), len(lengths), sum(lengths), totals), GOOD)
        number = draw.below(LAST_NUMBER + 1)
        yield Case(data(draw.below(60_000), number, draw.below(LONGEST * number + 1), draw.octets(draw.below(120))), GOOD)


# Refused frames


def too_short(draw):
    """Refusal 1, whatever the octets say."""
    yield Case(b"", 1)
    whole = (closing(5, 1, 1, (1, 1)), data(5, 1, 1, b""), listing(5, []))
    for frame in whole:
        for size in (1, 2, len(frame) // 2, len(frame) - 1):
            yield Case(frame[:size], 1)
        yield Case(frame[:1] + b"\xFF" * (len(frame) - 2), 1)
    yield Case(closing(0, 0, 0, (0, 0))[:11], 1)  # long enough for Type 1 only
    yield Case(b"\x30" + closing(0, 0, 0, (0, 0))[1:], 1)  # long enough for Type 0 only


def other_types(draw):
    """Refusals 2 and 3 come before a size that is too short."""
    for spare in (0, 1, 15):
        yield Case(bytes([0x20 | spare]), 2)
        yield Case(bytes([0x20 | spare]) + draw.octets(40), 2)
    for kind in range(4, 16):
        yield Case(bytes([kind << 4 | draw.below(16)]), 3)
        yield Case(bytes([kind << 4]) + draw.octets(draw.between(17, 60)), 3)


def header_wrong(draw):
    """One turned bit of the control part or of its check. The first four would make another type."""
    for frame in (closing(7, 2, 9, (2, 9)), data(7, 2, 9, b"\x01\x02"), listing(7, [4, 5])):
        bits = 8 * CONTROL_SIZE[frame[0] >> 4] + 6
        for bit in (4, 7, 8, 23, 24, 39, 40, 71, bits - 6, bits - 1):
            yield Case(flipped(frame, bit), 4)


def stamp_wrong(draw):
    for stamp in (60_000, 60_001, 65_535):
        yield Case(closing(stamp, 0, 0, (0, 0)), 5)
        yield Case(data(stamp, 0, 0, b"\x07"), 5)
        yield Case(listing(stamp, [1]), 5)


def size_wrong(draw):
    for more in (1, 2, 4, 100):
        yield Case(closing(9, 1, 1, (1, 1)) + bytes(more), 6)
    for size in (LONGEST + 1, LONGEST + 5, 8_181):
        yield Case(data(9, 0, 0, draw.octets(size)), 6)
    for count in (1, 2, 5, 6):
        lengths = [draw.below(LONGEST + 1) for _ in range(count)]
        control = control_part(LENGTHS, 9, count, sum(lengths), (count, sum(lengths)))
        part = pack_lengths(lengths)
        for wrong in (b"", part[:-1], part + bytes(5), part + draw.octets(6), part + bytes(100)):
            yield Case(join_parts(control, wrong), 6)
    yield Case(join_parts(control_part(LENGTHS, 9, 0, 0, (0, 0)), bytes(5)), 6)
    # Sizes that a narrow sum would take for right: 1.5 N or 12 N starts over at 2^16.
    for count, size in ((43_692, 2), (5_462, 1), (43_691, 1), (65_535, 2), (65_535, 6_000)):
        yield Case(join_parts(control_part(LENGTHS, 9, count, 0, (count, 0)), bytes(size)), 6)


def payload_wrong(draw):
    frame = data(11, 1, 3, b"\x10\x20\x30")
    for bit in (78, 79, 80, 87, 88, 95, 111):  # bits 78 to 87 are the check itself
        yield Case(flipped(frame, bit), 7)
    frame = listing(11, [1, 2, 3], extension=b"\x00\x01")
    for bit in (142, 143, 144, 151, 152, 187, 188, 191, 192, 207):  # lengths, padding and extension are covered
        yield Case(flipped(frame, bit), 7)
    yield Case(flipped(data(11, 0, 0, b""), 87), 7)
    yield Case(flipped(listing(11, []), 151), 7)
    yield Case(data(11, 1, 0, bytes(10))[:-1] + b"\x80", 7)


def data_counts(draw):
    for number, elapsed in ((65_535, 0), (65_535, LONGEST * 65_535), (0, 1), (1, LONGEST + 1), (2, 2 * LONGEST + 1),
                            (LAST_NUMBER, LONGEST * LAST_NUMBER + 1), (0, (1 << 32) - 1), (LAST_NUMBER, (1 << 32) - 1)):
        yield Case(data(13, number, elapsed, b"\x44"), 8)


def closing_counts(draw):
    for packets, octets, totals in (
            (0, 1, (0, 1)), (0, 1, (1, 1)), (1, LONGEST + 1, (1, LONGEST + 1)), (1, LONGEST + 1, (2, LONGEST + 1)),
            (65_535, LONGEST * 65_535 + 1, (MOST_PACKETS, LONGEST * 65_535 + 1)), (65_535, (1 << 32) - 1, (MOST_PACKETS, 1 << 32)),
            (1, 0, (0, 0)), (65_535, 0, (65_534, 0)), (256, 5, (255, 5)), (2, 5, (2, 4)), (2, 5, (3, 0)), (2, 5, (2, 6)),
            (2, 5, (3, 5 + LONGEST + 1)), (0, 0, (0, 1)), (0, 0, (1, LONGEST + 1)), (0, 0, (0, MOST_OCTETS)),
            (0, 0, (MOST_PACKETS, LONGEST * MOST_PACKETS + 1)), (0, 0, (MOST_PACKETS, MOST_OCTETS)), (0, 0, (1, 1 << 32)),
            (0, 0, (WRAPS, LONGEST * WRAPS + 1)), (0, 0, (1, 1 << 39)), (65_535, 1, (MOST_PACKETS, 0))):
        yield Case(closing(13, packets, octets, totals), 8)


def listing_counts(draw):
    for lengths, octets in (([0], 1), ([1], 0), ([1, 2], 2), ([1, 2], 4), ([LONGEST, 1], LONGEST), ([0, 0, 9], 10), ([16], 1), ([], 1),
                            ([LONGEST], LONGEST + 1)):
        yield Case(listing(13, lengths, (9, 9 + octets), octets=octets), 8)
    yield Case(listing(13, [5], (0, 5)), 8)
    yield Case(listing(13, [5], (1, 4)), 8)
    yield Case(listing(13, [5], (1, 6)), 8)
    yield Case(listing(13, [5, 6], (3, 11 + LONGEST + 1)), 8)
    yield Case(listing(13, [], (MOST_PACKETS, MOST_OCTETS)), 8)
    yield Case(listing(13, [3], octets=10, padding=7), 8)  # padding is no part of a length
    yield Case(listing(13, [3, 3], octets=10, extension=b"\x00\x40"), 8)  # nor is the extension


# Several causes at once: the order decides


def with_causes(kind, causes, draw, part=None):
    """A frame with exactly these of the causes 4 to 8, its checks right otherwise. A part that is given is the payload of Type 1."""
    stamp = draw.between(60_000, 65_535) if 5 in causes else draw.below(60_000)
    lengths = [draw.below(50) for _ in range(draw.between(1, 6))]
    count, octets = len(lengths), sum(lengths)
    if 8 in causes:
        octets = LONGEST * count + 1
    if kind == CLOSING:
        frame = closing(stamp, count, octets, (count, octets)) + bytes(6 in causes)
    elif kind == DATA:
        frame = data(stamp, count, octets, draw.octets(LONGEST + 1 if 6 in causes else 30) if part is None else part)
    else:
        extension = draw.octets(draw.below(5)) if 6 not in causes else bytes(5)
        frame = listing(stamp, lengths, octets=octets, extension=extension)
    header_ends = 8 * CONTROL_SIZE[kind] + 6
    if 7 in causes:
        frame = flipped(frame, header_ends + draw.below(10))
    if 4 in causes:
        frame = flipped(frame, header_ends - 1 - draw.below(6))
    return frame


def several_causes(draw):
    for kind, possible in ((CLOSING, (4, 5, 6, 8)), (DATA, (4, 5, 6, 7, 8)), (LENGTHS, (4, 5, 6, 7, 8))):
        for size in range(2, len(possible) + 1):
            for causes in combinations(possible, size):
                yield Case(with_causes(kind, causes, draw), min(causes))


def hostile(draw):
    """Octets by chance behind a header check that is right, so that reading goes further than the check."""
    for _ in range(30):
        kind = draw.pick((CLOSING, DATA, LENGTHS))
        totals = None if kind == DATA else (draw.below(1 << 24), draw.below(1 << 40))
        number = draw.pick((draw.below(8), draw.below(65_536)))
        control = control_part(kind, draw.below(65_536), number, draw.below(1 << draw.between(1, 32)), totals, draw.below(16))
        part = draw.octets(lengths_size(number % 8) + draw.below(6))
        frame = end_closing(control) if kind == CLOSING else join_parts(control, part)
        yield Case(flipped(frame, draw.below(8 * len(frame))) if draw.chance(4) else frame, UNKNOWN)


# Wrong checks: the one found and the one worked out


def own_header(frame):
    return frame[CONTROL_SIZE[frame[0] >> 4]] >> 2


def own_payload(frame):
    place = CONTROL_SIZE[frame[0] >> 4]
    return int.from_bytes(frame[place:place + 2], "big") & ALL_TEN


def wrong_header(frame, found):
    """A frame with another header check in place of its own, which is the one worked out."""
    place = CONTROL_SIZE[frame[0] >> 4]
    changed = frame[:place] + bytes([found << 2 | frame[place] & 3]) + frame[place + 1:]
    return Case(changed, (4, found, own_header(frame)))


def wrong_payload(frame, found):
    """The same with the payload check of Types 1 and 3."""
    place = CONTROL_SIZE[frame[0] >> 4]
    checks = own_header(frame) << PAYLOAD_WIDTH | found
    return Case(frame[:place] + checks.to_bytes(2, "big") + frame[place + 2:], (7, found, own_payload(frame)))


def one_of_each(draw, stamp):
    """A good frame of each type; that of Type 3 has padding and an extension."""
    lengths = [draw.below(50) for _ in range(3)]
    return (closing(stamp, 2, 9, (5, 40), draw.below(16), draw.below(4)), data(stamp, 1, 30, draw.octets(5), draw.below(16)),
            listing(stamp, lengths, None, draw.below(16), draw.below(16), draw.octets(2)))


def with_payloads(draw):
    """Good frames with payload parts of many sizes: none, lengths with and without padding, extensions."""
    for size in (0, 1, 2, 40):
        yield data(draw.below(60_000), 1, 7, draw.octets(size))
    for count, size in ((0, 0), (1, 0), (2, 0), (3, 0), (0, 4), (1, 1), (4, 3)):
        lengths = [draw.below(LONGEST + 1) for _ in range(count)]
        yield listing(draw.below(60_000), lengths, None, 0, draw.below(16), draw.octets(size))


def headers_found(draw):
    """Every header check but the right one: each single bit turned, 0 and 63 are among them."""
    for frame in one_of_each(draw, draw.below(60_000)):
        for found in range(ALL_SIX + 1):
            if found != own_header(frame):
                yield wrong_header(frame, found)


def headers_worked_out(draw):
    """Stamps that differ in their last six bits alone, so that every header check is worked out once in each type, 0 too."""
    first = ALL_SIX + 1
    for stamp in range(first, 2 * first):
        for frame in (closing(stamp, 1, 1, (1, 1)), data(stamp, 0, 0, b"\x01"), listing(stamp, [1])):
            yield wrong_header(frame, 0 if own_header(frame) else draw.between(1, ALL_SIX))


def payloads_found(draw):
    """Each single bit of the payload check turned, all of them, none set, and some by chance."""
    for frame in with_payloads(draw):
        own = own_payload(frame)
        turned = [1 << place for place in range(PAYLOAD_WIDTH)] + [ALL_TEN, draw.between(1, ALL_TEN)]
        yield from (wrong_payload(frame, own ^ bits) for bits in turned)
        if own:
            yield wrong_payload(frame, 0)


def check_of_0(octets):
    """The octets and ten more bits: their own check. Over both the check is 0, and the six zeros that fill the octet leave it so."""
    return octets + (payload_check(octets) << 6).to_bytes(2, "big")


def payloads_worked_out(draw):
    """Payload parts whose check is 0: no bits, zeros, the polynomial's own bits and octets that end with their check."""
    parts = (b"", bytes(1), bytes(2), bytes(63), b"\x06\x33", b"\x31\x98", check_of_0(b"\x01"), check_of_0(draw.octets(9)))
    frames = [data(draw.below(60_000), 1, 7, part) for part in parts]
    frames += [listing(draw.below(60_000), [0] * count, extension=bytes(size)) for count, size in ((0, 0), (0, 4), (1, 0), (2, 3), (3, 1))]
    frames.append(listing(draw.below(60_000), [0x063], padding=3))  # 06 33 once more
    frames.append(listing(draw.below(60_000), [1, 2], extension=check_of_0(pack_lengths([1, 2]))[3:]))
    for frame in frames:
        yield from (wrong_payload(frame, found) for found in (1, 1 << 9, draw.between(1, ALL_TEN)))


def both_wrong(draw):
    """A wrong header check is told whatever else is wrong, and a wrong payload check before impossible counts."""
    for frame in with_payloads(draw):
        wrong = wrong_payload(frame, own_payload(frame) ^ draw.between(1, ALL_TEN)).frame
        yield wrong_header(wrong, own_header(wrong) ^ draw.between(1, ALL_SIX))
    # Type 1 of a wrong size is long, and several_causes has it.
    for kind, possible in ((CLOSING, (5, 6, 8)), (DATA, (5, 7, 8)), (LENGTHS, (5, 6, 7, 8))):
        for size in range(1, len(possible) + 1):
            for causes in combinations(possible, size):
                frame = with_causes(kind, causes, draw)
                yield wrong_header(frame, own_header(frame) ^ draw.between(1, ALL_SIX))
    for kind in (DATA, LENGTHS):
        frame = with_causes(kind, (8,), draw)
        yield wrong_payload(frame, own_payload(frame) ^ draw.between(1, ALL_TEN))


def header_otherwise(control):
    """Header checks by another polynomial, preset (which turns the first bits), inverted, without the type octet, without spare bits."""
    yield from (remainder(control, other, HEADER_WIDTH) for other in OTHER_HEADERS)
    yield header_check(bytes([control[0] ^ ALL_SIX << 2]) + control[1:])
    yield header_check(control) ^ ALL_SIX
    yield header_check(control[1:])
    yield header_check(bytes([control[0] & 0xF0]) + control[1:])


def payload_otherwise(part):
    """Payload checks by another polynomial, preset, inverted, and without the last octet."""
    yield from (remainder(part, other, PAYLOAD_WIDTH) for other in OTHER_PAYLOADS)
    yield payload_check((int.from_bytes(part, "big") ^ ALL_TEN << 8 * len(part) - PAYLOAD_WIDTH).to_bytes(len(part), "big"))
    yield payload_check(part) ^ ALL_TEN
    yield payload_check(part[:-1])


def other_rules(draw):
    """Checks as a sender might work them out by a wrong rule. By chance one is right in a frame; that one is left out."""
    for _ in range(3):
        for frame in one_of_each(draw, draw.below(60_000)):
            control, part = frame[:CONTROL_SIZE[frame[0] >> 4]], frame[LEAST_SIZE[frame[0] >> 4]:]
            yield from (wrong_header(frame, found) for found in header_otherwise(control) if found != own_header(frame))
            if part:
                yield from (wrong_payload(frame, found) for found in payload_otherwise(part) if found != own_payload(frame))


def behind_checks(draw):
    """Frames, each with the first of the bits that are turned one by one: in a payload, and in padding and extension of Type 3."""
    frame = data(draw.below(60_000), 1, 7, draw.octets(3))
    yield frame, 8 * LEAST_SIZE[DATA]
    for lengths in ([7], [7, 8]):
        frame = listing(draw.below(60_000), lengths, extension=draw.octets(4))
        yield frame, 8 * LEAST_SIZE[LENGTHS] + 12 * len(lengths)
    for frame in (data(draw.below(60_000), 1, 7, draw.octets(1_024)), listing(draw.below(60_000), [draw.below(9) for _ in range(301)])):
        yield frame, 8 * len(frame) - 1  # long ones, with their last bit only


def covered(draw):
    """One bit turned behind the checks: the one found stays, and the one worked out is over what stands there now."""
    for frame, first in behind_checks(draw):
        for bit in range(first, 8 * len(frame)):
            wrong = flipped(frame, bit)
            yield Case(wrong, (7, own_payload(frame), payload_check(wrong[LEAST_SIZE[frame[0] >> 4]:])))


# What stands behind an IP packet


def ip(draw, version, stated, there, ihl=LEAST_IHL):
    """So many octets, which start as an IP packet that states a length, and are chance otherwise. Versions but 6 are laid out as 4."""
    if version == 6:
        start = bytes([0x60 | draw.below(16)]) + draw.octets(3) + (stated - 40).to_bytes(2, "big")
    else:
        start = bytes([version << 4 | ihl, draw.below(256)]) + stated.to_bytes(2, "big")
    return (start + draw.octets(there - len(start)))[:there]


def first_octet(octet, part):
    return bytes([octet]) + part[1:]


def carried(draw, part, dropped=0):
    """A good frame with these octets behind its checks, now and then with spare bits."""
    spare = draw.below(16) if draw.chance(8) else 0
    return Case(data(draw.below(60_000), 1, draw.below(LONGEST + 1), part, spare), GOOD, dropped)


def octets_behind(draw):
    """0 to 6 octets behind packets whose lengths have one octet or two."""
    for version, sizes in ((4, (20, 21, 255, 256, 258)), (6, (40, 41, 295, 296, 298))):
        for size in sizes:
            for behind in range(7):
                yield carried(draw, ip(draw, version, size, size + behind), behind if behind <= MOST_EXTENSION else 0)


def lengths_near(draw):
    """Lengths from 6 below to 6 above the number of octets there."""
    for version, there in ((4, 30), (4, 260), (6, 50), (6, 300)):
        for more in range(-6, 7):
            yield carried(draw, ip(draw, version, there + more, there), -more if -MOST_EXTENSION <= more <= 0 else 0)


def header_lengths(draw):
    """Every IHL, with lengths around that of the header. Below 5 it is no IHL, however well the length fits."""
    for ihl in range(16):
        header = 4 * ihl
        for stated in (max(header - 1, 0), header, header + 1, 60):
            for behind in (0, draw.between(1, MOST_EXTENSION)):
                fits = ihl >= LEAST_IHL and stated >= header
                yield carried(draw, ip(draw, 4, stated, stated + behind, ihl), behind if fits else 0)
    for ihl in range(LEAST_IHL):
        for stated in (16, 19, 20):
            yield carried(draw, ip(draw, 4, stated, 20, ihl))


def shortest_packets(draw):
    """Octets and lengths around those of the shortest headers, each with each."""
    for version, header, least in ((4, 20, 18), (6, 40, 40)):
        for there in range(header - 1, header + 6):
            for stated in range(least, header + 6):
                fits = header <= stated <= there <= stated + MOST_EXTENSION
                yield carried(draw, ip(draw, version, stated, there), there - stated if fits else 0)


def cut_headers(draw):
    """Headers cut at every octet: they state the whole packet, or what is there, in IPv4 with the IHL that goes with it."""
    for there in range(20):
        yield carried(draw, ip(draw, 4, 20, there))
        yield carried(draw, ip(draw, 4, there, there, there // 4))
    for there in range(40):
        yield carried(draw, ip(draw, 6, 40, there))
    # Lengths that a sum of 16 bits would take for ones that fit: 40 more starts over at 2^16.
    for there, stated in ((0, 65_536), (36, 65_536 + 36), (39, 65_536 + 39), (40, 65_536 + 39), (40, 65_536 + 36), (43, 65_536 + 39)):
        yield carried(draw, ip(draw, 6, stated, there))


def other_versions(draw):
    """Neither 4 nor 6, whatever length stands where; and each of the two with a length only where the other has it."""
    for version in range(16):
        if version not in (4, 6):
            yield carried(draw, ip(draw, version, 24, 26))
            yield carried(draw, first_octet(version << 4 | LEAST_IHL, ip(draw, 6, 50, 52)))
    yield carried(draw, first_octet(0x45, ip(draw, 6, 50, 52)))
    yield carried(draw, first_octet(0x60, ip(draw, 4, 50, 52)))


def swapped(number):
    """Its two octets in the other order."""
    return int.from_bytes(number.to_bytes(2, "big"), "little")


def swapped_lengths(draw):
    """Lengths with their least significant octet first are others; 257 is the same in both orders."""
    for behind in (0, 2):
        for length in (20, 22, 255, 256, 258):
            yield carried(draw, ip(draw, 4, swapped(length), length + behind))
            yield carried(draw, ip(draw, 6, 40 + swapped(length), 40 + length + behind))
        yield carried(draw, ip(draw, 4, swapped(257), 257 + behind), behind)
        yield carried(draw, ip(draw, 6, 40 + swapped(257), 40 + 257 + behind), behind)


def length_bits(draw):
    """All 16 bits of a length count: one that fits is far too long with one more of them."""
    for place in range(6, 16):
        yield carried(draw, ip(draw, 4, 24 + (1 << place), 26))
        yield carried(draw, ip(draw, 6, 50 + (1 << place), 52))


def packets_in_lengths(draw):
    """The lengths of Type 3 are no packet: 45 00 00 states nothing there, and no more than 4 octets behind them are dropped."""
    for stated in (0x16, 0x18, 0x19):
        lengths = [0x450, 0x000, stated << 4] + [draw.below(LONGEST + 1) for _ in range(13)]  # 24 octets
        yield Case(listing(draw.below(60_000), lengths), GOOD)
        yield Case(listing(draw.below(60_000), lengths, extension=draw.octets(2)), GOOD)
        yield Case(listing(draw.below(60_000), lengths, extension=draw.octets(5)), 6)


def covered_behind(draw):
    """The check covers what is dropped: without it, and with a bit turned in it or in the length stated, the check is wrong."""
    for version, size, length_ends in ((4, 28, 4), (6, 44, 6)):
        for behind in range(1, MOST_EXTENSION + 1):
            frame = data(draw.below(60_000), 1, 7, ip(draw, version, size, size + behind))
            first = LEAST_SIZE[DATA]
            yield wrong_payload(frame, payload_check(frame[first:first + size]))
            yield wrong_payload(frame, own_payload(frame) ^ draw.between(1, ALL_TEN))
            for bit in (8 * (first + length_ends) - 1, 8 * (first + size), 8 * len(frame) - 1):
                wrong = flipped(frame, bit)
                yield Case(wrong, (7, own_payload(frame), payload_check(wrong[first:])))


def causes_behind(draw):
    """The causes but the size, one and two at once, where octets would be dropped."""
    for version, size in ((4, 24), (6, 48)):
        for count in (1, 2):
            for causes in combinations((4, 5, 7, 8), count):
                yield Case(with_causes(DATA, causes, draw, ip(draw, version, size, size + draw.between(1, MOST_EXTENSION))), min(causes))


def long_ip(draw, version, stated, there, ihl=LEAST_IHL):
    """Zeros behind the header, so that the stored text stays short."""
    return ip(draw, version, stated, 40, ihl) + bytes(there - 40)


def longest_packets(draw):
    """4,095 octets are left, or more. Where too many are, a wrong check and impossible counts are not told."""
    for version, stated, there in ((4, 4_095, 4_095), (4, 4_095, 4_096), (4, 4_095, 4_099), (4, 4_092, 4_096), (6, 4_095, 4_095),
                                   (6, 4_095, 4_099)):
        yield carried(draw, long_ip(draw, version, stated, there), there - stated)
    for version, stated, there in ((4, 4_095, 4_100), (4, 4_094, 4_099), (4, 4_091, 4_096), (4, 4_096, 4_096), (4, 4_096, 4_099),
                                   (4, 4_099, 4_099), (6, 4_095, 4_100), (6, 4_094, 4_099), (6, 4_096, 4_099)):
        yield Case(carried(draw, long_ip(draw, version, stated, there)).frame, 6)
    yield Case(carried(draw, long_ip(draw, 4, 4_095, 4_099, 4)).frame, 6)
    yield Case(carried(draw, long_ip(draw, 5, 4_095, 4_099)).frame, 6)
    frame = carried(draw, long_ip(draw, 4, 4_095, 4_100)).frame
    yield Case(wrong_payload(frame, own_payload(frame) ^ draw.between(1, ALL_TEN)).frame, 6)
    yield Case(with_causes(DATA, (7, 8), draw, long_ip(draw, 6, 4_095, 4_100)), 6)
    frame = carried(draw, long_ip(draw, 4, 4_095, 4_099)).frame
    yield wrong_payload(frame, own_payload(frame) ^ draw.between(1, ALL_TEN))


def packets_by_chance(draw):
    for _ in range(60):
        version = draw.pick((4, 4, 6, 6, draw.below(16)))
        there = draw.between(18, 50) + draw.pick((0, 30, 240))
        stated = there - draw.between(-2, 6)
        part = ip(draw, version, max(stated, 40) if version == 6 else stated, there, draw.pick((5, 5, draw.below(16))))
        yield carried(draw, part, UNKNOWN)


def named(groups, draw):
    """The cases of these groups, each group after the other."""
    for group in groups:
        for place, case in enumerate(group(draw)):
            yield f"{group.__name__} {place}", case


def reading_cases(draw):
    """What came first: every type, limit and cause."""
    return named((bench, good_closings, good_data, good_listings, unjudged_bits, drawn, too_short, other_types, header_wrong, stamp_wrong,
                  size_wrong, payload_wrong, data_counts, closing_counts, listing_counts, several_causes, hostile), draw)


def check_cases(draw):
    """Wrong checks alone. No good frame is among them, so the stored capture stays as it is."""
    return named((headers_found, headers_worked_out, payloads_found, payloads_worked_out, both_wrong, other_rules, covered), draw)


def packet_cases(draw):
    """IP packets with octets behind them, and what looks like such."""
    return named((octets_behind, lengths_near, header_lengths, shortest_packets, cut_headers, other_versions, swapped_lengths,
                  length_bits, packets_in_lengths, covered_behind, causes_behind, longest_packets, packets_by_chance), draw)


def all_cases(draw):
    yield from reading_cases(draw)
    yield from check_cases(Draw(CHECK_SEED))
    yield from packet_cases(Draw(PACKET_SEED))
