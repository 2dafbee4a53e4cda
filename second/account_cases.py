"""Inputs for the printed account: sequences with losses, repeats and disorder, contradictions, hostile frames, bad input, and IP packets
with octets behind them.

A case by hand says which refusals it is meant to print, in order, each as a frame's case does; making stops where the account says
otherwise.
"""

from typing import NamedTuple

import examples
from draw import Draw
from frame_cases import (ALL_SIX, ALL_TEN, UNKNOWN, check_cases, closing, data, first_octet, flipped, ip, listing, long_ip, own_header,
                         own_payload, reading_cases, swapped, wrong_header, wrong_payload)
from mixture import Noisy, Partner, Sequence, frame_item, item, key, mixture
from sync import LONGEST, payload_check

CAPACITY = 4_096
CHECK_SEED = 445  # of the accounts about checks, which came later: the others stay as they were
PACKET_SEED = 8_200  # of the accounts about IP packets, which came later still


class Case(NamedTuple):
    name: str
    items: bytes
    refusals: list


def heard(name, stamp, frames, refusals=()):
    """A case of one sequence that hears these frames."""
    return Case(name, key(7, 3, stamp) + b"".join(frame_item(frame) for frame in frames), refusals)


def small(draw, count=20, stamp=100):
    return Sequence(draw, stamp, [draw.below(40) for _ in range(count)], (300, 5_000))


def first_ones(draw):
    yield Case("nothing", b"", [])
    yield heard("document 01's own", 0, [examples.C])
    yield heard("a key alone", 0, [])
    yield heard("all of one packet", 0, [examples.B, examples.C])
    yield heard("the same, closed by Type 3", 0, [examples.B, examples.D])
    yield heard("a sequence without data", 0, [examples.E])
    yield heard("the same, closed by Type 3", 0, [listing(0, [])])
    yield heard("example D as printed", 0, [examples.B, examples.D_PRINTED], [(7, 514, 49)])
    yield Case("the greatest key", key((1 << 32) - 1, (1 << 32) - 1, 59_999) + frame_item(data(59_999, 0, 0, b"")), [])


def losses(draw):
    whole = small(draw)
    yield heard("in order, Type 0", 100, whole.data + [whole.closing])
    yield heard("in order, Type 3", 100, whole.data + [whole.listing])
    yield heard("both closings", 100, [whole.listing] + whole.data + [whole.closing, whole.listing])
    yield heard("first, middle and last lost", 100, whole.data[2:7] + whole.data[9:18] + [whole.closing])
    yield heard("the same without a closing", 100, whole.data[2:7] + whole.data[9:18])
    yield heard("only the closing", 100, [whole.listing])
    yield heard("only the last packet", 100, whole.data[-1:])
    yield heard("falling order, each frame twice", 100, [frame for frame in whole.data[::-1] for _ in range(2)] + [whole.closing] * 2)
    yield heard("out of order, closing first", 100, [whole.closing] + draw.shuffled(whole.data[3:]))
    yield heard("out of order, open", 100, draw.shuffled(whole.data[:4] + whole.data[5:17] + whole.data[2:9]))
    empty = Sequence(draw, 100, [0, 5, 0, 0, 5, 0], (0, 0))
    yield heard("gaps of no octets", 100, [empty.data[1], empty.data[4], empty.closing])
    long = Sequence(draw, 100, [LONGEST] * 9, (0, 0))
    yield heard("longest payloads", 100, [long.data[0], long.data[4], long.data[8], long.closing])


def contradictions(draw):
    """After B, which is packet 0 with one octet, unless said otherwise. What is refused changes nothing."""
    yield heard("examples G and H", 0, [examples.B, data(0, 1, 2, b""), data(0, 2, 4_097, b""), data(0, 2, 1, b"")], [11, 11])
    yield heard("example H, accepted", 0, [examples.B, data(0, 2, 4_096, b"\x01")])
    yield heard("other length or elapsed octets, same packet", 5, [
        data(5, 3, 10, b"abc"), data(5, 3, 10, b"ab"), data(5, 3, 11, b"abc"), data(5, 3, 9, b"abcd"), data(5, 3, 10, b"xyz")], [11] * 3)
    yield heard("before and between", 5, [
        data(5, 4, 10, b"abc"), data(5, 1, 8, b"abc"), data(5, 1, 8, b"ab"), data(5, 0, 0, b"too long!"), data(5, 0, 0, b"12345678"),
        data(5, 3, 11, b""), data(5, 3, 10, b"a"), data(5, 3, 9, b"a"), data(5, 2, 9, b"a"), data(5, 2, 10, b"")], [11] * 6)
    yield heard("a gap that cannot hold its octets", 5, [
        data(5, 0, 0, b""), data(5, 3, 2 * LONGEST, b"abc"), data(5, 2, LONGEST - 1, bytes(LONGEST)), data(5, 1, 1, bytes(LONGEST - 1)),
        data(5, 1, 0, bytes(LONGEST)), data(5, 2, LONGEST, bytes(LONGEST))], [11, 11])
    yield heard("closings that leave too little", 5, [
        data(5, 3, 10, b"abc"), closing(5, 3, 13, (9, 99)), closing(5, 4, 12, (9, 99)), closing(5, 4, 14, (9, 99)),
        closing(5, 6, 13 + 2 * LONGEST + 1, (9, 13 + 2 * LONGEST + 1)), closing(5, 6, 12, (9, 99)), closing(5, 6, 14, (9, 99)),
        closing(5, 6, 14, (8, 20)), closing(5, 6, 15, (9, 99)), closing(5, 7, 14, (9, 99)), listing(5, [0, 0, 0, 0, 0, 14])], [11] * 7)
    yield heard("packets beyond a closing", 5, [
        closing(5, 2, 9, (2, 9)), data(5, 2, 9, b""), data(5, 1, 9, b"a"), data(5, 1, 8, b""), data(5, 0, 0, bytes(10)),
        data(5, 1, 8, b"a"), data(5, 0, 0, bytes(9)), data(5, 0, 0, bytes(8))], [11] * 5)
    yield heard("nothing in a sequence without data", 5, [closing(5, 0, 0, (0, 0)), data(5, 0, 0, b""), closing(5, 1, 0, (1, 0))], [11, 11])
    yield heard("lengths of Type 3 are not held", 5, [
        data(5, 0, 0, b"abc"), data(5, 1, 3, b"de"), listing(5, [1, 4]), listing(5, [5, 0]), closing(5, 2, 5, (2, 5))])


def limits(draw):
    yield heard("capacity of packets", 5, [data(5, 4_095, 0, b"z"), data(5, 4_096, 0, b""), data(5, 65_534, 0, b"")], [10, 10])
    yield heard("capacity of closings", 5, [
        closing(5, 4_097, 0, (4_097, 0)), closing(5, 65_535, 0, (65_535, 0)), closing(5, 4_096, 7, (4_096, 7)),
        listing(5, [0] * 4_097), data(5, 4_095, 0, b"1234567")], [10, 10, 10])
    yield heard("Type 3 of 4,096 lengths", 5, [listing(5, [draw.below(9) for _ in range(4_096)])])
    yield heard("9 before 10 before 11", 5, [
        data(5, 0, 0, b""), data(6, 4_096, 0, b""), data(6, 0, 0, b"1"), data(5, 4_096, 4_096 * LONGEST, b""), closing(4, 0, 0, (0, 0)),
        closing(4, 4_097, 0, (4_097, 0)), closing(5, 4_097, 0, (4_097, 0)), listing(4, [])], [9, 9, 10, 9, 9, 10, 9])
    full = Sequence(draw, 5, [draw.below(2) for _ in range(CAPACITY)], (0, 0))
    yield heard("a long run to the record's last place", 5, full.data[2_900:] + [full.closing])
    odd = Sequence(draw, 5, [draw.below(2) for _ in range(CAPACITY)], (0, 0))
    yield heard("as many gaps as can be", 5, odd.data[1::2] + [odd.closing])


def refusals(draw):
    """Frames that reading refuses, most of them taken from the frames' own cases."""
    frames, meant = [], []
    for _, case in reading_cases(draw):
        if case.meant and len(case.frame) < 120 and draw.chance(4):
            frames.append(case.frame)
            meant.append(case.meant)
    yield heard("frames that reading refuses", 13, frames, meant)
    yield heard("an empty frame", 13, [b"", data(13, 0, 0, b"a")], [1])
    yield heard("the longest body", 13, [data(13, 0, 0, bytes(8_181)), bytes(8_192), b"\xF0" + bytes(8_191)], [6, 6, 3])
    whole = small(draw, 12)
    damaged = [flipped(frame, draw.below(8 * len(frame))) for frame in whole.data]
    both = [frame for pair in zip(damaged, whole.data) for frame in pair]
    yield heard("a damaged copy of each frame", 100, both + [whole.closing], UNKNOWN)


def several(draw):
    one, two = small(draw, 6, 100), small(draw, 4, 101)
    items = key(1, 1, 100) + b"".join(map(frame_item, one.data + [one.closing]))
    items += key(1, 1, 101) + b"".join(map(frame_item, two.data[1:] + [two.listing, one.closing]))
    items += key(2, 1, 100) + key(1, 2, 100) + b"".join(map(frame_item, one.data[:2]))
    yield Case("several sequences", items, [9])
    again = key(1, 1, 100) + b"".join(map(frame_item, one.data[:3]))
    yield Case("an equal key begins anew", again + again + key(1, 1, 100), [])


def bad_input(draw):
    """The item that is bad comes after a whole account and a begun one: the first stays printed, the second never is."""
    whole = small(draw, 3)
    good = key(7, 3, 100) + frame_item(whole.data[0]) + frame_item(b"") + key(7, 3, 100) + frame_item(whole.data[2])
    for name, cut in (("one octet of a head", b"\x0A"), ("three octets of a head", b"\x0A\x00\x01"), ("a head alone", b"\x0A\x00\x01\x00"),
                      ("a cut key", key(7, 3, 100)[:-1]), ("a cut frame", frame_item(whole.data[1])[:-1])):
        yield Case(f"bad input: {name}", good + cut, [1])
    for name, bad in (("kind 0", item(0, bytes(10))), ("kind 3", item(3, whole.data[1])), ("kind 258", item(258, whole.data[1])),
                      ("kind 256", item(256, bytes(10))), ("a short key", item(1, bytes(9))), ("a long key", item(1, bytes(11))),
                      ("an empty key", item(1, b"")), ("a long body", item(2, bytes(8_193))), ("stamp 60,000", key(7, 3, 60_000)),
                      ("stamp 65,535", key(7, 3, 65_535))):
        yield Case(f"bad input: {name}", good + bad + frame_item(whole.data[1]), [1])
    yield Case("bad input: a frame before a key", frame_item(whole.data[0]) + good, [])
    yield Case("bad input at once: a cut head", b"\x00\x00\x02", [])
    yield Case("bad input at once: stamp 60,000", key(0, 0, 60_000) + good, [])


def mixtures(draw):
    for place in range(8):
        yield Case(f"mixture {place}", mixture(draw, 40), UNKNOWN)


def refused_cases(name, stamp, cases):
    """A case of one sequence that hears the frames of these cases and refuses them all."""
    return heard(name, stamp, [case.frame for case in cases], [case.meant for case in cases])


def checks_between(draw):
    """Refusals of four numbers between good frames, and by turns with refusals of two."""
    whole, frames, meant = small(draw, 8), [], []
    for frame in whole.data + [whole.listing]:
        header = wrong_header(frame, own_header(frame) ^ draw.between(1, ALL_SIX))
        payload = wrong_payload(frame, own_payload(frame) ^ draw.between(1, ALL_TEN))
        frames += [header.frame, frame, payload.frame]
        meant += [header.meant, payload.meant]
    yield heard("wrong checks around each frame", 100, frames, meant)
    others = [case for _, case in reading_cases(draw) if case.meant in (1, 2, 3, 5, 6, 8) and len(case.frame) < 60]
    wrong = [case for _, case in check_cases(draw) if len(case.frame) < 60 and draw.chance(6)]
    by_turns = [case for each in wrong for case in (each, draw.pick(others))]
    yield refused_cases("wrong checks and other refusals by turns", 100, by_turns)


def checks_of_0(draw):
    """The line has four numbers even where the check found or the check worked out is 0."""
    yield refused_cases("checks of 0, found or worked out", 0, [
        wrong_header(examples.E, 1), wrong_header(examples.C, 0), wrong_payload(examples.A, 1), wrong_payload(examples.B, 0),
        wrong_payload(listing(0, []), 1), wrong_payload(examples.D, 0), wrong_header(wrong_payload(examples.B, 0).frame, 0)])


def noisy_mixtures(draw):
    for place in range(3):
        yield Case(f"noisy mixture {place}", mixture(draw, 30, Noisy), UNKNOWN)


def two_behind(draw, length):
    """An IPv4 packet as the partner's new core sends it."""
    return ip(draw, 4, length, length + 2)


def some_behind(draw, length):
    return ip(draw, draw.pick((4, 6)), length, length + draw.below(5))


def counting_all(stamp, parts):
    """Frames whose counters count every octet behind the checks, and their closing."""
    before = [sum(len(part) for part in parts[:number]) for number in range(len(parts) + 1)]
    frames = [data(stamp, number, before[number], part) for number, part in enumerate(parts)]
    return frames + [closing(stamp, len(parts), before[-1], (len(parts), before[-1]))]


def partners(draw):
    """Counters without what stands behind the packets: nothing of a partner's sequence is refused."""
    two = Sequence(draw, 100, [draw.between(20, 90) for _ in range(12)], (300, 5_000), two_behind)
    yield heard("two octets behind each IPv4 packet", 100, two.data + [two.closing])
    some = Sequence(draw, 100, [draw.between(40, 90) for _ in range(20)], (300, 5_000), some_behind)
    yield heard("0 to 4 octets behind IPv4 and IPv6 packets, with losses", 100, some.data[1:6] + some.data[8:19] + [some.listing])
    yield heard("the same out of order and open", 100, draw.shuffled(some.data[3:9] + some.data[:5] + some.data[12:16]))
    other = [ip(draw, 4, 30, 30 + behind) for behind in (2, 0, 1, 3, 4, 2)]
    yield heard("one packet with other octets behind it is nothing new", 5, [data(5, 0, 0, part) for part in other])


def wholes(draw):
    """Nothing is dropped, and counters that count everything are right."""
    parts = [ip(draw, 4, 30, 35), ip(draw, 4, 30, 32, 4), ip(draw, 4, 19, 21), ip(draw, 4, 23, 25, 6), ip(draw, 4, 20, 19),
             ip(draw, 4, 40, 38), ip(draw, 5, 30, 32), ip(draw, 6, 40, 39), ip(draw, 6, 50, 55), ip(draw, 6, 50, 48),
             first_octet(0x75, ip(draw, 6, 50, 52)), ip(draw, 4, swapped(28), 30), b"\x45", b"\x60"]
    yield heard("packets behind which nothing is dropped", 100, counting_all(100, parts))


def miscounts(draw):
    """Counters that count what is dropped, and one packet that is counted whole."""
    parts = [ip(draw, 4, 30, 32) for _ in range(4)]
    yield heard("counters that count two octets behind each packet", 100, counting_all(100, parts), [11, 11])
    yield heard("a fifth octet behind a packet makes it another length", 5, [
        data(5, 0, 0, ip(draw, 6, 50, 54)), data(5, 0, 0, ip(draw, 6, 50, 55)), data(5, 1, 50, ip(draw, 4, 20, 25)),
        data(5, 1, 50, ip(draw, 4, 25, 25)), data(5, 1, 50, ip(draw, 4, 20, 22)), closing(5, 2, 75, (2, 75))], [11, 11])
    uncovered = []
    for version, size, behind in ((4, 40, 3), (6, 60, 1), (4, 20, 4)):
        part = ip(draw, version, size, size + behind)
        uncovered.append(wrong_payload(data(5, 0, 0, part), payload_check(part[:size])))
    yield refused_cases("checks that do not cover what is dropped", 5, uncovered)


def longest_packets(draw):
    yield heard("packets of 4,095 octets with 4 and 5 behind them", 5, [
        data(5, 0, 0, long_ip(draw, 4, 4_095, 4_099)), data(5, 1, 4_095, long_ip(draw, 6, 4_095, 4_100)),
        data(5, 1, 4_095, long_ip(draw, 4, 4_096, 4_099)), data(5, 1, 4_095, long_ip(draw, 6, 4_095, 4_099)),
        data(5, 2, 8_190, long_ip(draw, 4, 4_095, 4_100)), closing(5, 2, 8_190, (2, 8_190))], [6, 6, 6])


def partner_mixtures(draw):
    for place in range(6):
        yield Case(f"partner's mixture {place}", mixture(draw, 30, Partner), UNKNOWN)


def all_accounts(draw):
    for group in (first_ones, losses, contradictions, limits, refusals, several, bad_input, mixtures):
        yield from group(draw)
    for group in (checks_between, checks_of_0, noisy_mixtures):
        yield from group(Draw(CHECK_SEED))
    for group in (partners, wholes, miscounts, longest_packets, partner_mixtures):
        yield from group(Draw(PACKET_SEED))
