"""Holds this program to document 01's bench examples A to J, to its sentences about records, to what a wrong check tells, and to what is
dropped behind an IP packet.

It stops at the first thing that is wrong, and otherwise says how many it looked at.
"""

from itertools import product

import account
import clock
import sync
from draw import Draw

A = bytes.fromhex("10 00 00 00 00 00 00 00 00 38 00")
B = bytes.fromhex("10 00 00 00 00 00 00 00 00 3A 33 01")
C = bytes.fromhex("00 00 00 00 01 00 00 00 01 00 00 01 00 00 00 00 01 9C")
# D's payload check is misprinted: 0x202 is the check of 00 11, and that of 00 10 is 0x031.
D_PRINTED = bytes.fromhex("30 00 00 00 01 00 00 00 01 00 00 01 00 00 00 00 01 02 02 00 10")
D = bytes.fromhex("30 00 00 00 01 00 00 00 01 00 00 01 00 00 00 00 01 00 31 00 10")
E = bytes(18)
F = ((B[:-1] + b"\x00", 7), (b"\x20" + B[1:], 2), (b"\x10" + bytes(9), 1))
J = bytes(sync.LONGEST)
# Frames with their refusal, the check found and the check worked out. Header checks are 14 in A and B, 39 in C and 0 in E. Payload
# checks are 563 over 01, 49 over 00 10, 514 over 00 11, and 0 over zeros and over no bits.
WRONG_CHECKS = (
    (D_PRINTED, 7, 514, 49), (D[:17] + b"\x00\x00" + D[19:], 7, 0, 49), (D[:20] + b"\x11", 7, 49, 514), (F[0][0], 7, 563, 0),
    (B[:9] + b"\x38\x00\x01", 7, 0, 563), (B[:9] + b"\x3B\xFF\x00", 7, 1_023, 0), (A[:9] + b"\x38\x01", 7, 1, 0),
    (A[:9] + b"\x3A\x00", 7, 512, 0),
    (A[:9] + b"\x00\x00", 4, 0, 14), (B[:9] + b"\x02\x33\x01", 4, 0, 14), (B[:9] + b"\x3E\x33\x01", 4, 15, 14),
    (B[:9] + b"\xFF\xFF\x00", 4, 63, 14), (E[:17] + b"\x04", 4, 1, 0), (E[:17] + b"\xFF", 4, 63, 0), (C[:17] + b"\x03", 4, 0, 39))
# An IPv4 packet of 20 octets, and AA BB behind it. The checks are 14 and 0x398, which is over all 22 octets; over the packet alone it
# would be 0x0C4.
EXTENDED = bytes.fromhex("10 00 00 00 00 00 00 00 00 3B 98 45 00 00 14") + bytes(16) + b"\xAA\xBB"
# What the octets behind the checks begin with, how many they are (the rest is zeros), and how many of them are payload.
PAYLOADS = (
    # IPv4 of 20 octets, which is 14 in hex. At 19 the header is incomplete, and from 25 on too much stands behind it.
    ("45 00 00 14", 19, 19), ("45 00 00 14", 20, 20), ("45 00 00 14", 21, 20), ("45 00 00 14", 22, 20), ("45 00 00 14", 23, 20),
    ("45 00 00 14", 24, 20), ("45 00 00 14", 25, 25), ("45 00 00 14", 26, 26),
    # It states less than its header, nothing, more than is there, and the most.
    ("45 00 00 13", 20, 20), ("45 00 00 13", 22, 22), ("45 00 00 00", 20, 20), ("45 00 00 15", 20, 20), ("45 00 FF FF", 22, 22),
    # Other IHL: 4 is none, 6 is a header of 24 octets, 15 of 60.
    ("44 00 00 14", 20, 20), ("44 00 00 14", 22, 22), ("44 00 00 10", 20, 20), ("40 00 00 14", 22, 22), ("46 00 00 14", 22, 22),
    ("46 00 00 17", 24, 24), ("46 00 00 18", 26, 24), ("46 00 00 18", 23, 23), ("4F 00 00 3B", 62, 62), ("4F 00 00 3C", 62, 60),
    # The octets of 22 and of 258 in the right order and in the other one.
    ("45 00 00 16", 24, 22), ("45 00 16 00", 24, 24), ("45 00 01 02", 260, 258), ("45 00 02 01", 260, 260),
    # Type of service, flags, time to live, protocol and checksum are not judged.
    ("45 FF 00 14 FF FF FF FF FF FF FF FF", 22, 20),
    # IPv6, whose header of 40 octets is not in the length that it states. A length of 0 is 40.
    ("60 00 00 00 00 01", 44, 41), ("60 00 00 00 00 01", 41, 41), ("60 00 00 00 00 01", 45, 41), ("60 00 00 00 00 01", 46, 46),
    ("60 00 00 00 00 01", 40, 40), ("60 00 00 00 00 00", 39, 39), ("60 00 00 00 00 00", 40, 40), ("60 00 00 00 00 00", 44, 40),
    ("60 00 00 00 00 00", 45, 45), ("6F FF FF FF 00 01 FF FF", 44, 41), ("60 00 00 00 01 00", 44, 44), ("60 00 00 00 01 00", 298, 296),
    ("60 00 00 00 FF FF", 43, 43), ("60 00 00 00 FF FC", 40, 40), ("60 00 00 2A 00 2A", 44, 44),
    # Other versions, and octets that are too few for any header.
    ("55 00 00 14", 22, 22), ("35 00 00 14", 22, 22), ("54 00 00 14", 22, 22), ("50 00 00 00 00 01", 44, 44), ("70 00 00 00 00 01", 44, 44),
    ("", 0, 0), ("", 22, 22), ("45", 1, 1), ("45 00 00", 3, 3), ("45 00 00 04", 4, 4), ("60", 1, 1), ("60 00 00 00 00", 5, 5),
    # The limit: a payload of 4,095 octets, which is FFF in hex; FD7 is 40 less.
    ("45 00 0F FF", 4_095, 4_095), ("45 00 0F FF", 4_096, 4_095), ("45 00 0F FF", 4_099, 4_095), ("45 00 0F FC", 4_096, 4_092),
    ("60 00 00 00 0F D7", 4_095, 4_095), ("60 00 00 00 0F D7", 4_099, 4_095))
# The same at which refusal 6 is told: over 4 octets less, more than 4,095 stated, or no IP header.
TOO_LONG = (
    ("45 00 0F FF", 4_100), ("45 00 0F FE", 4_099), ("45 00 0F FB", 4_096), ("45 00 10 00", 4_096), ("45 00 10 00", 4_099),
    ("44 00 0F FF", 4_099), ("55 00 0F FF", 4_099), ("60 00 00 00 0F D7", 4_100), ("60 00 00 00 0F D8", 4_099))
KEY = bytes.fromhex("0A 00 01 00 07 00 00 00 03 00 00 00 00 00")

looked = 0


def same(found, meant):
    global looked
    looked += 1
    if found != meant:
        raise SystemExit(f"examples: {found!r} where {meant!r} was meant")


def told(call, *given):
    """The number with which a call is refused and, with 4 and 7, the check found and the check worked out; 0 where it is not."""
    try:
        call(*given)
    except sync.Refused as refused:
        return refused.number, *refused.checks
    return (0,)


def refusal(call, *given):
    return told(call, *given)[0]


def frames():
    same(sync.write_data(0, 0, 0, b""), A)
    same(sync.write_data(0, 0, 0, b"\x01"), B)
    same(sync.write_closing(0, 1, 1, 1, 1), C)
    same(sync.write_lengths(0, 1, 1, 1, 1, (1,)), D)
    same(sync.payload_check(b"\x00\x11"), 0x202)
    same(sync.read(A), sync.Data(0, 0, 0, b""))
    same(sync.read(B), sync.Data(0, 0, 0, b"\x01"))
    same(sync.read(C), sync.Closing(0, 1, 1, 1, 1))
    same(sync.read(D), sync.Lengths(0, 1, 1, 1, 1, (1,)))
    same(sync.read(E), sync.Closing(0, 0, 0, 0, 0))
    for frame, number in F:
        same(refusal(sync.read, frame), number)
    same(sync.read(sync.write_data(0, 0, 0, J)), sync.Data(0, 0, 0, J))
    same(refusal(sync.write_data, 0, 0, 0, J + b"\x00"), 20)


def told_above(frame, *meant):
    """Hearing tells what reading told, and so does the account behind the item's place."""
    same(told(account.Record(7, 3, 0).hear, 7, 3, frame), meant)
    lines = [account.line("refused", 2, *meant), "sequence 7 3 0 open", "sent 0 0", "heard 0 0", "missing 0 0", "end"]
    same(account.printed(KEY + len(frame).to_bytes(2, "little") + b"\x02\x00" + frame), account.text(lines))


def wrong_checks():
    """Found stands before worked out. Other refusals tell their number alone."""
    for frame, *meant in WRONG_CHECKS + F[1:]:
        same(told(sync.read, frame), tuple(meant))
        told_above(frame, *meant)
    told_above(sync.join_parts(sync.control_part(sync.DATA, 60_000, 0, 0), b""), 5)
    told_above(sync.write_data(1, 0, 0, b""), 9)
    told_above(sync.write_data(0, 4_096, 0, b""), 10)


def divided(octets, *powers):
    """The rest once more, by dividing the octets and the zero bits behind them as one long number."""
    divisor, width = sum(1 << power for power in powers), max(powers)
    rest = int.from_bytes(octets, "big") << width
    while rest >> width:
        rest ^= divisor << rest.bit_length() - 1 - width
    return rest


def found_and_worked_out(draw):
    """Any two checks over spare bits and payload by chance: told is the first wrong one, and what `divided` gives in its place."""
    kind = draw.pick((sync.DATA, sync.LENGTHS))
    control = bytes([kind << 4 | draw.below(16), 0, draw.below(256)]) + bytes(sync.CONTROL_SIZE[kind] - 3)
    part = draw.octets(draw.below(5))  # in Type 3 an extension
    header, payload = divided(control, 6, 5, 3, 2, 1, 0), divided(part, 10, 9, 5, 4, 1, 0)
    first, second = draw.pick((header, 0, draw.below(64))), draw.pick((payload, 0, draw.below(1_024)))
    meant = (4, first, header) if first != header else (7, second, payload) if second != payload else (0,)
    same(told(sync.read, control + bytes([first << 2 | second >> 8, second & 255]) + part), meant)


def beginning(start, there):
    """So many octets that begin with these."""
    return bytes.fromhex(start) + bytes(there - len(bytes.fromhex(start)))


def packets():
    """What is left of a payload is read, heard and written again; the check covers what is dropped, and writing drops nothing."""
    whole = EXTENDED[11:]
    same((divided(EXTENDED[:9], 6, 5, 3, 2, 1, 0), divided(whole, 10, 9, 5, 4, 1, 0)), (14, 0x398))
    same(divided(whole[:20], 10, 9, 5, 4, 1, 0), 0x0C4)
    same(sync.read(EXTENDED), sync.Data(0, 0, 0, whole[:20]))
    same(sync.write_data(0, 0, 0, whole), EXTENDED)
    same(told(sync.read, EXTENDED[:9] + b"\x38\xC4" + whole), (7, 0x0C4, 0x398))
    same(told(sync.read, EXTENDED[:-1] + b"\xBA"), (7, 0x398, 0x398 ^ 0x233))  # one turned bit at the end is 01 as in B
    for start, there, left in PAYLOADS:
        frame = sync.join_parts(sync.control_part(sync.DATA, 0, 0, 0), beginning(start, there))
        said = sync.read(frame)
        same(said, sync.Data(0, 0, 0, beginning(start, there)[:left]))
        same(len(sync.write(said)), 11 + left)
        record = account.Record(7, 3, 0)
        record.hear(7, 3, frame)
        same(record.packets, {0: (0, left)})
    for start, there in TOO_LONG:
        frame = sync.join_parts(sync.control_part(sync.DATA, 0, 0, 0), beginning(start, there))
        same(told(sync.read, frame), (6,))
        same(told(sync.read, frame[:-1] + b"\x01"), (6,))  # the check is wrong now, and 6 comes first
        same(refusal(sync.write_data, 0, 0, 0, beginning(start, there)), 20)


def side(part):
    """The rule on IP packets once more, on hex digits: the version, the octets that are dropped, and all reasons why none is.

    In an incomplete header nothing else is looked at. Another version than 4 and 6 is looked at as if it were 4.
    """
    digits, there = part.hex(), len(part)
    version = digits[:1]
    if there < (40 if version == "6" else 20):
        return version, 0, ("incomplete",)
    if version == "6":
        header, stated = 40, 40 + int(digits[8:12], 16)
    else:
        header, stated = 4 * int(digits[1], 16), int(digits[4:8], 16)
    reasons = (("another version", version not in "46"), ("IHL under 5", header < 20), ("less than its header", stated < header),
               ("more than is there", stated > there), ("over 4 less", there - stated > 4))
    found = tuple(name for name, so in reasons if so)
    return version, 0 if found else there - stated, found


def packet_by_chance(draw):
    """Octets that start as an IP packet, or nearly, and state a length near their number: what is left is what `side` gives."""
    there = draw.pick((draw.below(50), draw.between(18, 26), draw.between(38, 46), draw.between(250, 300)))
    near = max(0, there - draw.between(-2, 6)).to_bytes(2, "big")
    near_6 = max(0, there - 40 - draw.between(-2, 6)).to_bytes(2, "big")
    first = draw.pick((0x45, 0x45, 0x60, 0x40 | draw.below(16), draw.below(256)))
    part = (bytes([first, draw.below(256)]) + near + near_6 + draw.octets(there))[:there]
    same(there - len(sync.read(sync.write_data(0, 0, 0, part)).payload), side(part)[1])


def writing_order():
    """Writing from given fields: 5, 20, 8, 22, 12."""
    long = bytes(sync.LONGEST + 1)
    same(refusal(sync.write_data, 60_000, 0, 1, long, 0), 5)
    same(refusal(sync.write_data, 59_999, 0, 1, long, 0), 20)
    same(refusal(sync.write_data, 59_999, 0, 1, b"", 0), 8)
    same(refusal(sync.write_data, 59_999, 0, 0, b"", 10), 12)
    same(refusal(sync.write_data, 59_999, 0, 0, b"", 11), 0)
    same(refusal(sync.write_lengths, 60_000, 1, 4_096, 1, 4_096, (), 0), 5)
    same(refusal(sync.write_lengths, 0, 1, 4_096, 1, 4_096, (), 0), 8)
    for lengths in ((), (1, 0), (0,), (2,)):
        same(refusal(sync.write_lengths, 0, 1, 1, 1, 1, lengths, 0), 22)
    same(refusal(sync.write_lengths, 0, 2, 4_096, 2, 4_096, (4_096, 0), 0), 22)
    same(refusal(sync.write_lengths, 0, 1, 1, 1, 1, (1,), 20), 12)
    for counts in ((65_536, 0, 65_536, 0), (0, 0, 1 << 24, 0), (0, 0, 0, 1 << 40), (0, 1 << 32, 0, 1 << 32)):
        same(refusal(sync.write_closing, 0, *counts), 8)


def neighbours():
    """Examples G and H: what may follow B. They name no capacity; the account's serves."""
    for number, elapsed, meant in ((1, 2, 11), (2, 1, 0), (2, 4_096, 0), (2, 4_097, 11)):
        record = account.Record(0, 0, 0)
        record.hear(0, 0, B)
        same(refusal(record.hear, 0, 0, sync.write_data(0, number, elapsed, b"")), meant)


def ticks():
    """Example I."""
    start = 4_294_967_290
    same(clock.due(start, 10), 4)
    same(clock.lateness(3, 4), -1)
    same(clock.lateness(2_147_483_652, 4), -2_147_483_648)
    same(clock.lateness(2_147_483_651, 4), 2_147_483_647)
    same(clock.stamp_of(start, 4), 10)
    same(refusal(clock.stamp_of, start, start - 1), 23)


def printed_account():
    lines = ["sequence 7 3 0 closed", "sent 1 1", "heard 0 0", "missing 1 1", "gap 0 1 1", "end"]
    same(account.printed(KEY + bytes.fromhex("12 00 02 00") + C), account.text(lines))
    same(account.printed(b""), "")


def all_explained(longest, most):
    """Every record that some sending explains, found by trying every sending and every part of it."""
    found = set()
    for count in range(most + 1):
        for sending in product(range(longest + 1), repeat=count):
            packets = [(number, (sum(sending[:number]), sending[number])) for number in range(count)]
            for kept in product((False, True), repeat=count):
                heard = frozenset(packet for packet, keep in zip(packets, kept) if keep)
                found |= {(heard, None), (heard, (count, sum(sending)))}
    return found


def sendings():
    """Holds the walk to the definition, at payloads of at most 2 octets and sequences of at most 3 packets."""
    right = all_explained(2, 3)
    choices = [None, *product(range(6), range(3))]
    closings = [None, *product(range(4), range(7))]
    account.LONGEST = 2
    for places in product(choices, repeat=3):
        packets = {number: packet for number, packet in enumerate(places) if packet is not None}
        heard = frozenset(packets.items())
        for closing in closings:
            same(account.explained(packets, closing), (heard, closing) in right)
    account.LONGEST = sync.LONGEST


def truth(sending, heard, closed):
    """The account's lines worked out from the sending itself, packet after packet."""
    reach = len(sending) if closed else max(heard, default=-1) + 1
    gaps, missing = [], [number for number in range(reach) if number not in heard]
    for number in missing:
        if not gaps or sum(gaps[-1][:2]) != number:
            gaps.append([number, 0, 0])
        gaps[-1][1] += 1
        gaps[-1][2] += sending[number]
    lines = [f"sequence 1 2 3 {'closed' if closed else 'open'}", f"sent {reach} {sum(sending[:reach])}"]
    lines.append(f"heard {len(heard)} {sum(sending[number] for number in heard)}")
    lines.append(f"missing {len(missing)} {sum(sending[number] for number in missing)}")
    return lines + [f"gap {first} {count} {octets}" for first, count, octets in gaps] + ["end"]


def zeros(draw, length):
    return bytes(length)


def extended(draw, length):
    """An IPv4 packet of this length with 0 to 4 octets behind it; zeros alone where it would be too short."""
    return zeros(draw, length) if length < 20 else b"\x45\x00" + length.to_bytes(2, "big") + bytes(length - 4) + draw.octets(draw.below(5))


def receptions(draw, part):
    """No order, repeat or loss of one sequence's frames is refused, and the account is that of the sending."""
    sending = [draw.pick((0, 1, 30, draw.below(60))) for _ in range(draw.below(30))]
    heard = {number for number in range(len(sending)) if not draw.chance(3)}
    closed = draw.chance(2)
    frames_heard = [sync.write_data(3, number, sum(sending[:number]), part(draw, sending[number])) for number in heard]
    if closed:
        frames_heard.append(sync.write_closing(3, len(sending), sum(sending), len(sending), sum(sending)))
        frames_heard.append(sync.write_lengths(3, len(sending), sum(sending), len(sending), sum(sending), sending))
    record = account.Record(1, 2, 3)
    for frame in draw.shuffled(frames_heard + frames_heard[:3]):
        same(refusal(record.hear, 1, 2, frame), 0)
    same(record.account(), truth(sending, heard, closed))


def main():
    frames()
    wrong_checks()
    packets()
    writing_order()
    neighbours()
    ticks()
    printed_account()
    sendings()
    draw = Draw(1)
    for _ in range(100):
        receptions(draw, zeros)
    for _ in range(500):
        found_and_worked_out(draw)
    for _ in range(2_000):
        packet_by_chance(draw)
    for _ in range(100):
        receptions(draw, extended)
    print(f"examples: {looked} compared")


if __name__ == "__main__":
    main()
