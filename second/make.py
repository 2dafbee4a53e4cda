"""Makes the stored frames and accounts anew: `python3 second/make.py OUTDIR`.

Writes frames.bin and frames.txt, accounts/NN.items and accounts/NN.txt, and accounts/names, which says what each account is about.
The seeds are fixed, so every run makes the same octets.
"""

import sys
from pathlib import Path

import account
import account_cases
import examples
import frame_cases
import sync
from draw import Draw

FRAME_SEED, ACCOUNT_SEED = 25_446, 36_300


def said_line(said):
    """The line that stands for what a good frame says."""
    if isinstance(said, sync.Closing):
        return account.line("closing", *said)
    if isinstance(said, sync.Data):
        return account.line("data", said.stamp, said.number, said.elapsed, len(said.payload))
    return account.line("lengths", *said[:5], *said.lengths)


def dropped_of(frame, said):
    """How many octets of a good frame were dropped behind an IP packet."""
    return len(frame) - sync.LEAST_SIZE[sync.DATA] - len(said.payload) if isinstance(said, sync.Data) else 0


def nothing_unjudged(frame, said):
    """Whether a good frame has no bit set that reading does not judge, and nothing that it drops: only then writing gives it again."""
    if frame[0] & 0x0F:
        return False
    if isinstance(said, sync.Closing):
        return frame[-1] & 0x03 == 0
    if isinstance(said, sync.Data):
        return dropped_of(frame, said) == 0
    size = sync.LEAST_SIZE[sync.LENGTHS] + sync.lengths_size(said.packets)
    return len(frame) == size and (said.packets % 2 == 0 or frame[-1] & 0x0F == 0)


def told_of(frame):
    """What a good frame says, and its refusal's number with the checks behind it or 0."""
    try:
        return sync.read(frame), (0,)
    except sync.Refused as refused:
        return None, (refused.number, *refused.checks)


def described(frame, said, told):
    """The lines that stand for one frame, and whether writing gives it again. What is written says the same once more."""
    if said is None:
        return [account.line("refused", *told)], False
    written = sync.write(said)
    same = written == frame
    if same != nothing_unjudged(frame, said) or sync.read(written) != said:
        raise SystemExit(f"make: frame {frame.hex()} is written again as {written.hex()}")
    return [said_line(said)] + ([] if same else [account.line("written", *written)]), same


def is_meant(told, meant):
    """Whether what was told is what a case means. The number decides whether two checks stand behind it; not every case names them."""
    return len(told) == (3 if told[0] in (4, 7) else 1) and meant in (told, told[0], frame_cases.UNKNOWN)


def all_meant(told, meant):
    meant = [frame_cases.UNKNOWN] * len(told) if meant is frame_cases.UNKNOWN else meant
    return len(told) == len(meant) and all(map(is_meant, told, meant))


def side_of(name, case, said):
    """On which side of the clauses about IP packets a good data frame is. What was dropped has to go with it and with the case."""
    side, dropped = examples.side(case.frame[sync.LEAST_SIZE[sync.DATA]:]), dropped_of(case.frame, said)
    if dropped != side[1] or case.dropped not in (dropped, frame_cases.UNKNOWN):
        raise SystemExit(f"make: of frame {name} {case.dropped} octets were meant to be dropped and {dropped} are; its side is {side}")
    return side


def make_frames(folder):
    octets, lines, frames, again, sides = b"", [], 0, 0, set()
    for name, case in frame_cases.all_cases(Draw(FRAME_SEED)):
        said, told = told_of(case.frame)
        if not is_meant(told, case.meant):
            raise SystemExit(f"make: frame {name} was meant to give {case.meant} and gives {told}")
        if isinstance(said, sync.Data):
            sides.add(side_of(name, case, said))
        more, same = described(case.frame, said, told)
        octets += len(case.frame).to_bytes(2, "little") + case.frame
        lines += more
        frames += 1
        again += same
    if not frame_cases.SIDES <= sides:
        raise SystemExit(f"make: no good frame shows these sides of the clauses about IP packets: {sorted(frame_cases.SIDES - sides)}")
    lines.append(account.line("again", again))
    (folder / "frames.bin").write_bytes(octets)
    (folder / "frames.txt").write_text(account.text(lines))
    return frames


def make_accounts(folder):
    folder.mkdir(exist_ok=True)
    names = []
    for case in account_cases.all_accounts(Draw(ACCOUNT_SEED)):
        text = account.printed(case.items)
        told = [tuple(int(field) for field in line.split()[2:]) for line in text.splitlines() if line.startswith("refused")]
        if not all_meant(told, case.refusals):
            raise SystemExit(f"make: account {case.name!r} was meant to refuse with {case.refusals} and refuses with {told}")
        place = f"{len(names):02}"
        (folder / f"{place}.items").write_bytes(case.items)
        (folder / f"{place}.txt").write_text(text)
        names.append(account.line(place, case.name))
    (folder / "names").write_text(account.text(names))
    return len(names)


def main():
    if len(sys.argv) != 2:
        raise SystemExit("usage: python3 second/make.py OUTDIR")
    folder = Path(sys.argv[1])
    folder.mkdir(parents=True, exist_ok=True)
    frames = make_frames(folder)
    accounts = make_accounts(folder / "accounts")
    print(f"make: {frames} frames, {accounts} accounts")


if __name__ == "__main__":
    main()
