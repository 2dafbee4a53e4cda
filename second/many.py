"""Optional: compares the account program with this one on many inputs made by chance.

`python3 second/many.py PROGRAM FIRST COUNT` takes the seeds from FIRST on, and names each seed at which the two print something else.
By turns a seed makes sequences with losses and damage, many wrong checks, and IP packets with octets behind them.
"""

import subprocess
import sys

from account import printed
from draw import Draw
from mixture import Noisy, Partner, Sending, mixture

MOST_FRAMES = 24
KINDS = (Sending, Noisy, Partner)


def main():
    if len(sys.argv) != 4:
        raise SystemExit("usage: python3 second/many.py PROGRAM FIRST COUNT")
    program, first, count = sys.argv[1], int(sys.argv[2]), int(sys.argv[3])
    differing = 0
    for seed in range(first, first + count):
        items = mixture(Draw(seed), MOST_FRAMES, KINDS[seed % len(KINDS)])
        found = subprocess.run([program], input=items, stdout=subprocess.PIPE, timeout=10, check=False).stdout
        meant = printed(items).encode()
        if found != meant:
            differing += 1
            print(f"seed {seed}, input {items.hex()}\nthe program prints:\n{found.decode()}this one prints:\n{meant.decode()}")
    print(f"many: {count} inputs compared, {differing} differ")
    return 1 if differing else 0


if __name__ == "__main__":
    sys.exit(main())
