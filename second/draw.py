"""A small generator of numbers, the same under every version of Python, so that what is stored can be made again."""

STATES = 1 << 64


class Draw:
    """A linear congruential generator with Knuth's constants. Its lowest bits repeat soon, so they are not given out."""

    def __init__(self, seed):
        self.state = seed

    def below(self, limit):
        """A number from 0 to limit - 1. Limits to 2^40 are served."""
        self.state = (self.state * 6364136223846793005 + 1442695040888963407) % STATES
        return (self.state >> 24) % limit

    def between(self, least, most):
        return least + self.below(most - least + 1)

    def chance(self, of):
        """True once in `of` times."""
        return self.below(of) == 0

    def pick(self, choices):
        return choices[self.below(len(choices))]

    def octets(self, count):
        return bytes(self.below(256) for _ in range(count))

    def shuffled(self, things):
        """The same things in another order."""
        left = list(things)
        return [left.pop(self.below(len(left))) for _ in range(len(left))]
