#!/usr/bin/env python3
"""What the program `replay` has to answer, found by counting samples in stretches of ticks.

It shares nothing with the counters: it remembers the tick of every accepted sample. A sample breaks a staircase if some
stretch that ends in the present tick would have too many. A bound is found by sending samples as early as they are
accepted, up to the horizon. Both read the same lines: model/replay.py < crates/replay/stdin
"""
import sys


class Table:
    def __init__(self, figures):
        pairs = list(zip(figures[::2], figures[1::2]))
        self.staircases = [(number, burst, step) for number, (burst, step) in enumerate(pairs) if burst]
        self.now = 0
        self.fell = []

    def broken(self, fell, now):
        """The number of the lowest staircase that one more sample would break, if there is one."""
        ticks = fell + [now]
        for number, burst, step in self.staircases:
            for count, first in enumerate(reversed(ticks), 1):
                if count > burst + (now - first) // step:
                    return number
        return None

    def sample(self):
        number = self.broken(self.fell, self.now)
        if number is None:
            self.fell.append(self.now)
            return "accepted"
        return f"refused {number}"

    def bound(self, horizon):
        fell = list(self.fell)
        for tick in range(self.now, self.now + horizon + 1):
            while self.broken(fell, tick) is None:
                fell.append(tick)
        return f"bound {len(fell) - len(self.fell)}"


def main():
    table = None
    for line in sys.stdin:
        name, *numbers = line.split()
        numbers = [int(number) for number in numbers]
        if name == "table":
            table = Table(numbers)
        elif name == "ticks":
            table.now += numbers[0]
        elif name == "sample":
            print(table.sample())
        else:
            print(table.bound(*numbers))


main()
