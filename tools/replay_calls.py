#!/usr/bin/env python3
"""What the program replay_calls must print, worked out from the rules by another way.

It keeps every order of the pile from day 1 and works out each answer from that list by the rules' closed forms;
it shares nothing with the Rattle code.
    python3 tools/replay_calls.py < crates/replay_calls/stdin > crates/replay_calls/stdout
"""
import sys
from math import isqrt

HORIZON, TERM = 63, 1_000_000


def order_of(orders, day):
    """The order of a day: 0 before day 1."""
    return orders[day - 1] if day >= 1 else 0


def days_sum(orders, first, last):
    return sum(order_of(orders, d) for d in range(first, last + 1))


def root_up(n):
    r = isqrt(n)
    return r if r * r == n else r + 1


def longest_wait(mask):
    def departs(day):
        return (mask >> ((day - 1) % 7)) & 1 == 1
    return max(next(u for u in range(t, t + 7) if departs(u)) - t for t in range(1, 8))


class Vendor:
    """A vendor: its line from the orders it was sent."""
    def __init__(self, number, kind, quote, limit):
        self.number, self.kind, self.quote, self.limit = number, kind, quote, limit

    def lines(self, orders):
        t = len(orders)
        return [(self.number, self.kind, order_of(orders, t), order_of(orders, t - self.quote), days_sum(orders, t - self.quote + 1, t))]


class Delay:
    def __init__(self, below, number, days):
        self.below, self.number, self.days = below, number, days
        self.quote, self.limit = below.quote + days, below.limit

    def lines(self, orders):
        t = len(orders)
        transit = days_sum(orders, t - self.quote + 1, t - self.below.quote)
        return [(self.number, "D", order_of(orders, t), order_of(orders, t - self.quote), transit)] + self.below.lines(orders)


class Assembly:
    def __init__(self, left, right, number, a, b):
        self.left, self.right, self.number, self.a, self.b = left, right, number, a, b
        self.quote = max(left.quote, right.quote)

    def limit(self, k):
        return min(self.left.limit(k) // self.a, self.right.limit(k) // self.b)

    def lines(self, orders):
        t = len(orders)
        waiting = sum(c * days_sum(orders, t - self.quote + 1, t - side.quote) for c, side in ((self.a, self.left), (self.b, self.right)))
        own = (self.number, "A", order_of(orders, t), order_of(orders, t - self.quote), waiting)
        return [own] + self.left.lines([self.a * q for q in orders]) + self.right.lines([self.b * q for q in orders])


class Stage:
    def __init__(self, below, number, process, quote, base, bound):
        self.below, self.number, self.quote, self.base, self.limit = below, number, quote, base, bound
        self.ready = below.quote + process
        assert self.ready <= HORIZON and quote <= self.ready
        assert all(bound(k) <= below.limit(k) for k in range(1, HORIZON + 1))
        assert bound(self.ready - quote) <= base

    def lines(self, orders):
        t = len(orders)
        shelf = self.base - days_sum(orders, t - self.ready + 1, t - self.quote)
        assert shelf >= 0
        return [(self.number, "S", order_of(orders, t), order_of(orders, t - self.quote), shelf)] + self.below.lines(orders)

    def refusal(self, orders, q):
        """Cause, window, bound and sum of the first broken window."""
        day = len(orders) + 1
        if day > TERM:
            return f"RF 1 {self.number} {day} 0 {TERM} {len(orders)} 0"
        for k in range(1, HORIZON + 1):
            total = q + days_sum(orders, day - k + 1, day - 1)
            if total > self.limit(k):
                return f"RF {2 if k == 1 else 3} {self.number} {day} {k} {self.limit(k)} {total} 0"
        return None


calendar = Vendor(1, "C", 2 + longest_wait(9), lambda k: 100 * -(-k // 7))
pipeline = Vendor(3, "P", 4, lambda k: 60 * k)
root = Stage(pipeline, 4, 2, 2, 64, lambda k: 10 * k + root_up(144 * k))
pile = Stage(Assembly(Delay(calendar, 2, 1), root, 5, 1, 2), 6, 1, 3, 26, lambda k: min(8 * k, 10 + 4 * k))

orders = []
for line in sys.stdin:
    name, *figures = line.split()
    figure = int(figures[0]) if figures else 0
    if name == "trial":
        print(f"trial {figure}: {pile.refusal(orders, figure) or 'free'}")
    elif name == "day":
        refused = pile.refusal(orders, figure)
        if refused is None:
            orders.append(figure)
            print(f"day {figure}: {order_of(orders, len(orders) - pile.quote)}")
        else:
            print(f"day {figure}: {refused}")
    elif name == "quote":
        print(f"quote: {pile.quote}")
    elif name == "limit":
        print(f"limit {figure}: {pile.limit(figure) if 1 <= figure <= HORIZON else 'none'}")
    elif name == "days":
        print(f"days: {len(orders)}")
    elif name == "lines":
        print(f"lines: {len(pile.lines(orders))}")
    elif name == "line":
        rows = pile.lines(orders)
        print(f"line {figure}: {' '.join(map(str, rows[figure])) if figure < len(rows) else 'none'}")
