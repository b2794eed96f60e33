#!/usr/bin/env python3
"""What the program two_vendors must print, worked out from the rules by another way.

It keeps every order from day 1 and sums windows over that list; it shares nothing with the Rattle code.
    python3 tools/two_vendors.py < crates/two_vendors/stdin > crates/two_vendors/stdout
"""
import sys

HORIZON, TERM = 63, 1_000_000


def longest_wait(mask):
    """The longest wait of any order: days 1 to 7 stand for all days."""
    def departs(day):
        return (mask >> ((day - 1) % 7)) & 1 == 1
    return max(next(u for u in range(t, t + 7) if departs(u)) - t for t in range(1, 8))


class Vendor:
    def __init__(self, number, kind, quote, limit):
        self.number, self.kind, self.quote, self.limit = number, kind, quote, limit
        self.orders = []  # the order of day t is at place t - 1

    def order_of(self, day):
        return self.orders[day - 1] if day >= 1 else 0

    def ask(self, q):
        day = len(self.orders) + 1
        if day > TERM:
            return f"RF 1 {self.number} {day} 0 {TERM} {len(self.orders)} 0"
        for k in range(1, HORIZON + 1):
            total = q + sum(self.order_of(d) for d in range(day - k + 1, day))
            if total > self.limit(k):
                return f"RF {2 if k == 1 else 3} {self.number} {day} {k} {self.limit(k)} {total} 0"
        self.orders.append(q)
        held = sum(self.order_of(d) for d in range(day - self.quote + 1, day + 1))
        return f"LN {day} {self.number} {self.kind} {q} {self.order_of(day - self.quote)} {held}"

    def account(self):
        last = len(self.orders)
        ordered = sum(self.orders)
        delivered = sum(self.order_of(t - self.quote) for t in range(1, last + 1))
        return f"{self.number}: ordered {ordered}, delivered {delivered}, to come {ordered - delivered}"


vendors = [
    Vendor(1, "P", 4, lambda k: 60 * k),
    Vendor(2, "C", 2 + longest_wait(9), lambda k: 100 * -(-k // 7)),
]
for line in sys.stdin:
    for vendor in vendors:
        print(vendor.ask(int(line)))
for vendor in vendors:
    print(vendor.account())
