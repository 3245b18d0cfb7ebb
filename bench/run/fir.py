# A filter of three taps over lines `x VALUE`: prints a line `o VALUE` for each.
import sys


def wrapped(value):
    return (value + 2**63) % 2**64 - 2**63


before = last = 0
for line in sys.stdin:
    name, value = line.split()
    now = int(value)
    total = wrapped(now + 2 * last + before)
    quotient = abs(total) // 4
    print("o", quotient if total >= 0 else -quotient)
    before, last = last, now
