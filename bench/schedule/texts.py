# texts.py WHAT PART: prints a program whose schedule has as many events as are allowed, or half or a quarter of that (PART is 1, 0.5
# or 0.25): `wide`, of four thousand actors in 512 instants, or `long`, of six actors in a million instants.
import sys

part = float(sys.argv[2])


def wide():
    """Two events of each of 4,096 rings in 512 instants, by 4,094 names, two of which are results."""
    rings = int(4096 * part)
    chain = ["y1 :: (1) = x"] + [f"y{i} :: (1) = y{i - 1}" for i in range(2, rings - 1)]
    slow = "(1" + "0" * 511 + ")"
    return f"let node top (x :: (1), slow :: {slow}) = (y1, y{rings - 2}) where rec " + " and ".join(chain)


def long():
    """Two events of each of two rings in 1,048,576 instants: a prefix of 1,024 and a period of 1,024 times 1,023."""
    prefix, period = int(1024 * part), int(1024 * part)
    words = ["0" * prefix + "(1)", "(1" + "0" * (period - 1) + ")", "(1" + "0" * 1022 + ")"]
    params = ", ".join(["x :: (1)"] + [f"p{i} :: {word}" for i, word in enumerate(words)])
    return f"let node top ({params}) = y where rec y :: (1) = x"


print({"wide": wide, "long": long}[sys.argv[1]]())
