# texts.py WHAT PART: prints a program that comes near limits of `clocks` with scale 64, or near half or a quarter of them (PART is
# 1, 0.5 or 0.25).
import random
import sys

what, part = sys.argv[1], float(sys.argv[2])


def node(name, params, result, definitions):
    return f"let node {name} {params} = {result}" + (" where rec " + " and ".join(definitions) if definitions else "")


def calls():
    """As many inequalities as are allowed: 58 calls of a node with 64 parameters, and a buffer."""
    names = [f"a{i}" for i in range(64)]
    wide = node("wide", f"({', '.join(names)})", "a0", [])
    given = ", ".join(["x"] * 64)
    return [wide, node("top", "x", "b", ["b = buffer x"] + [f"y{i} = wide ({given})" for i in range(int(58 * part))])]


def chain(order):
    """Buffers one behind the other, each with as many positions as fit, whose definitions stand in this order."""
    count = int(255 * part)
    definitions = [f"y{i} = buffer (y{i - 1})" if i else "y0 = x" for i in range(count)]
    if order == "reversed":
        definitions.reverse()
    if order == "scattered":
        random.Random(1).shuffle(definitions)
    return [node("top", "x", f"y{count - 1}", definitions)]


def components():
    """As many components as there are positions for."""
    count = int(64 * part)
    return [node(f"part{k}", f"({', '.join(f'a{i}' for i in range(count))})", "a0", []) for k in range(8)]


def cycle():
    """No clocks: an item is wanted before it comes, through all buffers of a chain whose definitions are scattered."""
    count = int(250 * part)
    definitions = [f"y{i} = buffer (y{i - 1})" for i in range(1, count)]
    random.Random(1).shuffle(definitions)
    return [node("top", "x", "z", ["y0 = x when 0(1)"] + definitions + [f"z = y{count - 1} + x when (1)"])]


def zigzag():
    """No clocks: an item is wanted before it comes, to and fro between two clocks. The part is that of the lead."""
    return ["let node top (x1, x2) = y where rec y = (x1 when (101)) + (x2 when (110))"]


def wraps():
    """Clocks each of which must be late for the one before by more positions than it has, with definitions in reverse order."""
    count, zeros = 280, 8
    definitions = [f"b{j} = buffer x" for j in range(count + 1)] + [f"w = b0 + (x when {'0' * (count * zeros + 10)}(1))"]
    definitions += [f"w{j} = b{j} + (b{j + 1} when {'0' * zeros}(1))" for j in range(count)]
    definitions.reverse()
    return [node(f"n{k}", "x", "x", definitions) for k in range(int(4 * part))]


def trees():
    """The most steps back and forth in growing a tree: each clock that it reaches is named by a need far in front, behind which thousands
    stand that join nothing more."""
    count, wide = int(1000 * part), ",".join(["x"] * 64)
    definitions = [f"c{i} = 0" for i in range(count)] + [f"z{i} = f ({wide})" for i in range(int(400 * part))]
    for first in range(0, count, 200):
        definitions.append(f"s{first} = x" + "".join(f" + c{i}" for i in range(first, min(first + 200, count))))
    params = ", ".join(f"a{i}" for i in range(64))
    return [node("f", f"({params})", "a0", [])] + [node(f"top{k}", "x", "s0", definitions) for k in range(13)]


kinds = {
    "trees": trees,
    "calls": calls,
    "chain": lambda: chain("forward"),
    "reversed": lambda: chain("reversed"),
    "scattered": lambda: chain("scattered"),
    "components": components,
    "cycle": cycle,
    "zigzag": zigzag,
    "wraps": wraps,
}
print("\n".join(kinds[what]()))
