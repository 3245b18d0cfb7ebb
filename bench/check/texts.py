# texts.py WHAT PART: prints a program that comes near limits of `check`, or near half or a quarter of them (PART is 1, 0.5 or 0.25).
import sys

part = float(sys.argv[2])


def word(length):
    """A period of so many bits, of which the first half are ones."""
    ones = length // 2
    return "(" + "1" * ones + "0" * (length - ones) + ")"


def node(name, params, result, definitions):
    return f"let node {name} ({params}) = {result}" + (" where rec " + " and ".join(definitions) if definitions else "")


def words():
    """Written words that fill the text."""
    nodes = [node(f"f{i}", f"x :: {word(4001)}", "x", []) for i in range(int(254 * part))]
    return nodes + [node("top", "x :: (1)", "x", [])]


def calls():
    """Thirty thousand calls of a node with a long word."""
    long = word(4001)
    nodes = [node("f", f"x :: {long}", "o", ["o :: (1) = 7"])]
    for i in range(int(16 * part)):
        nodes.append(node(f"g{i}", f"x :: {long}", "x", [f"y{j} :: (1) = f at (1) (x)" for j in range(1900)]))
    return nodes + [node("top", "x :: (1)", "x", [])]


def doubled():
    """Sixteen thousand actors by calls that double, with words of three thousand bits."""
    long = word(3001)
    nodes = [node("f0", f"x :: {long}", "y", [f"y :: {long} = x"])]
    for level in range(1, {1: 12, 0.5: 11, 0.25: 10}[part]):
        halves = [f"y :: {long} = f{level - 1} at (1) (x)", f"z :: {long} = f{level - 1} at (1) (y)"]
        nodes.append(node(f"f{level}", f"x :: {long}", "z", halves))
    return nodes


def merges():
    """Nodes of 4 KB, in each of which 120 merges hand down words of 1,048,576 bits."""
    first, second = "(" + "1" * 1023 + "0)", word(1024)

    def tree(count):
        left = (count - 1) // 2
        return f"(merge (10) {tree(left)} {tree(count - 1 - left)})" if count > 0 else "1"

    definitions = [f"y :: {first} = merge {second} {tree(120)} 1"]
    return [node(f"f{i}", "x :: (1)", "x", definitions) for i in range(int(4 * part))] + [node("top", "x :: (1)", "x", [])]


def instances():
    """A hundred calls of a node of eighty streams, each of whose words has a million bits in an instance: the net has too many."""
    first, second, names, calls = "(" + "1" * 1023 + "0)", word(1024), 80, int(100 * part)
    chain = [f"y1 :: {second} = 7"] + [f"y{i} :: {second} = y{i - 1}" for i in range(2, names + 1)]
    uses = [f"z0 :: {first} = x when {first}"] + [f"z{i} :: {first} = f at {first} (z{i - 1})" for i in range(1, calls + 1)]
    return [node("f", "x :: (1)", "x", chain), node("top", "x :: (1)", f"z{calls}", uses)]


def events():
    """Four million events, of four thousand actors in 512 instants."""
    names = int(4088 * part)
    slow = "(1" + "0" * 511 + ")"
    chain = ["y1 :: (1) = x"] + [f"y{i} :: (1) = y{i - 1}" for i in range(2, names + 1)]
    return [node("top", f"x :: (1), slow :: {slow}", f"y{names}", chain)]


def net():
    """A net of 268 million bits, with eleven thousand actors and twenty-eight thousand rings, or a half or a quarter of these bits."""
    word = "(1" + "0" * 4095 + ")"
    choices = lambda count: "if b then b else " * count + "b"
    nodes = [node("g0", f"b :: {word}", "z", [f"z :: {word} = {choices(99)}"])]
    for level in range(1, 7):
        halves = [f"y :: {word} = g{level - 1} at (1) (b)", f"z :: {word} = g{level - 1} at (1) (y)"]
        nodes.append(node(f"g{level}", f"b :: {word}", "z", halves))
    levels = {1: [6, 4, 3, 1, 0], 0.5: [5, 3, 2, 0], 0.25: [4, 2, 1]}[part]
    parts = [f"c{level} :: {word} = g{level} at (1) (b)" for level in levels]
    return nodes + [node("m", f"b :: {word}", "b", parts + [f"u :: {word} = {choices(84)}"])]


print("\n".join({"words": words, "calls": calls, "doubled": doubled, "merges": merges, "net": net, "events": events, "instances": instances}[sys.argv[1]]()))
