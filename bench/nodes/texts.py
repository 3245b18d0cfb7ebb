# texts.py WHAT PART: prints a program whose nodes main doesn't call, near limits of `clocks` and `check`, or near half or a quarter of them
# (PART is 1, 0.5 or 0.25).
import sys

MAIN = "let node main (x :: (1)) = x"


def node(name, params, result, definitions):
    return f"let node {name} ({', '.join(params)}) = {result}" + (" where rec " + " and ".join(definitions) if definitions else "")


def wide(word):
    """A node with 64 parameters on a word."""
    return node("g", [f"a{i} :: {word}" if word else f"a{i}" for i in range(64)], "a0", [])


def calls(name, count):
    return [f"z{i} = g ({', '.join([name] * 64)})" for i in range(count)]


def arguments(part):
    """Nodes with as many inequalities as half of what is allowed, by one call with 64 arguments on the same clock."""
    return [wide("(1)")] + [node(f"n{k}", ["y"], "y", calls("y", 1)) for k in range(int(250 * part))] + [MAIN]


def turns(part):
    """Nodes with two clocks of which each is late in turn, and a faster one, with five calls of 64 arguments behind them."""
    definitions = ["y = (x1 when (1101)) + (x2 when (1110))", "w = (f when (10)) + buffer x1"] + calls("y", 5)
    return [wide("")] + [node(f"n{k}", ["x1", "x2", "f"], "y", definitions) for k in range(int(250 * part))] + [MAIN]


def late(part):
    """84 calls with 64 arguments on a clock that is late by a thousand turns of a thousand instants."""
    definitions = ["y = x when 0{1000}(1)"] + calls("y", int(84 * part))
    return [wide("(10)"), node("n", ["x :: (10{999})"], "y", definitions), MAIN]


def merges(part):
    """One written node with 15 times 120 merges, whose words have 1,048,576 bits each: 14 times the limit of bits."""

    def tree(count):
        left = (count - 1) // 2
        return f"(merge (10) {tree(left)} {tree(count - 1 - left)})" if count > 0 else "1"

    definitions = [f"y{i} :: (1{{1023}}0) = merge (1{{512}}0{{512}}) {tree(120)} 1" for i in range(int(15 * part))]
    return [node("n", ["x :: (1)"], "x", definitions), MAIN]


print("\n".join({"arguments": arguments, "turns": turns, "late": late, "merges": merges}[sys.argv[1]](float(sys.argv[2]))))
