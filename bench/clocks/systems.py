# systems.py SCALE LEAD FOLDER: reads a program as texts.py prints them, without words that are written for streams, and writes for each
# node in turn the inequalities of its clocks with this scale and this lead to FOLDER/system0, FOLDER/system1 and so on, as the part
# `system` of programs/lucy_bench reads them: the number of variables, then lines `left right most`. It follows docs/language.md, and shares no
# code with lucy: so the solver is timed alone, on the systems that `clocks` solves. It stops before a node with more positions than are
# allowed. A node that is called has no definitions, so that its words are (1).
import re
import sys
from fractions import Fraction
from math import lcm

MOST_POSITIONS = 65536
ALWAYS = ("", "1")


def shortest(prefix, period):
    """The word with these bits that has the shortest period, and then the shortest prefix."""
    size = next(n for n in range(1, len(period) + 1) if len(period) % n == 0 and period == period[:n] * (len(period) // n))
    period = period[:size]
    while prefix and prefix[-1] == period[-1]:
        prefix, period = prefix[:-1], period[-1] + period[:-1]
    return prefix, period


class Parser:
    """Nodes as (params, definitions); expressions as names or tuples that begin with their form."""

    def __init__(self, text):
        self.tokens = re.findall(r"when\s+[01]*\([01]+\)|\w+|[(),+=]", text) + [""]
        self.at = 0

    def next(self):
        self.at += 1
        return self.tokens[self.at - 1]

    def take(self, token):
        if self.tokens[self.at] == token:
            self.at += 1
            return True
        return False

    def names(self):
        if not self.take("("):
            return [self.next()]
        names = [self.next()]
        while self.take(","):
            names.append(self.next())
        self.take(")")
        return names

    def nodes(self):
        nodes = {}
        while self.take("let"):
            self.take("node")
            name = self.next()
            params = self.names()
            self.take("=")
            self.names()
            definitions = []
            if self.take("where"):
                self.take("rec")
                definitions.append(self.definition())
                while self.take("and"):
                    definitions.append(self.definition())
            nodes[name] = (params, definitions)
        return nodes

    def definition(self):
        name = self.next()
        self.take("=")
        return name, self.sum()

    def sum(self):
        found = self.sampled()
        while self.take("+"):
            found = ("op", found, self.sampled())
        return found

    def sampled(self):
        found = self.buffered()
        while self.tokens[self.at].startswith("when"):
            found = ("when", found, shortest(*re.search(r"([01]*)\(([01]+)\)", self.next()).groups()))
        return found

    def buffered(self):
        return ("buffer", self.buffered()) if self.take("buffer") else self.atom()

    def atom(self):
        if self.take("("):
            found = self.sum()
            self.take(")")
            return found
        name = self.next()
        if name.isdigit():
            return ("literal",)
        if not self.take("("):
            return name
        args = [self.sum()]
        while self.take(","):
            args.append(self.sum())
        self.take(")")
        return ("call", name, *args)


def operands(expr):
    """The expressions below one."""
    return {"op": expr[1:], "when": expr[1:2], "buffer": expr[1:], "literal": (), "call": expr[2:]}[expr[0]]


def needs_of(nodes, node):
    """How many clocks a node has, and its needs: (whether it is an equation, clock, word, clock, word)."""
    params, definitions = node
    streams = {name: place for place, name in enumerate(params + [name for name, _ in definitions], 1)}
    exprs, rights = [], []

    def number(expr):
        if isinstance(expr, str):
            return streams[expr]
        exprs.append([expr, []])
        own = exprs[-1]
        place = len(streams) + len(exprs)
        own[1] = [number(operand) for operand in operands(expr)]
        return place

    for name, expr in definitions:
        rights.append((streams[name], number(expr)))
    needs = [(True, place, ALWAYS, right, ALWAYS) for place, right in rights]
    calls = len(streams) + len(exprs)
    for place, (expr, below) in enumerate(exprs, len(streams) + 1):
        if expr[0] == "op":
            needs += [(True, place, ALWAYS, operand, ALWAYS) for operand in below]
        if expr[0] == "when":
            needs.append((True, place, ALWAYS, below[0], expr[2]))
        if expr[0] == "buffer":
            needs.append((False, below[0], ALWAYS, place, ALWAYS))
        if expr[0] == "call":
            assert not nodes[expr[1]][1], "a node with definitions is called"
            calls += 1
            needs += [(True, operand, ALWAYS, calls, ALWAYS) for operand in below + [place]]
    return calls + 1, needs


def components(clocks, needs):
    """The rate of each clock by the least one of its component, which is named beside it."""
    joined = [[] for _ in range(clocks)]
    for _, c, u, d, v in needs:
        ratio = Fraction(u[1].count("1"), len(u[1])) / Fraction(v[1].count("1"), len(v[1]))
        joined[c].append((d, ratio))
        joined[d].append((c, 1 / ratio))
    rates, roots = [None] * clocks, list(range(clocks))
    for root in range(clocks):
        if rates[root] is not None:
            continue
        rates[root] = Fraction(1)
        reached = [root]
        for clock in reached:
            for other, ratio in joined[clock]:
                if rates[other] is None:
                    rates[other], roots[other] = rates[clock] * ratio, root
                    reached.append(other)
                assert rates[other] == rates[clock] * ratio, "a need isn't balanced"
    return rates, roots


def shape_of(clocks, needs, scale, lead):
    """The period and for each clock (lead, ones, first variable), None for a base that no need names."""
    rates, roots = components(clocks, needs)
    factors, prefixes, used = [1] * clocks, [0] * clocks, {0: False}
    for _, c, u, d, v in needs:
        for clock, (prefix, period) in ((c, u), (d, v)):
            factors[roots[clock]] = lcm(factors[roots[clock]], (rates[clock] / len(period)).denominator)
            prefixes[clock] = max(prefixes[clock], len(prefix))
            used[clock] = True
    vector = [int(rates[c] * factors[roots[c]]) for c in range(clocks)]
    tops = [0] * clocks
    for c in range(clocks):
        if c == 0 or roots[c] != 0:
            tops[roots[c]] = max(tops[roots[c]], vector[c])
    counted = [c for c in range(clocks) if c != 0 or used[0]]
    period = scale * lcm(*(tops[roots[c]] for c in counted))
    shape, first = [None] * clocks, 1
    for c in counted:
        ones = vector[c] * period // tops[roots[c]]
        shape[c] = (lead * ones + prefixes[c], ones, first)
        first += lead * ones + prefixes[c] + ones
    return period, shape, first


def ones_to(word, instant):
    prefix, period = word
    past = max(instant - len(prefix), 0)
    return prefix[:instant].count("1") + past // len(period) * period.count("1") + period[: past % len(period)].count("1")


def positions(word, count):
    """The instants of the first so many ones."""
    prefix, period = word
    found = [i for i, bit in enumerate(prefix + period, 1) if bit == "1"]
    ones = period.count("1")
    while len(found) < count:
        found.append(found[-ones] + len(period))
    return found[:count]


def places(clock, period, found):
    """The variables of positions, folded, and how many instants later they stand."""
    lead, ones, first = clock
    turns = [max(position - lead - 1, 0) // ones for position in found]
    return [(first + position - turn * ones - 1, turn * period) for position, turn in zip(found, turns)]


def rows_of(needs, period, shape):
    for c, clock in enumerate(shape):
        if clock is None:
            continue
        lead, ones, first = clock
        for place in range(lead + ones):
            yield (0, first + place, -1 if c else -(place + 1))
            if c == 0:
                yield (first + place, 0, place + 1)
        for place in range(lead + ones - 1):
            yield (first + place, first + place + 1, -1)
        yield (first + lead + ones - 1, first + lead, period - 1)
    for is_equation, c, u, d, v in needs:
        before = max(ones_to(w, max(shape[k][0], len(w[0]))) for k, w in ((c, u), (d, v)))
        count = before + shape[c][1] * u[1].count("1") // len(u[1])
        for (x, early), (y, late) in zip(places(shape[c], period, positions(u, count)), places(shape[d], period, positions(v, count))):
            yield (x, y, late - early)
            if is_equation:
                yield (y, x, early - late)


def main():
    scale, lead, folder = int(sys.argv[1]), int(sys.argv[2]), sys.argv[3]
    nodes = Parser(sys.stdin.read()).nodes()
    for number, node in enumerate(nodes.values()):
        clocks, needs = needs_of(nodes, node)
        period, shape, count = shape_of(clocks, needs, scale, lead)
        if count - 1 > MOST_POSITIONS:
            break
        with open(f"{folder}/system{number}", "w") as system:
            print(count, file=system)
            system.writelines(f"{x} {y} {most}\n" for x, y, most in rows_of(needs, period, shape))


main()
