"""The program that `lucy make N` makes: `make.py N`."""
import sys

stages = int(sys.argv[1])


def stage(i, b):
    if i % 4 == 1:
        return f"{b} + {i}"
    if i % 4 == 2:
        return f"{b} + (0 fby {b})"
    if i % 4 == 3:
        return f"merge (01) (buffer ({b} when (10))) (buffer ({b} when (01)))"
    return f"if {b} < {100 * i} then {b} else {b} - {i}"


definitions = (f"y{i} = {stage(i, 'x' if i == 1 else f'y{i - 1}')}" for i in range(1, stages + 1))
print(f"let node made x = y{stages} where rec " + "\n  and ".join(definitions))
