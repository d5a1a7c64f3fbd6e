#!/usr/bin/env python3
"""How long the solver takes on formulas of the shapes that rows have, and how much memory.

Usage: bench/solve.py PROGRAM [cases FILE]     (PROGRAM is crates/solve_cases as `rt run` builds it)

Prints a line for each formula: its variables and clauses, the answer, the processor seconds less those of a run that reads the same text and solves nothing, the
variables a second (each is propagated once where there is no conflict, and more often where there are), the formula's memory (the greatest of a run that
builds it, less that of one that reads the text alone), and the solver's memory (at most: what is left of the program's greatest without the text and the
formula). Where minisat or cadical is installed, a line each with the processor seconds less those of a run on the same clauses and two that contradict each
other, and the propagations that it counts, in all and a second. Both are told not to simplify before. Each figure of seconds is the least of five runs.
With `cases` it writes random small gate formulas to a file instead, a line for each, for two builds of PROGRAM to be
compared on. The formulas are the same at each run.
"""
import os
import random
import re
import shutil
import subprocess
import sys
import tempfile

RUNS = 5


class Gates:
    """A gate formula: the leaves are the variables from 1 on, then one variable for each gate."""

    def __init__(self, leaves):
        self.variables = leaves
        self.clauses = []

    def new(self):
        self.variables += 1
        return self.variables

    def both(self, a, b):
        g = self.new()
        self.clauses += [[-g, a], [-g, b], [g, -a, -b]]
        return g

    def differ(self, a, b):
        g = self.new()
        self.clauses += [[-g, a, b], [-g, -a, -b], [g, -a, b], [g, a, -b]]
        return g

    def choice(self, c, a, b):
        g = self.new()
        self.clauses += [[-g, -c, a], [g, -c, -a], [-g, c, b], [g, c, -b]]
        return g

    def constant(self, value):
        g = self.new()
        self.clauses.append([g if value else -g])
        return g


def places(inputs, before):
    """The leaves of the inputs and of a selector, which stands before them or behind."""
    bits = inputs.bit_length() - 1
    first, selector = (bits + 1, 1) if before else (1, inputs + 1)
    return bits, list(range(first, first + inputs)), list(range(selector, selector + bits))


def multiplexer(inputs, before=False):
    """One of the inputs, by a selector."""
    bits, row, selector = places(inputs, before)
    gates = Gates(inputs + bits)
    for bit in selector:
        row = [gates.choice(bit, row[2 * i + 1], row[2 * i]) for i in range(len(row) // 2)]
    return gates, row[0]


def chain(arms, before=True):
    """An `if` chain that compares a selector with each number in turn."""
    bits, inputs, selector = places(arms, before)
    gates = Gates(arms + bits)
    one = gates.constant(True)
    result = gates.constant(False)
    inverse = [gates.differ(bit, one) for bit in selector]
    for arm in reversed(range(arms)):
        test = one
        for bit in range(bits):
            test = gates.both(test, selector[bit] if arm >> bit & 1 else inverse[bit])
        result = gates.choice(test, inputs[arm], result)
    return gates, result


def conditions(arms, before=True):
    """An `if` chain whose conditions are bits of their own, which stand before the inputs or behind."""
    tests, inputs = (1, arms + 1) if before else (arms + 1, 1)
    gates = Gates(2 * arms)
    result = gates.constant(False)
    for arm in reversed(range(arms)):
        result = gates.choice(tests + arm, inputs + arm, result)
    return gates, result


def adder(gates, a, b):
    total, carry = [], None
    for x, y in zip(a, b):
        half = gates.differ(x, y)
        if carry is None:
            total.append(half)
            carry = gates.both(x, y)
        else:
            total.append(gates.differ(half, carry))
            carry = gates.choice(half, carry, x)
    return total + [carry]


def unequal_sums(leaves):
    """Whether a + b and b + a differ: no assignment of the leaves makes it so, and each has to be ruled out."""
    half = leaves // 2
    gates = Gates(leaves)
    a, b = list(range(1, half + 1)), list(range(half + 1, leaves + 1))
    result = None
    for x, y in zip(adder(gates, a, b), adder(gates, b, a)):
        bit = gates.differ(x, y)
        result = bit if result is None else gates.choice(result, result, bit)
    return gates, result


def random_gates(rng):
    gates = Gates(rng.randint(1, 7))
    nodes = list(range(1, gates.variables + 1))
    if rng.random() < 0.2:
        nodes.append(gates.constant(rng.random() < 0.5))
    for _ in range(rng.randint(1, 25)):
        a, b, c = (rng.choice(nodes) for _ in range(3))
        kind = rng.randint(0, 2)
        nodes.append(gates.both(a, b) if kind == 0 else gates.differ(a, b) if kind == 1 else gates.choice(a, b, c))
    return gates, nodes[-1]


def literals(gates, goal):
    return " ".join(" ".join(map(str, clause)) + " 0" for clause in gates.clauses + [[goal]])


def line(gates, goal, budget):
    return f"{budget} {gates.variables} {literals(gates, goal)}\n"


def run(program, text):
    """The first word of the answer, the processor seconds (the least of five runs) and the kilobytes."""
    runs = [run_once(program, text) for _ in range(RUNS)]
    return runs[0][0], min(seconds for _, seconds, _ in runs), runs[0][2]


def run_once(program, text):
    with tempfile.TemporaryFile("w+") as given, tempfile.TemporaryFile("w+") as taken, tempfile.TemporaryFile("w+") as told:
        given.write(text)
        given.seek(0)
        child = subprocess.Popen(["/usr/bin/time", "-f", "%M", program], stdin=given, stdout=taken, stderr=told)
        _, _, used = os.wait4(child.pid, 0)
        taken.seek(0)
        told.seek(0)
        return taken.read(100).split(" ")[0].strip(), used.ru_utime + used.ru_stime, int(told.read().split()[-1])


# What each solver is told, and where it says how often it propagated. A conflict in what it read ends it before it solves.
OTHERS = {
    "minisat": (["minisat", "-no-pre"], r"propagations\s*:\s*(\d+)"),
    "cadical": (["cadical", "-n", "--plain", "--lucky=false", "--phase=false", "--forcephase=true"], r"propagations:\s*(\d+)"),
}


def asked(words, clauses, variables):
    """What another solver prints, and its processor seconds, the least of five runs."""
    with tempfile.NamedTemporaryFile("w", suffix=".cnf") as cnf, tempfile.TemporaryFile("w+") as told:
        cnf.write(f"p cnf {variables} {len(clauses)}\n" + "".join(" ".join(map(str, c)) + " 0\n" for c in clauses))
        cnf.flush()
        least = float("inf")
        for _ in range(RUNS):
            told.seek(0)
            told.truncate()
            child = subprocess.Popen([*words, cnf.name], stdout=told, stderr=subprocess.DEVNULL)
            _, _, used = os.wait4(child.pid, 0)
            least = min(least, used.ru_utime + used.ru_stime)
        told.seek(0)
        return told.read(), least


def rate(count, seconds):
    return f"{count / seconds:,.0f} a second" if seconds > 0.002 else "too short to tell a rate"


def other(name, gates, goal):
    words, pattern = OTHERS[name]
    clauses = gates.clauses + [[goal]]
    said, whole = asked(words, clauses, gates.variables)
    _, reading = asked(words, clauses + [[1], [-1]], gates.variables)
    found = re.search(pattern, said)
    count = int(found.group(1)) if found else 0
    return f"    {name}: {whole - reading:.3f} s of {whole:.3f}, {count:,} propagations, {rate(count, whole - reading)}"


SHAPES = [
    (f"{name} of {inputs:,}, selector {'before' if before else 'behind'}", shape(inputs, before), 4 * inputs)
    for name, shape, sizes in (("multiplexer", multiplexer, (1024, 4096)), ("if chain", chain, (1024, 4096)), ("if chain by bits", conditions, (1024, 4096)), ("select", multiplexer, (8192,)))
    for inputs in sizes
    for before in (True, False)
] + [
    ("unequal sums of 12 leaves, budget 4,000", unequal_sums(12), 4000),
    ("unequal sums of 16 leaves, budget 4,000", unequal_sums(16), 4000),
]


def main():
    program = sys.argv[1]
    if sys.argv[2:3] == ["cases"]:
        rng = random.Random(7)
        with open(sys.argv[3], "w") as out:
            for _ in range(10000):
                out.write(line(*random_gates(rng), rng.choice([0, 1, 3, 1000])))
        return
    _, _, empty = run(program, "x\n")
    for name, (gates, goal), budget in SHAPES:
        text = line(gates, goal, budget)
        answer, seconds, whole = run(program, text)
        _, _, read = run(program, "-" + text)
        _, reading, built = run(program, f"{text.rstrip()} {gates.variables + 1} 0\n")
        formula = built - read
        solver = whole - formula - empty - len(text) // 1024
        print(
            f"{name}: {gates.variables} variables, {len(gates.clauses) + 1} clauses, {answer}, {seconds - reading:.3f} s, {rate(gates.variables, seconds - reading)}, "
            f"formula {formula} KB, solver at most {solver} KB, program {whole} KB"
        )
        for tool in OTHERS:
            if shutil.which(tool):
                print(other(tool, gates, goal))


if __name__ == "__main__":
    main()
