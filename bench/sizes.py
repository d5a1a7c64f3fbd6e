#!/usr/bin/env python3
"""Lengths and signs of random expressions, beside those that Icarus Verilog takes.

Usage: bench/sizes.py PROGRAM [COUNT] [SEED]      (the built program size_cases; iverilog and vvp have to be installed)

Prints how many expressions were compared and each that differs; the exit status is 1 where one does. An expression's sign is seen
by whether a negative constant joined to it compares as less than 0.
"""
import random
import re
import subprocess
import sys
import tempfile

NAMES = ["a", "b", "v", "w", "s", "n", "i", "r", "P"]
NUMBERS = ["32'sd12", "4'd3", "8'shF"]
UNARY = ["-", "~", "+", "!", "&", "|", "^", "~&", "~|", "~^"]
BINARY = ["+", "-", "*", "&", "|", "^", "~^", "<", "<=", "==", "!=", "&&", "||", "<<", ">>", "<<<", ">>>"]
HEAD = """module t;
reg a, b; reg [7:0] v; reg [15:0] w; reg [0:7] r; reg signed [7:0] s; reg signed [3:0] n; reg signed [31:0] i;
localparam [3:0] P = 3;
initial begin
a = 0; b = 0; v = 0; w = 0; r = 0; s = 0; n = 0; i = 0;
"""


def part(depth):
    """An expression in brackets, and its counts and bounds in source order."""
    text, counts = expression(depth)
    return f"({text})", counts


def expression(depth):
    if depth == 0 or random.random() < 0.15:
        return random.choice(NAMES + NUMBERS), []
    kind = random.randrange(8)
    if kind < 2:
        (left, first), (right, second) = part(depth - 1), part(depth - 1)
        return f"{left} {random.choice(BINARY)} {right}", first + second
    if kind == 2:
        text, counts = part(depth - 1)
        return f"{random.choice(UNARY)} {text}", counts
    if kind == 3:
        (test, first), (yes, second), (no, third) = part(depth - 1), part(depth - 1), part(depth - 1)
        return f"{test} ? {yes} : {no}", first + second + third
    if kind == 4:
        parts = [expression(depth - 1) for _ in range(random.randint(1, 3))]
        return "{" + ", ".join(text for text, _ in parts) + "}", [c for _, counts in parts for c in counts]
    if kind == 5:
        text, counts = expression(depth - 1)
        times = random.randint(1, 4)
        return "{%d{%s}}" % (times, text), [times] + counts
    if kind == 6:
        text, counts = expression(depth - 1)
        return f"v[{text}]", counts
    if random.random() < 0.5:
        low = random.randint(0, 7)
        high = random.randint(low, 7)
        return f"w[{high}:{low}]", [high, low]
    text, counts = expression(depth - 1)
    return f"{random.choice(['$signed', '$unsigned'])}({text})", counts


def ours(program, rows):
    """The length and the sign of each expression, or none where it is refused."""
    lines = "".join(f"0; {' '.join(map(str, counts))}; {text}\n" for text, counts in rows)
    out = subprocess.run([program], input=lines, capture_output=True, text=True, check=True).stdout
    found = [re.match(r"(\d+)([us])", line) for line in out.split("\n")]
    return [(int(f[1]), f[2] == "s") if f else None for f in found[: len(rows)]]


def theirs(rows):
    source = HEAD
    for text, _ in rows:
        source += f'$display("%0d %0d", $bits({text}), ((({text}) & 4\'sb0) - 2\'sb01) < 2\'sb0);\n'
    with tempfile.TemporaryDirectory() as folder:
        with open(f"{folder}/t.v", "w") as file:
            file.write(source + "end\nendmodule\n")
        subprocess.run(["iverilog", "-g2012", "-o", f"{folder}/t", f"{folder}/t.v"], check=True)
        out = subprocess.run(["vvp", f"{folder}/t"], capture_output=True, text=True, check=True).stdout
    answers = [line.split() for line in out.split("\n") if re.fullmatch(r"\d+ [01]", line)]
    return [(int(length), sign == "1") for length, sign in answers]


def main(words):
    count = int(words[1]) if len(words) > 1 else 500
    random.seed(int(words[2]) if len(words) > 2 else 1)
    rows = [expression(4) for _ in range(count)]
    sizes = ours(words[0], rows)
    kept = [(row, size) for row, size in zip(rows, sizes) if size]
    wrong = [(row[0], size, other) for (row, size), other in zip(kept, theirs([row for row, _ in kept])) if size != other]
    for text, size, other in wrong:
        print(f"differs: {text}: {size}, and {other} there")
    print(f"{len(kept)} compared, {len(wrong)} differ, {count - len(kept)} refused here")
    return 1 if wrong else 0


if __name__ == "__main__":
    sys.exit(main(sys.argv[1:]) if len(sys.argv) > 1 else __doc__)
