#!/usr/bin/env python3
"""Values of random constant expressions, beside those of Icarus Verilog.

Usage: bench/constants.py PROGRAM [COUNT] [SEED]      (the built program const_cases; iverilog and vvp have to be installed)

Prints how many expressions were compared, how many were left out because one of the two refuses them, and each that differs; the exit status is 1
where one does. The names are those of the program; an expression's sign is seen by whether it makes `-1` compare as less than 0.

The two differ by design where arithmetic is wider than 128 bits, a divisor is 0 or an exponent below 0, which are refused here; where `$clog2`
takes a number below 0, which is read as unsigned here (IEEE 1364-2005, 17.11.1), so its operand is made unsigned; and in the sign of a choice by a
constant test, which Icarus takes from the branch that is chosen and this tool from both (5.5.1), so the signs of expressions with one are not compared.
"""
import random
import re
import subprocess
import sys
import tempfile

NAMES = ["P", "S", "R", "W"]
UNARY = ["-", "~", "+", "!", "&", "|", "^", "~&", "~|", "~^"]
BINARY = ["+", "-", "*", "/", "%", "**", "&", "|", "^", "~^", "<", "<=", ">", ">=", "==", "!=", "&&", "||", "<<", ">>", "<<<", ">>>"]
HEAD = """module t;
localparam [7:0] P = 8'ha5; localparam signed [7:0] S = 8'sha5; localparam [0:7] R = 8'ha5; localparam signed [31:0] W = 4;
"""


def number():
    kind = random.randrange(4)
    if kind == 0:
        return str(random.choice([0, 1, 2, 3, 7, 12, 200, 2147483647]))
    length = random.choice([1, 3, 4, 8, 12, 16, 31, 32, 33, 63, 64, 65, 100, 127, 128])
    value = random.choice([0, 1, 2, (1 << length) - 1, 1 << (length - 1), random.getrandbits(length)]) % (1 << length)
    sign = random.choice(["", "s"])
    base = random.choice("bdho")
    digits = {"b": f"{value:b}", "d": str(value), "h": f"{value:x}", "o": f"{value:o}"}[base]
    return f"{length}'{sign}{base}{digits}"


def expression(depth):
    """An expression whose operands stand in brackets."""
    if depth == 0 or random.random() < 0.15:
        return random.choice(NAMES) if random.random() < 0.4 else number()
    kind = random.randrange(11)
    if kind < 5:
        op = random.choice(BINARY)
        right = str(random.randint(0, 9)) if op == "**" else f"({expression(depth - 1)})"
        return f"({expression(depth - 1)}) {op} {right}"
    if kind == 5:
        return f"{random.choice(UNARY)} ({expression(depth - 1)})"
    if kind == 6:
        return f"({expression(depth - 1)}) ? ({expression(depth - 1)}) : ({expression(depth - 1)})"
    if kind == 7:
        return "{" + ", ".join(sized(depth - 1) for _ in range(random.randint(1, 3))) + "}"
    if kind == 8:
        return "{%d{%s}}" % (random.randint(1, 4), sized(depth - 1))
    if kind == 9:
        text = expression(depth - 1)
        return random.choice([f"$signed({text})", f"$unsigned({text})", f"$clog2($unsigned({text}))"])
    name = random.choice("PR")
    first = random.randint(0, 7)
    last = random.randint(first, 7)
    return f"{name}[{last}:{first}]" if name == "P" else f"{name}[{first}:{last}]"


def sized(depth):
    """An operand of a concatenation, which may not be a number without a size."""
    text = expression(depth)
    return "P" if re.fullmatch(r"\d+", text) else text


def theirs(expressions):
    """The bits and the sign of each as Icarus has them, None where it refuses one or has unknown bits."""
    lines = [HEAD]
    for at, text in enumerate(expressions):
        lines.append(f"localparam X{at} = {text};\n")
    lines.append("initial begin\n")
    for at in range(len(expressions)):
        lines.append(f'$display("{at} %b %b", X{at}, (X{at} & ~X{at}) - 1 < 0);\n')
    lines.append("end\nendmodule\n")
    with tempfile.TemporaryDirectory() as folder:
        source, program = f"{folder}/t.v", f"{folder}/t"
        with open(source, "w") as file:
            file.writelines(lines)
        made = subprocess.run(["iverilog", "-g2005", "-gstrict-expr-width", "-o", program, source], capture_output=True, text=True)
        if made.returncode != 0:
            return None
        out = subprocess.run(["vvp", "-n", program], capture_output=True, text=True).stdout
    found = {}
    for line in out.splitlines():
        at, bits, sign = line.split()
        found[int(at)] = (bits + ("s" if sign == "1" else "")) if set(bits) <= {"0", "1"} else None
    return [found.get(at) for at in range(len(expressions))]


def main():
    program = sys.argv[1]
    count = int(sys.argv[2]) if len(sys.argv) > 2 else 1000
    random.seed(int(sys.argv[3]) if len(sys.argv) > 3 else 1)
    expressions = [expression(random.randint(1, 4)) for _ in range(count)]
    text = "".join(e + "\n" for e in expressions)
    ours = subprocess.run([program], input=text, capture_output=True, text=True).stdout.splitlines()
    if len(ours) != count:
        sys.exit(f"{program} gave {len(ours)} answers to {count} expressions")
    compared = left_out = differ = 0
    for start in range(0, count, 50):
        part = expressions[start:start + 50]
        answers = theirs(part)
        if answers is None:
            answers = [(theirs([e]) or [None])[0] for e in part]
        for text, our, their in zip(part, ours[start:start + 50], answers):
            if their is None or not re.fullmatch(r"[01]+s?", our):
                left_out += 1
                continue
            compared += 1
            if "?" in text:
                our, their = our.rstrip("s"), their.rstrip("s")
            if our != their:
                differ += 1
                print(f"{text}\n  here {our}\n  there {their}")
    print(f"compared {compared}, left out {left_out}, differ {differ}")
    sys.exit(1 if differ else 0)


main()
