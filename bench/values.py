#!/usr/bin/env python3
"""Cases of expressions and statements for the program run_cases, with the answers that Icarus Verilog gives.

Usage: bench/values.py CASES ANSWERS      (the two files to write; their lines stand in crates/run_cases/stdin and stdout behind 24 that were worked
by hand; iverilog and vvp have to be installed)

Each case becomes a Verilog module in which every operand is a variable of its own length and sign, so that nothing is extended by its context.
A place outside a vector is x in Verilog and 0 here: vectors are read with zeros on both sides of them. Selects and writes at places are
written twice, as Verilog's own and bit by bit, and both have to agree. The same files come out at each run. Prints how many rows there are.
"""
import itertools
import random
import re
import subprocess
import sys
import tempfile
from collections import namedtuple

LENGTHS = [1, 8, 64, 65, 128]
ARITHMETIC = ["+", "-", "*"]
BITWISE = ["&", "|", "^", "~^"]
ORDER = ["<", "<=", ">", ">="]
EQUALITY = ["==", "!="]
LOGIC = ["&&", "||"]
SHIFTS = ["<<", ">>", ">>>"]
REDUCTIONS = ["!", "&", "~&", "|", "~|", "^", "~^"]
FAR = 1 << 20
CALLED = """function [7:0] called; input [7:0] x; reg [7:0] y; begin
called = 8'h00; y = x ^ 8'h0f; if (x[0]) called = y + 1; else called[3:0] = y[7:4];
end endfunction
"""

# Worked by hand from IEEE 1364-2005.
BY_HAND = [
    # A blocking assignment is done before the next statement (9.2.1): signal 1 takes the new value of signal 0. Nothing is stored for later.
    ("8:a5 8:3 ; s1 b.0 s0 b.1 block2", "3 3 / a5 3"),
    # Nonblocking assignments read before any of them is done (9.2.2): the two values are swapped.
    ("8:a5 8:3 ; s1 n.0 s0 n.1 block2", "a5 3 / 3 a5"),
    # Of two nonblocking assignments the later one counts (9.2.2): 0101, and then 01 in bits 2 and 1 makes 0011.
    ("4:0 ; u4:5 n.0 u2:1 n.0.1.2 block2", "0 / 3"),
    # Signed, -128 < 1, so the first `if` takes its first statement; where one operand is unsigned, 128 < 1 fails (5.1.7, 5.5.1).
    ("8:80 8:1 4:0 4:0 ; u4:1 b.2 u4:2 b.2 t0 t1 < if u4:1 b.3 u4:2 b.3 t0 s1 < if block2", "80 1 1 2 / 80 1 0 0"),
    # The first item that matches is taken (9.5): 1010 matches 1??? before 10??.
    ("4:a 4:0 ; u4:8 item7 u4:1 b.1 arm u4:8 item3 u4:2 b.1 arm s0 case", "a 1 / a 0"),
    # No item matches 3, so the default is run (9.5).
    ("2:3 4:0 ; u4:9 b.1 u2:0 item u2:1 item u4:1 b.1 arm s0 case.d", "3 9 / 3 0"),
    # The signed index 1110 is -2: places -2 to 1 are named, those below 0 have no effect (5.2.1), and the high half of 1100 goes to places 1 and 0.
    ("8:0 4:e ; u4:c t1 n@0.0.4", "0 e / 3 e"),
    # The first part of a concatenation is the highest (5.1.14): a goes to signal 0, bc to signal 1.
    ("4:0 8:0 ; u12:abc b0+1", "a bc / 0 0"),
    # Two turns, each counting and storing what was counted (9.6): 2 and then 3, and the later one counts.
    ("8:1 8:0 ; s0 u8:1 + b.0 s0 n.1 block2 s0 u8:1 + b.0 s0 n.1 block2 turns2", "3 0 / 1 3"),
    # 24 is even: 24 ^ 0f = 2b, whose high half 2 is the low half of the result. 25 is odd: 25 ^ 0f = 2a, and 1 more is 2b (10.4).
    ("8:24 8:25 8:0*2 ; s0 call b.2 s1 call b.3 block2", "24 25 2 2b / 24 25 0 0"),
    # The lowest 8 bits of 724 are passed (10.4.3): 24, as above.
    ("12:724 ; s0 call", "8:2"),
    # Read as signed, 80 is -128 (5.5): less than 1, and the arithmetic shift fills with ones.
    ("8:80 8:1 ; s0 signed t1 <", "1:1"),
    ("8:80 ; s0 signed u2:3 >>>", "8:f0"),
    # In a vector [0:7], whose index counts down from place 7, index 2 is place 5 (5.2.1).
    ("8:0 3:2 ; u1:1 s1 b-0.7.1", "20 2 / 0 2"),
    # Of ab the digit a goes to the high half of signal 0 and b to the low half of signal 1 (9.2.1, 5.1.14).
    ("8:0 8:0 ; u8:ab l.0.4.4 l.1.0.4 lpair b=", "a0 b / 0 0"),
]

# An expression: `verilog` gives its name in a module, and adds there what computes it. A statement's `verilog` adds its lines.
Expression = namedtuple("Expression", "length signed words verilog")
Statement = namedtuple("Statement", "words verilog")


class Module:
    """The Verilog of a case. In a nested one operators stand in each other without variables; a bitwise one reads and writes places one by one."""

    def __init__(self, nested, bitwise):
        self.nested, self.bitwise = nested, bitwise
        self.heads, self.lines = [], []

    def declared(self, bounds, signed=False):
        name = f"t{len(self.heads)}"
        self.heads.append(f"reg {'signed ' if signed else ''}{bounds} {name};")
        return name

    def hold(self, length, signed, text):
        name = self.declared(f"[{length - 1}:0]", signed)
        self.lines.append(f"{name} = {text};")
        return name

    def operator(self, length, signed, text):
        return f"({text})" if self.nested else self.hold(length, signed, text)

    def place(self, text, offset, down):
        """The lowest place, where the index has this name."""
        name = self.hold(200, True, text)
        number = f"{'-' if offset < 0 else ''}200'sd{abs(offset)}"
        self.lines.append(f"{name} = {number} - {name};" if down else f"{name} = {name} - {number};")
        return name

    def each(self, most, low, length, text):
        """A line for each place from one on that a vector has."""
        self.lines.append(f"for (i = 0; i < {length}; i = i + 1) if ({low} + i >= 0 && {low} + i < {most}) begin q = {low} + i; {text}; end")

    def bits(self, base, most, low, length):
        """The bits from a place on, 0 outside, read one by one."""
        name = self.hold(length, False, f"{length}'h0")
        self.each(most, low, length, f"{name}[i] = {base}[q]")
        return name

    def padded(self, base, high, low, bounds):
        """A variable with a value and zeros above and below it."""
        name = self.declared(bounds)
        parts = ([f"{high}'h0"] if high else []) + [base] + ([f"{low}'h0"] if low else [])
        self.lines.append(f"{name} = {{{', '.join(parts)}}};")
        return name

    def write(self, target, most, low, length, value, arrow):
        """Writes to the places from one on, of which those outside have no effect."""
        if self.bitwise:
            self.each(most, low, length, f"{target}[q] {arrow} {value}[i]")
        else:
            self.lines.append(f"if ({low} > -{FAR} && {low} < {FAR}) begin q = {low}; {target}[q +: {length}] {arrow} {value}; end")


def shown(number, kind, names):
    return f'$display("{number} {kind}{" %h" * len(names)}", {", ".join(names)});'


class Case:
    """The signals of a case, and what is made of them."""

    def __init__(self, nested=False):
        self.signals, self.result, self.nested = [], None, nested

    def add(self, length, value):
        self.signals.append((length, value))
        return len(self.signals) - 1

    def signal(self, number, signed=False):
        length = self.signals[number][0]
        return Expression(length, signed, [f"{'t' if signed else 's'}{number}"], lambda m: m.hold(length, signed, f"now_{number}"))

    def operand(self, length, value, signed=False):
        return self.signal(self.add(length, value), signed)

    def line(self):
        head = []
        for (length, value), group in itertools.groupby(self.signals or [(1, 0)]):
            count = len(list(group))
            head += [f"{length}:{value:x}*{count}"] if count > 2 else [f"{length}:{value:x}"] * count
        return " ".join(head + [";"] + self.result.words)

    def module(self, number, bitwise):
        m = Module(self.nested, bitwise)
        signals = list(enumerate(self.signals))
        start = "".join(f"now_{k} = {n}'h{v:x}; next_{k} = now_{k};\n" for k, (n, v) in signals)
        later = ""
        if isinstance(self.result, Expression):
            value = self.result.verilog(m)
            m.lines.append(shown(number, "now", [m.hold(self.result.length, False, value)]))
        else:
            self.result.verilog(m)
            m.lines.append(shown(number, "now", [f"now_{k}" for k, _ in signals[:8]]))
            later = "initial #1 " + shown(number, "next", [f"next_{k}" for k, _ in signals[:8]]) + "\n"
        heads = [f"reg [{n - 1}:0] now_{k}, next_{k};" for k, (n, _) in signals] + ["integer i, q;"] + m.heads
        return "\n".join([f"module case_{number};"] + heads + [CALLED + "initial begin", start] + m.lines + ["end", later + "endmodule", ""])


def constant(length, value, signed=False):
    return Expression(length, signed, [f"{'i' if signed else 'u'}{length}:{value:x}"], lambda m: f"{length}'{'s' if signed else ''}h{value:x}")


def unary(op, a):
    same = op in ("-", "~")
    length, signed = (a.length, a.signed) if same else (1, False)
    return Expression(length, signed, a.words + [op + "a"], lambda m: m.operator(length, signed, f"{op}{a.verilog(m)}"))


def binary(op, a, b):
    length = a.length if op in ARITHMETIC + BITWISE + SHIFTS else 1
    signed = a.signed if op in SHIFTS else op in ARITHMETIC + BITWISE and a.signed and b.signed
    return Expression(length, signed, a.words + b.words + [op], lambda m: m.operator(length, signed, f"{a.verilog(m)} {op} {b.verilog(m)}"))


def mux(c, a, b):
    signed = a.signed and b.signed
    words = c.words + a.words + b.words + ["?"]
    return Expression(a.length, signed, words, lambda m: m.operator(a.length, signed, f"{c.verilog(m)} ? {a.verilog(m)} : {b.verilog(m)}"))


def extended(a, length, by_sign):
    def verilog(m):
        name = m.hold(a.length, by_sign, a.verilog(m))
        return m.hold(length, a.signed, name)

    return Expression(length, a.signed, a.words + [f"{'X' if by_sign else 'x'}{length}"], verilog)


def select(a, low, length):
    def verilog(m):
        name = m.hold(a.length, False, a.verilog(m))
        if m.bitwise or abs(low) > FAR:
            return m.bits(name, a.length, m.place("200'sd0", -low, False), length)
        above, below = max(0, low + length - a.length), max(0, -low)
        wide = m.padded(name, above, below, f"[{a.length - 1 + above}:{-below}]")
        return m.operator(length, False, f"{wide}[{low + length - 1}:{low}]")

    return Expression(length, False, a.words + [f"sel{low}:{length}"], verilog)


def select_at(a, index, offset, down, length):
    """Verilog's own select, of a vector whose bounds make `offset` the index of the lowest bit."""
    def verilog(m):
        name, at = m.hold(a.length, False, a.verilog(m)), m.hold(index.length, index.signed, index.verilog(m))
        low, pad = m.place(at, offset, down), length + 1
        if m.bitwise or abs(offset) > FAR:
            return m.bits(name, a.length, low, length)
        top = offset - a.length + 1 - pad if down else offset + a.length - 1 + pad
        wide = m.padded(name, pad, pad, f"[{top}:{offset + pad if down else offset - pad}]")
        result = m.hold(length, False, f"{length}'h0")
        taken = f"{wide}[q {'-' if down else '+'}: {length}]"
        m.lines.append(f"if ({low} >= -{pad} && {low} <= {a.length}) begin q = {at}; {result} = {taken}; end")
        return f"({taken})" if m.nested else result

    return Expression(length, False, a.words + index.words + [f"at{'-' if down else '+'}{offset}:{length}"], verilog)


def concatenation(parts):
    words = [w for p in parts for w in p.words] + ["{%d" % len(parts)]
    length = sum(p.length for p in parts)
    return Expression(length, False, words, lambda m: m.operator(length, False, "{" + ", ".join(p.verilog(m) for p in parts) + "}"))


def repeated(count, a):
    length = count * a.length
    return Expression(length, False, a.words + [f"r{count}"], lambda m: m.operator(length, False, "{%d{%s}}" % (count, a.verilog(m))))


def with_sign(a, signed):
    """The same bits, read with or without sign."""
    word = "signed" if signed else "unsigned"
    return Expression(a.length, signed, a.words + [word], lambda m: m.operator(a.length, signed, f"${word}({a.verilog(m)})"))


def call(a):
    return Expression(8, False, a.words + ["call"], lambda m: m.operator(8, False, f"called({a.verilog(m)})"))


def kind_of(blocking):
    return ("b", "now", "=") if blocking else ("n", "next", "<=")


def write(blocking, number, value):
    letter, base, arrow = kind_of(blocking)
    return Statement(value.words + [f"{letter}.{number}"], lambda m: m.lines.append(f"{base}_{number} {arrow} {value.verilog(m)};"))


def write_two(blocking, high, low, value):
    letter, base, arrow = kind_of(blocking)
    left = f"{{{base}_{high}, {base}_{low}}}"
    return Statement(value.words + [f"{letter}{high}+{low}"], lambda m: m.lines.append(f"{left} {arrow} {value.verilog(m)};"))


def write_part(case, blocking, number, low, length, value):
    letter, base, arrow = kind_of(blocking)
    most = case.signals[number][0]

    def verilog(m):
        name = m.hold(value.length, False, value.verilog(m))
        if not m.bitwise and low >= 0 and low + length <= most:
            m.lines.append(f"{base}_{number}[{low + length - 1}:{low}] {arrow} {name};")
        else:
            m.write(f"{base}_{number}", most, m.place("200'sd0", -low, False), length, name, arrow)

    return Statement(value.words + [f"{letter}.{number}.{low}.{length}"], verilog)


def write_at(case, blocking, number, offset, length, value, index, down=False):
    letter, base, arrow = kind_of(blocking)

    def verilog(m):
        name, at = m.hold(value.length, False, value.verilog(m)), m.hold(index.length, index.signed, index.verilog(m))
        m.write(f"{base}_{number}", case.signals[number][0], m.place(at, offset, down), length, name, arrow)

    return Statement(value.words + index.words + [f"{letter}{'-' if down else '@'}{number}.{offset}.{length}"], verilog)


# A part of a concatenation on the left: the bits of a signal from a place on, where `index` is none, and else from a place that it gives.
LeftPart = namedtuple("LeftPart", "number low length index down")


def write_parts(case, blocking, parts, value):
    """Parts of signals side by side on the left, the first the highest: Verilog's own concatenation, and part by part."""
    letter, base, arrow = kind_of(blocking)
    words = list(value.words)
    for at, part in enumerate(parts):
        whole = part.index is None and (part.low, part.length) == (0, case.signals[part.number][0])
        place = f"{part.number}" if whole else f"{part.number}.{part.low}.{part.length}"
        words += [f"l.{place}"] if part.index is None else part.index.words + [f"l{'-' if part.down else '@'}{place}"]
        words += ["lpair"] if at else []

    def verilog(m):
        length = sum(part.length for part in parts)
        name = m.hold(length, False, value.verilog(m))
        places = []
        for part in parts:
            at = "200'sd0" if part.index is None else m.hold(part.index.length, part.index.signed, part.index.verilog(m))
            places.append(m.place(at, -part.low if part.index is None else part.low, part.down))
        if not m.bitwise and all(part.index is None for part in parts):
            texts = [f"{base}_{part.number}[{part.low + part.length - 1}:{part.low}]" for part in parts]
            m.lines.append(f"{{{', '.join(texts)}}} {arrow} {name};")
            return
        rest = length
        for part, low in zip(parts, places):
            rest -= part.length
            bits = m.hold(part.length, False, f"{name}[{rest + part.length - 1}:{rest}]")
            m.write(f"{base}_{part.number}", case.signals[part.number][0], low, part.length, bits, arrow)

    return Statement(words + [f"{letter}="], verilog)


SKIP = Statement(["skip"], lambda m: None)


def sequence(parts, word="block"):
    def verilog(m):
        for part in parts:
            part.verilog(m)

    return Statement([w for p in parts for w in p.words] + [f"{word}{len(parts)}"], verilog)


def turns(parts, loop):
    """The turns of a loop, which `loop` writes as one in Verilog."""
    return Statement(sequence(parts, "turns").words, lambda m: m.lines.append(loop))


def choice(test, yes, no):
    def verilog(m):
        m.lines.append(f"if ({test.verilog(m)}) begin")
        yes.verilog(m)
        m.lines.append("end else begin")
        no.verilog(m)
        m.lines.append("end")

    return Statement(yes.words + no.words + test.words + ["if"], verilog)


def item_text(length, value, free):
    return f"{length}'b" + "".join("?" if free >> k & 1 else str(value >> k & 1) for k in reversed(range(length)))


def case_of(selector, arms, rest=None):
    """Arms are items, each an expression or the value and the free bits of one, and a statement. Bodies come first in the words, the last one first:
    a case in a body takes all arms that are made."""
    words = [w for body in ([rest] if rest else []) + [body for _, body in reversed(arms)] for w in body.words]
    for items, _ in arms:
        for item in items:
            words += item.words + ["item"] if isinstance(item, Expression) else [f"u{selector.length}:{item[0]:x}", f"item{item[1]:x}"]
        words.append("arm")

    def verilog(m):
        texts = [[i.verilog(m) if isinstance(i, Expression) else item_text(selector.length, *i) for i in items] for items, _ in arms]
        free = any(not isinstance(i, Expression) for items, _ in arms for i in items)
        m.lines.append(f"case{'z' if free else ''} ({selector.verilog(m)})")
        for items, body in list(zip(texts, [body for _, body in arms])) + ([(["default"], rest)] if rest else []):
            m.lines.append(", ".join(items) + ": begin")
            body.verilog(m)
            m.lines.append("end")
        m.lines.append("endcase")

    return Statement(words + selector.words + ["case.d" if rest else "case"], verilog)


def corners(n):
    return [0, (1 << n) - 1, 1 << (n - 1), 1]


def pairs(n):
    """Three pairs of values: of corners, a random one with a corner, and two that are the same or differ by little."""
    near = random.getrandbits(n)
    yield random.choice(corners(n)), random.choice(corners(n))
    yield random.choice([(random.getrandbits(n), random.choice(corners(n))), (random.getrandbits(n), random.getrandbits(n))])
    yield near, random.choice([near, near ^ 1 << random.randrange(n), near ^ 1 << (n - 1), random.getrandbits(n)])


def single(make):
    """A case with one result, made of the case."""
    case = Case()
    case.result = make(case)
    return case


def either(case, n, value, signed):
    return constant(n, value, signed) if random.random() < 0.15 else case.operand(n, value, signed)


def operators():
    for ops, signs in ((ARITHMETIC + BITWISE + EQUALITY, "uu ss"), (ORDER, "uu ss us su"), (LOGIC, "uu")):
        for op, n, sign in itertools.product(ops, LENGTHS, signs.split()):
            for a, b in pairs(n):
                yield single(lambda c: binary(op, either(c, n, a, sign[0] == "s"), either(c, n, b, sign[1] == "s")))
    for op, n in itertools.product(LOGIC + EQUALITY, (8, 65, 200)):
        for a, b in pairs(min(n, 128)):
            other = n if op in EQUALITY else random.choice(LENGTHS)
            yield single(lambda c: binary(op, c.operand(n, a), c.operand(other, b % (1 << other))))
    for op, n, signed in itertools.product(["-", "~"], LENGTHS, (False, True)):
        for a in [random.choice(corners(n)), 1 << (n - 1), random.getrandbits(n)]:
            yield single(lambda c: unary(op, either(c, n, a, signed)))
    for op, n in itertools.product(REDUCTIONS, LENGTHS):
        for a in [random.choice(corners(n)), (1 << n) - 1 ^ 1 << random.randrange(n), random.getrandbits(n)]:
            yield single(lambda c: unary(op, either(c, n, a, random.random() < 0.3)))


def shifts():
    for op, n, signed in itertools.product(SHIFTS, LENGTHS, (False, True)):
        if signed and op != ">>>":
            continue
        for amount in (0, 1, n - 1, n, n + 1 + random.randrange(60), None):
            k = random.choice([k for k in (1, 4, 8, 64, 65, 128) if amount is None or amount < 1 << k])
            value = (1 << (k - 1)) | random.choice([0, 1]) if amount is None else amount
            a = random.choice([random.getrandbits(n) | 1 << (n - 1), (1 << (n - 1)) | 1, random.getrandbits(n)])
            yield single(lambda c: binary(op, either(c, n, a, signed), either(c, k, value, False)))
    for op, n in itertools.product(SHIFTS, LENGTHS):
        for k, value in ((2, 3), (8, 0xFE), (128, 1 << 127)):
            a = random.getrandbits(n) | 1 << (n - 1)
            yield single(lambda c: binary(op, either(c, n, a, op == ">>>"), either(c, k, value, True)))


def lengths():
    """The conditional operator, extensions, selects, concatenations and repetitions."""
    for n, signed in itertools.product(LENGTHS, (False, True)):
        for k, test in ((1, 1), (1, 0), (random.choice(LENGTHS), None)):
            a, b = random.getrandbits(n), random.getrandbits(n)
            value = random.choice(corners(k)) if test is None else test
            yield single(lambda c: mux(c.operand(k, value), either(c, n, a, signed), either(c, n, b, signed)))
    for n, signed, by_sign in itertools.product(LENGTHS, (False, True), (False, True)):
        for longer in random.sample(sorted({n, n + 1, 64 if n <= 64 else 100 + n, 128, 200}), 3):
            a = random.choice([1 << (n - 1), (1 << n) - 1, random.getrandbits(n)])
            yield single(lambda c: extended(either(c, n, a, signed), longer, by_sign))
    for n in LENGTHS:
        for low, length in ((0, n), (n - 1, 1), (n // 2, 1 + n // 3), (-1, n), (-3, 3), (-2, n + 4), (n, 2), (n - 1, 3), (n + 70, 8), (-90, 5)):
            a = random.choice([(1 << n) - 1, random.getrandbits(n) | 1 | 1 << (n - 1)])
            yield single(lambda c: select(either(c, n, a, random.random() < 0.5), low, length))
    for low, length in ((1 << 40, 4), (-(1 << 40), 4), ((1 << 63) - 1, 8), (-(1 << 63), 8)):
        yield single(lambda c: select(c.operand(16, 0xFFFF), low, length))
    for _ in range(36):
        sizes = [random.choice([1, 2, 8, 13, 64]) for _ in range(random.randint(1, 4))]
        values = [random.choice(corners(n) + [random.getrandbits(n)]) for n in sizes]
        yield single(lambda c: concatenation([either(c, n, v, random.random() < 0.3) for n, v in zip(sizes, values)]))
    for n, count in itertools.product((1, 3, 8, 65), (1, 2, 3, 16)):
        yield single(lambda c: repeated(count, either(c, n, random.getrandbits(n) | 1, random.random() < 0.3)))


def places():
    for n, down in itertools.product(LENGTHS, (False, True)):
        full = random.choice([(1 << n) - 1, random.getrandbits(n) | 1 | 1 << (n - 1)])
        for kind, offset in itertools.product(("inside", "below", "above", "outside", "negative", "highest"), (0, None)):
            offset = random.choice([1, 3, 7, -3, -20, 100]) if offset is None else offset
            length = random.choice([1, 3, 4, 8])
            low = {"inside": random.randrange(n), "below": -random.randint(1, length), "above": n - 1, "outside": n + random.randrange(9),
                   "negative": random.randint(-3, 2)}.get(kind, 0)
            index = offset - low if down else offset + low
            k = random.choice([9, 33, 64, 65, 128])
            signed = kind == "negative" or index < 0 or random.random() < 0.3
            value = index % (1 << k) if kind != "highest" else (1 << (k - 1)) | random.choice([0, 2])
            yield single(lambda c: select_at(either(c, n, full, random.random() < 0.2), c.operand(k, value, signed), offset, down, length))
    edge = 1 << 63
    for k, value, signed, offset, down in (
        (64, edge + 3, False, edge - 1, False),
        (64, edge, True, -edge, False),
        (65, edge - 5, False, edge - 1, True),
        (8, 5, False, -edge, False),
        (128, (1 << 128) - 2, True, 0, False),
        (128, (1 << 128) - 2, False, 0, False),
        (128, (1 << 64) + 2, False, 0, False),
        (128, (1 << 32) + 2, False, 0, False),
        (64, 1 << 32, False, 0, False),
        (64, (1 << 64) - 1, False, 0, True),
        (1, 1, True, 0, False),
        (1, 1, False, 0, False),
        (1, 1, True, 0, True),
    ):
        yield single(lambda c: select_at(c.operand(16, 0xA5F7), c.operand(k, value, signed), offset, down, 4))


def long_ones():
    """Vectors of more than 128 bits."""
    for n in (129, 200, 1000, 65536):
        value = random.getrandbits(128) | 1 << 127
        yield single(lambda c: unary("|", c.operand(n, 0)))
        yield single(lambda c: unary("!", c.operand(n, value)))
        yield single(lambda c: unary("^", c.operand(n, value)))
        yield single(lambda c: unary("&", unary("~", c.operand(n, 0))))
        yield single(lambda c: select(binary("<<", c.operand(n, 5), constant(16, n - 1)), n - 3, 4))
        yield single(lambda c: select(binary(">>>", binary("<<", c.operand(n, 1, True), constant(17, n - 1)), constant(17, n - 4)), 0, 8))
        yield single(lambda c: binary("==", c.operand(n, value), binary("|", c.operand(n, value), c.operand(n, 1 << 127))))
        yield single(lambda c: unary("^", binary("~^", c.operand(n, 1, True), c.operand(n, value, True))))
        yield single(lambda c: select_at(extended(c.operand(8, 0x80), n, True), c.operand(32, n - 2), 0, False, 4))
        yield single(lambda c: select(mux(c.operand(n, 0), c.operand(n, 1), extended(c.operand(2, 2, True), n, True)), n - 2, 3))
    yield single(lambda c: unary("&", repeated(65536, constant(1, 1))))
    yield single(lambda c: unary("~|", repeated(1024, c.operand(64, 1 << 63))))


def calls():
    for value in (0, 0xFF, 0x80, 1, 0x24, 0x25, 0xF0, 0x0F, 0x55, 0xAA):
        yield single(lambda c: call(either(c, 8, value, random.random() < 0.3)))
    for value in (0x13, 0x7E):
        yield single(lambda c: binary("+", call(call(c.operand(8, value))), call(unary("~", c.signal(0)))))


def signs():
    """The sign of a result, which is seen by whether it is less than another one; in Verilog the operators stand in each other."""
    def made(kind, a, b, c):
        if kind in ARITHMETIC + BITWISE:
            return binary(kind, a, b)
        if kind in SHIFTS:
            return binary(kind, a, c.operand(3, 1))
        one_of = {
            "neg": lambda: unary("-", a),
            "not": lambda: unary("~", a),
            "?": lambda: mux(c.operand(1, 1), a, b),
            "sel": lambda: select(a, 0, a.length),
            "at": lambda: select_at(a, c.operand(4, 0), 0, False, a.length),
            "{": lambda: concatenation([a]),
            "r": lambda: repeated(1, a),
            "call": lambda: call(a),
        }
        return one_of[kind]()

    for kind, sign in itertools.product(["neg", "not", "?", "sel", "{", "r", "at", "call"] + ARITHMETIC + BITWISE + SHIFTS, ("uu", "ss", "us", "su")):
        if sign != "ss" and kind == ">>>" or kind not in ["?"] + ARITHMETIC + BITWISE and sign[0] != sign[1]:
            continue
        for op in ("<", ">"):
            c = Case(nested=True)
            a, b = (c.operand(8, random.getrandbits(8) | 0x80, s == "s") for s in sign)
            c.result = binary(op, made(kind, a, b, c), c.operand(8, random.getrandbits(7), True))
            yield c
    for kind in ORDER + EQUALITY + LOGIC + [op for op in REDUCTIONS if op not in BITWISE]:
        c = Case(nested=True)
        a, b = c.operand(1, 1, True), c.operand(1, random.choice([0, 1]), True)
        c.result = binary("<", unary(kind, b) if kind in REDUCTIONS else binary(kind, a, b), c.operand(1, 1, True))
        yield c
    for by_sign, signed in itertools.product((False, True), (False, True)):
        yield single(lambda c: binary("<", extended(c.operand(8, 0x90, signed), 16, by_sign), c.operand(16, 5, True)))
        yield single(lambda c: binary(">>>", extended(c.operand(8, 0x90, signed), 8, by_sign), constant(4, 3)))


def fitted(e, n):
    if e.length == n:
        return e
    if e.length < n and random.random() < 0.8:
        return extended(e, n, random.random() < 0.5)
    return select(e, random.randint(-2, max(0, e.length - n) + 2), n)


def grown(case, n, depth):
    """A random expression of a length over the signals of a case."""
    if depth == 0 or random.random() < 0.1:
        if random.random() < 0.15:
            return constant(n, random.getrandbits(min(n, 128)), random.random() < 0.5)
        return fitted(case.signal(random.randrange(len(case.signals)), random.random() < 0.5), n)
    size = random.choice([1, 3, 8, 16, 65, 128])
    kinds = [
        lambda: unary(random.choice("-~") if n <= 128 else "~", grown(case, n, depth - 1)),
        lambda: binary(random.choice((ARITHMETIC if n <= 128 else []) + BITWISE), grown(case, n, depth - 1), grown(case, n, depth - 1)),
        lambda: binary(random.choice(SHIFTS), grown(case, n, depth - 1), fitted(grown(case, 3, depth - 1), random.choice([3, 8]))),
        lambda: mux(grown(case, random.choice([1, 2]), depth - 1), grown(case, n, depth - 1), grown(case, n, depth - 1)),
        lambda: select_at(grown(case, size, depth - 1), grown(case, 4, depth - 1), random.randint(-2, 3), random.random() < 0.4, n),
        lambda: fitted(grown(case, size, depth - 1), n),
    ]
    if n == 1:
        kinds += [lambda: unary(random.choice(REDUCTIONS), grown(case, size, depth - 1))]
        kinds += [lambda: binary(random.choice(ORDER + EQUALITY + LOGIC), grown(case, size, depth - 1), grown(case, size, depth - 1))] * 3
    if n > 1:
        cut = random.randint(1, n - 1)
        kinds += [lambda: concatenation([grown(case, n - cut, depth - 1), grown(case, cut, depth - 1)])]
    if n == 8:
        kinds += [lambda: call(grown(case, 8, depth - 1))]
    if n % 2 == 0:
        kinds += [lambda: repeated(2, grown(case, n // 2, depth - 1))]
    return random.choice(kinds)()


def random_expressions(count):
    for _ in range(count):
        case = Case()
        for _ in range(random.randint(1, 3)):
            n = random.choice([1, 3, 8, 8, 16, 64, 65, 128])
            case.add(n, random.choice(corners(n) + [random.getrandbits(n)] * 4))
        case.result = grown(case, random.choice([1, 8, 8, 16, 64, 65, 128, 150]), random.randint(2, 3))
        yield case


def setting(*signals):
    case = Case()
    for length, value in signals:
        case.add(length, value)
    return case


def done(case, *parts):
    made = setting(*case.signals)
    made.result = parts[0] if len(parts) == 1 else sequence(parts)
    return made


def u(n, value):
    return constant(n, value)


def branches():
    for test in (0, 1, 2, 0x80):
        c = setting((8, test), (8, 0x11), (8, 0x22))
        yield done(c, choice(c.signal(0), write(True, 1, c.signal(2)), write(False, 2, c.signal(1))))
        yield done(c, choice(unary("!", c.signal(0)), SKIP, write(True, 1, u(8, 7))))
        inner = choice(binary("<", c.signal(1), c.signal(2)), write(True, 2, u(8, 1)), write(True, 2, u(8, 2)))
        yield done(c, choice(c.signal(0), inner, choice(binary("==", c.signal(2), u(8, 0x22)), write(False, 1, u(8, 3)), SKIP)))
        yield done(c, write(True, 0, binary("-", c.signal(0), u(8, 1))), choice(c.signal(0), write(True, 1, u(8, 1)), write(False, 1, u(8, 2))))
        yield done(c, choice(c.signal(0), write(True, 0, u(8, 0)), SKIP), choice(c.signal(0), write(True, 1, u(8, 5)), write(True, 2, u(8, 6))))
    for a, b in ((0x80, 1), (0x7F, 0xFF), (5, 5)):
        c = setting((8, a), (8, b), (4, 0))
        for signed in (False, True):
            test = binary("<", c.signal(0, signed), c.signal(1, signed))
            other = choice(binary("==", c.signal(0), c.signal(1)), write(True, 2, u(4, 2)), write(True, 2, u(4, 3)))
            yield done(c, choice(test, write(True, 2, u(4, 1)), other))


def put(value):
    """Most bodies of a case write so, that it is seen which one was run."""
    return write(True, 1, u(8, value))


def cases():
    for value in range(4):
        c = setting((2, value), (8, 0x50), (2, 2))
        arms = [([u(2, 1)], put(1)), ([u(2, 0), u(2, 2)], put(2))]
        yield done(c, case_of(c.signal(0), arms))
        yield done(c, case_of(c.signal(0), arms, write(False, 1, u(8, 3))))
        yield done(c, case_of(c.signal(0), [([c.signal(2)], put(4)), ([u(2, 2), u(2, 3)], put(5))], SKIP))
        inner = case_of(c.signal(2), [([u(2, 2)], put(6))], put(7))
        arms = [([u(2, 0)], inner), ([u(2, 1)], choice(c.signal(1), inner, SKIP)), ([u(2, 3)], inner)]
        yield done(c, case_of(c.signal(0), arms, write(True, 2, u(2, 0))))
        yield done(c, case_of(u(1, 1), [([binary("==", c.signal(0), u(2, 3))], put(8)), ([binary("<", c.signal(0), u(2, 2))], put(9))]))
    for value in (0, 0xFF, 0x80, 1, 0x2A, 0xC3):
        c = setting((8, value), (8, 0))
        arms = [([(0x80, 0x7F)], put(1)), ([(0x20, 0x0F), (0x01, 0xF0)], put(2)), ([(0, 0)], put(3))]
        yield done(c, case_of(c.signal(0), arms))
        yield done(c, case_of(c.signal(0), arms[1:], write(False, 1, u(8, 4))))
        yield done(c, case_of(c.signal(0), [([u(8, 0xFF), (0x81, 0x42)], put(5)), ([(0, 0xFF)], put(6))], put(7)))
    for n in (1, 64, 65, 128):
        value, high = random.getrandbits(n), 1 << (n - 1)
        c = setting((n, value), (8, 0))
        yield done(c, case_of(c.signal(0), [([u(n, value ^ 1)], put(1)), ([u(n, value)], put(2))]))
        yield done(c, case_of(c.signal(0), [([(value ^ high, 0)], put(1)), ([(value ^ high, high)], put(2))]))


def loops():
    for value in (0xA5, 0x0F, 0x80):
        c = setting((8, value), (8, 0), (4, 0))
        yield done(c, turns([write_part(c, True, 1, k, 1, select(c.signal(0), 7 - k, 1)) for k in range(8)],
                            "for (i = 0; i < 8; i = i + 1) now_1[i] = now_0[7 - i];"))
        yield done(c, turns([write(True, 2, binary("+", c.signal(2), extended(select(c.signal(0), k, 1), 4, False))) for k in range(8)],
                            "for (i = 0; i < 8; i = i + 1) now_2 = now_2 + now_0[i];"))
        yield done(c, turns([sequence([write(True, 0, binary("<<", c.signal(0), u(1, 1))), write(False, 1, c.signal(0))]) for k in range(3)],
                            "for (i = 0; i < 3; i = i + 1) begin now_0 = now_0 << 1; next_1 <= now_0; end"))
        yield done(c, turns([choice(select(c.signal(0), k, 1), write(True, 2, u(4, k)), SKIP) for k in range(8)],
                            "for (i = 0; i < 8; i = i + 1) if (now_0[i]) now_2 = i;"))
        yield done(c, turns([write_part(c, False, 1, 2 * k, 2, select(c.signal(0), 6 - 2 * k, 2)) for k in range(4)],
                            "for (i = 0; i < 4; i = i + 1) next_1[2 * i +: 2] <= now_0[6 - 2 * i +: 2];"))
        bits = [select(c.signal(0), k, 1) for k in range(4)]
        yield done(c, turns([write_part(c, True, 0, k, 1, binary("^", bits[k], bits[k - 1])) for k in range(1, 4)],
                            "for (i = 1; i < 4; i = i + 1) now_0[i] = now_0[i] ^ now_0[i - 1];"))


def orders():
    """Blocking and nonblocking writes in turn."""
    for a, b in ((0xA5, 3), (0, 0xFF), (0x80, 1)):
        c = setting((8, a), (8, b), (8, 0x77))
        one, two = c.signal(0), c.signal(1)
        yield done(c, write(False, 0, two), write(False, 1, one))
        yield done(c, write(True, 0, two), write(True, 1, one))
        yield done(c, write(True, 2, one), write(True, 0, two), write(True, 1, c.signal(2)))
        yield done(c, write(False, 0, u(8, 1)), write(False, 0, binary("+", one, two)))
        yield done(c, write(False, 0, two), write_part(c, False, 0, 2, 4, u(4, 9)), write_part(c, False, 0, 5, 2, u(2, 1)))
        more = write(True, 0, binary("+", one, u(8, 1)))
        yield done(c, more, write(False, 1, one), more, write(False, 2, one))
        yield done(c, write(False, 0, binary("~^", one, two)), write(True, 0, binary("*", one, two)), write(False, 2, binary("-", one, two)))
        yield done(c, write(True, 0, concatenation([u(4, 0xF), one])), write(False, 1, extended(one, 20, True)))
        yield done(c, write_part(c, True, 0, 0, 4, two), write_part(c, True, 0, 4, 4, select(one, 0, 4)), write(True, 2, call(one)))
        yield done(c, write(False, 0, call(one)), write(True, 1, call(call(two))), SKIP)
    c = setting(*[(8, k) for k in range(10)])
    yield done(c, write(True, 9, u(8, 0xEE)), write(True, 7, c.signal(9)), write(False, 8, u(8, 1)), write(False, 0, c.signal(8)))
    c = setting(*[(4, 5)] * 12)
    yield done(c, write(True, 11, u(4, 1)), write(False, 6, c.signal(11)), write(True, 0, c.signal(10)))


def written_places():
    for n in (8, 65, 128):
        value = random.getrandbits(n)
        for low, length in ((0, n), (n - 1, 1), (2, 3), (-1, 4), (n - 2, 4), (n, 2), (-4, 4), (-2, n + 4), (n + 100, 8)):
            c = setting((n, value), (n + 4, random.getrandbits(n + 4) % (1 << 128)))
            yield done(c, write_part(c, random.random() < 0.5, 0, low, length, c.signal(1)))
        near = [(1, 0, 4), (0, 0, 1), (n - 1, 0, 1), (n - 2, 0, 4), (n, 0, 3), (n + 7, 0, 4), (-1, 0, 4), (-3, 0, 4), (-4, 0, 4)]
        for index, offset, length in near + [(5, 3, 4), (2, 4, 4), (-3, -3, 4), (-5, -3, 4)]:
            k = random.choice([9, 32, 64, 128])
            c = setting((n, value), (8, random.getrandbits(8)), (k, index % (1 << k)))
            yield done(c, write_at(c, random.random() < 0.5, 0, offset, length, c.signal(1), c.signal(2, index < 0 or random.random() < 0.3)))
    for blocking, (k, index) in itertools.product((True, False), ((128, 1 << 127), (64, (1 << 63) + 1), (33, 1 << 32), (65, 1 << 64))):
        c = setting((8, 0x3C), (k, index))
        yield done(c, write_at(c, blocking, 0, 0, 4, u(4, 5), c.signal(1, random.random() < 0.5)))
    c = setting((8, 2), (8, 0))
    third = write_at(c, False, 0, 0, 1, u(1, 1), select(c.signal(0), 0, 3))
    yield done(c, write_at(c, True, 0, 0, 2, u(2, 3), c.signal(0)), write_at(c, True, 1, 0, 2, u(2, 3), c.signal(0)), third)
    c = setting((200, 1 << 127), (8, 196))
    third = write_part(c, False, 0, 126, 3, select(c.signal(0), 196, 3))
    yield done(c, write_at(c, True, 0, 0, 8, u(8, 0x96), c.signal(1)), write_part(c, False, 0, 150, 4, c.signal(0)), third)


def written_together():
    """Concatenations of two signals on the left."""
    for high, low in itertools.product((1, 8, 64), (1, 13, 64)):
        blocking = random.random() < 0.5
        c = setting((high, random.getrandbits(high)), (low, random.getrandbits(low)), (high + low, random.getrandbits(high + low)))
        yield done(c, write_two(blocking, 0, 1, c.signal(2)), write_two(not blocking, 1, 0, extended(unary("~", c.signal(2)), high + low + 3, False)))
    c = setting((8, 0x12), (8, 0x34))
    yield done(c, write_two(True, 1, 0, concatenation([c.signal(0), c.signal(1)])))
    yield done(c, write_two(False, 0, 1, concatenation([c.signal(1), c.signal(0)])))


def long_arguments():
    """Calls whose argument has more bits than the input: the lowest ones are passed."""
    for n, signed in itertools.product((9, 16, 65, 128), (False, True)):
        for value in (random.getrandbits(n), (1 << n) - 1, 0xA5, 1 << (n - 1)):
            yield single(lambda c: call(either(c, n, value, signed)))
    for n in (9, 12):
        yield single(lambda c: call(concatenation([c.operand(n - 8, 1), c.operand(8, random.getrandbits(8))])))
        yield single(lambda c: binary("+", call(extended(c.operand(8, 0x8F, True), n, True)), call(extended(c.operand(7, 0x25), n, False))))


def other_signs():
    """Operands and results that are read with another sign."""
    for n, by in itertools.product((1, 8, 65, 128), (False, True)):
        for op in ORDER:
            for a, b in list(pairs(n))[:2]:
                yield single(lambda c: binary(op, with_sign(c.operand(n, a, not by), by), c.operand(n, b, by)))
        high = random.getrandbits(n) | 1 << (n - 1)
        yield single(lambda c: binary(">>>", with_sign(c.operand(n, high, False), True), constant(4, 1)))
        yield single(lambda c: binary(">>", with_sign(c.operand(n, high, True), False), constant(4, 1)))
        yield single(lambda c: extended(with_sign(c.operand(n, high, not by), by), n + 5, by))
        yield single(lambda c: binary("<", with_sign(binary("+", c.operand(n, high), c.operand(n, 0)), by), c.operand(n, 0, True)))
    for op in ARITHMETIC + BITWISE:
        for a, b in ((0x80, 0x7F), (0xFF, 1)):
            yield single(lambda c: binary("<", with_sign(binary(op, c.operand(8, a), c.operand(8, b, True)), True), c.operand(8, 3, True)))
    for value in (0, 0x80, 0xF3):
        c = setting((8, value), (8, 0))
        yield done(c, choice(binary("<", with_sign(c.signal(0), True), u(8, 0)._replace(signed=True, words=["i8:0"], verilog=lambda m: "8'sh0")),
                             write(True, 1, u(8, 1)), write(True, 1, u(8, 2))))


def written_down():
    """Writes at places whose index counts down."""
    for n in (8, 65):
        value = random.getrandbits(n)
        for low, offset, length in [(0, n - 1, 1), (n - 1, n - 1, 1), (2, n - 1, 3), (n - 2, n, 4), (-1, 7, 4), (-4, 7, 4), (n, 7, 3), (n + 9, 3, 4), (0, -3, 4), (1, 100, 8)]:
            index, k = offset - low, random.choice([9, 32, 64, 128])
            c = setting((n, value), (8, random.getrandbits(8)), (k, index % (1 << k)))
            yield done(c, write_at(c, random.random() < 0.5, 0, offset, length, c.signal(1), c.signal(2, index < 0 or random.random() < 0.3), True))
    for blocking, (k, index) in itertools.product((True, False), ((128, 1 << 127), (64, (1 << 63) + 1), (33, 1 << 32))):
        c = setting((8, 0x3C), (k, index))
        yield done(c, write_at(c, blocking, 0, 7, 4, u(4, 5), c.signal(1, random.random() < 0.5), True))


def written_parts():
    """Concatenations of parts on the left."""
    def bits(number, low, length):
        return LeftPart(number, low, length, None, False)

    for blocking in (True, False):
        for _ in range(6):
            c = setting((8, random.getrandbits(8)), (16, random.getrandbits(16)), (33, random.getrandbits(33)), (3, random.getrandbits(3)))
            a, b, d = random.randrange(1, 8), random.randrange(1, 12), random.randrange(20)
            yield done(c, write_parts(c, blocking, [bits(0, a, 8 - a), bits(1, b, 4)], c.signal(2)))
            yield done(c, write_parts(c, blocking, [bits(2, d, 9), bits(0, 0, 8), bits(3, 1, 1)], extended(c.signal(1), 20, False)))
            yield done(c, write_parts(c, blocking, [bits(1, 8, 8), bits(1, 0, 8)], concatenation([select(c.signal(1), 0, 8), select(c.signal(1), 8, 8)])))
            index, other = select(c.signal(0), random.randrange(6), 3), c.signal(3, random.random() < 0.5)
            yield done(c, write_parts(c, blocking, [LeftPart(0, 0, 2, other, False), LeftPart(2, random.randint(-2, 40), 4, index, random.random() < 0.5)], c.signal(1)))
            yield done(c, write_parts(c, blocking, [bits(3, 0, 3), LeftPart(1, random.choice([-1, 0, 15]), 5, other, False), bits(0, a, 8 - a)], c.signal(2)))
    c = setting((8, 0x12), (8, 0x34))
    yield done(c, write_parts(c, True, [bits(0, 4, 4), bits(1, 4, 4), bits(0, 0, 4), bits(1, 0, 4)], concatenation([c.signal(0), c.signal(1)])))


def grown_item(case, n):
    return random.choice([constant(n, random.getrandbits(n)), grown(case, n, 0), (random.getrandbits(n), random.getrandbits(n))])


def grown_write(case):
    number = random.randrange(len(case.signals))
    n, blocking, kind = case.signals[number][0], random.random() < 0.6, random.randrange(5)
    if kind < 2:
        return write(blocking, number, grown(case, n + random.choice([0, 0, 0, 2]), 1))
    if kind == 2:
        return write_part(case, blocking, number, random.randint(-1, n), random.choice([1, 2, 4]), grown(case, 4, 1))
    if kind == 3:
        return write_at(case, blocking, number, random.randint(-1, 2), random.choice([1, 2, 4]), grown(case, 4, 1), grown(case, 4, 0))
    other = (number + 1) % len(case.signals)
    return write_two(blocking, number, other, grown(case, n + case.signals[other][0], 1))


def grown_statement(case, depth):
    if depth == 0 or random.random() < 0.2:
        return grown_write(case)
    kind = random.randrange(4)
    if kind == 0:
        yes, no = grown_statement(case, depth - 1), random.choice([SKIP, grown_statement(case, depth - 1)])
        return choice(grown(case, random.choice([1, 1, 4]), 1), yes, no)
    if kind == 1:
        selector = grown(case, random.choice([1, 2, 4]), 1)
        bits = selector.length
        arms = []
        for _ in range(random.randint(1, 3)):
            arms.append(([grown_item(case, bits) for _ in range(random.randint(1, 2))], grown_statement(case, depth - 1)))
        return case_of(selector, arms, random.choice([None, grown_statement(case, depth - 1)]))
    return sequence([grown_statement(case, depth - 1) for _ in range(random.randint(2, 3))])


def random_statements(count):
    for _ in range(count):
        case = Case()
        for _ in range(random.randint(2, 4)):
            n = random.choice([1, 4, 8, 8, 16, 33])
            case.add(n, random.choice(corners(n) + [random.getrandbits(n)] * 4))
        case.result = grown_statement(case, random.randint(1, 2))
        if len(case.line()) < 300:
            yield case


def simulated(rows):
    """What each row shows: the values now, and those after the nonblocking writes where it is a statement."""
    source = "".join(case.module(number, False) + case.module(f"{number}b", True) for number, case in enumerate(rows))
    with tempfile.TemporaryDirectory() as folder:
        with open(f"{folder}/t.v", "w") as file:
            file.write(source)
        subprocess.run(["iverilog", "-g2005", "-o", f"{folder}/t", f"{folder}/t.v"], check=True)
        out = subprocess.run(["vvp", f"{folder}/t"], capture_output=True, text=True, check=True).stdout
    found = {}
    for line in out.splitlines():
        number, kind, values = line.split(" ", 2)
        assert re.fullmatch(r"[0-9a-f]+( [0-9a-f]+)*", values), f"{line}: {rows[int(number.rstrip('b'))].line()}"
        found[number, kind] = " ".join(value.lstrip("0") or "0" for value in values.split())
    return found


def answer(found, number, case):
    if isinstance(case.result, Expression):
        return f"{case.result.length}:{found[number, 'now']}"
    return f"{found[number, 'now']} / {found[number, 'next']}"


def table():
    made = [operators(), shifts(), lengths(), places(), long_ones(), calls(), signs(), random_expressions(110)]
    made += [branches(), cases(), loops(), orders(), written_places(), written_together(), random_statements(42)]
    made += [long_arguments(), other_signs(), written_down(), written_parts()]
    rows = {}
    for case in itertools.chain(*made):
        rows.setdefault(case.line(), case)
    return list(rows.values())


def main(words):
    random.seed(1)
    rows = table()
    found = simulated(rows)
    answers = [(case.line(), answer(found, f"{k}", case), answer(found, f"{k}b", case)) for k, case in enumerate(rows)]
    wrong = [row for row in answers if row[1] != row[2]]
    for line, one, other in wrong:
        print(f"differs: {line}: {one}, and {other} bit by bit")
    lines = BY_HAND + [(line, one) for line, one, _ in answers]
    for name, column in zip(words, (0, 1)):
        with open(name, "w") as file:
            file.write("".join(line[column] + "\n" for line in lines))
    expressions = sum(isinstance(case.result, Expression) for case in rows)
    print(f"{len(BY_HAND)} rows by hand, {expressions} expressions, {len(rows) - expressions} statements, {len(wrong)} differ")
    return 1 if wrong else 0


if __name__ == "__main__":
    sys.exit(main(sys.argv[1:]) if len(sys.argv) == 3 else __doc__)
