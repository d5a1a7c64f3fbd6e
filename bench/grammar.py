#!/usr/bin/env python3
"""Sources of all rules of the grammar, right ones and changed ones, through the parser and through Icarus Verilog; and the time and memory of the parser.

Usage: bench/grammar.py PROGRAM [SOURCES [SEED [SHORTENED]]]     (the built parse_cases; 400 sources, seed 1 and 200 where no numbers stand)
       bench/grammar.py PROGRAM --speed [MEGABYTES]  (8 megabytes where no number stands)

Each source is made from the grammar, so the parser has to take it. Each is then changed in one token (one away, one twice, two swapped, one put in), eight times.
Where iverilog is installed, the answers are compared: iverilog refuses a source by its grammar where it finds a syntax error, or names a rule of its own (`OWN_RULES`).
Of the first sources that differ each is made as short as it can be with the difference, and the kinds that are left are counted; their reasons stand in
docs/decisions/front.md.
"""
import collections
import os
import random
import re
import shutil
import subprocess
import sys
import tempfile
import time

# (many, so that few are declared twice, which is no matter of the grammar)
NAMES = [letter + str(number) for letter in "abcdefghijk" for number in range(40)]
NUMBERS = ["0", "1", "4", "8'hff", "4'b10_01", "3'o7", "'d12", "2'sb11", "16'd255"]
FREE = ["2'b1?", "4'b?1?0", "3'bz01", "8'h?f"]
UNARY = ["+", "-", "!", "~", "&", "~&", "|", "~|", "^", "~^", "^~"]
BINARY = ["**", "*", "/", "%", "+", "-", "<<", ">>", "<<<", ">>>", "<", "<=", ">", ">=", "==", "!=", "&", "^", "^~", "~^", "|", "&&", "||"]
GATES = ["and", "nand", "or", "nor", "xor", "xnor", "buf", "not"]


class Maker:
    def __init__(self, seed):
        self.r = random.Random(seed)

    def some(self, chance):
        return self.r.random() < chance

    def name(self):
        return [self.r.choice(NAMES)]

    def list_of(self, make, least=1, most=3):
        out = []
        for at in range(self.r.randint(least, most)):
            out += ([","] if at else []) + make()
        return out

    def select(self, d):
        kind = self.r.randrange(4)
        if kind == 0:
            return ["["] + self.expr(d) + ["]"]
        return ["["] + self.expr(d) + [[":", "+:", "-:"][kind - 1]] + self.expr(d) + ["]"]

    def primary(self, d):
        kind = self.r.randrange(9) if d > 0 else self.r.randrange(2)
        if kind == 0:
            return [self.r.choice(NUMBERS)]
        if kind <= 2:
            return self.name() + (self.select(d - 1) if kind == 2 else [])
        if kind == 3:
            return self.name() + ["("] + self.list_of(lambda: self.expr(d - 1)) + [")"]
        if kind == 4:
            return [self.r.choice(["$signed", "$unsigned", "$clog2"]), "("] + self.expr(d - 1) + [")"]
        if kind == 5:
            return ["{"] + self.list_of(lambda: self.expr(d - 1)) + ["}"]
        if kind == 6:
            return ["{"] + self.expr(d - 1) + ["{"] + self.list_of(lambda: self.expr(d - 1)) + ["}", "}"]
        return ["("] + self.expr(d - 1) + [")"]

    def expr(self, d):
        kind = self.r.randrange(6)
        if d <= 0 or kind <= 2:
            return self.primary(d)
        if kind == 3:
            return [self.r.choice(UNARY)] + self.primary(d - 1)
        if kind == 4:
            return self.primary(d - 1) + [self.r.choice(BINARY)] + self.primary(d - 1)
        return self.primary(d - 1) + ["?"] + self.expr(d - 1) + [":"] + self.expr(d - 1)

    def range(self):
        return ["["] + self.expr(1) + [":"] + self.expr(1) + ["]"]

    def maybe(self, make, chance=0.4):
        return make() if self.some(chance) else []

    def vector(self):
        return self.maybe(lambda: ["signed"], 0.3) + self.maybe(self.range)

    def ptype(self):
        return ["integer"] if self.some(0.2) else self.vector()

    def var(self):
        return self.name() + self.maybe(lambda: ["="] + self.expr(1), 0.3)

    def left(self, d):
        if d <= 0 or self.some(0.7):
            return self.name() + self.maybe(lambda: self.select(1))
        return ["{"] + self.list_of(lambda: self.left(d - 1)) + ["}"]

    def constant(self):
        return self.name() + ["="] + self.expr(2)

    def named(self):
        return ["."] + self.name() + ["("] + self.maybe(lambda: self.expr(2), 0.8) + [")"]

    def binds(self):
        if self.some(0.5):
            return self.list_of(self.named)
        return self.list_of(lambda: self.maybe(lambda: self.expr(2), 0.85))

    def instance(self):
        return self.name() + ["("] + self.maybe(self.binds, 0.85) + [")"]

    def edge(self):
        return self.maybe(lambda: [self.r.choice(["posedge", "negedge"])], 0.6) + self.name() + self.maybe(lambda: self.select(0), 0.2)

    def event(self):
        kind = self.r.randrange(4)
        if kind == 0:
            return ["*"]
        if kind == 1:
            return ["(", "*", ")"]
        out = ["("] + self.edge()
        for _ in range(self.r.randrange(3)):
            out += [self.r.choice(["or", ","])] + self.edge()
        return out + [")"]

    def head(self):
        return ["("] + self.name() + ["="] + self.expr(1) + [";"] + self.expr(1) + [";"] + self.name() + ["="] + self.expr(1) + [")"]

    def label(self):
        return self.maybe(lambda: [":"] + self.name(), 0.3)

    def many(self, make, most=3):
        out = []
        for _ in range(self.r.randint(0, most)):
            out += make()
        return out

    def closed(self, text):
        """A branch before `else`: in a block, so that no `else` is taken by it."""
        return ["begin"] + text + ["end"]

    def arms(self, values, body, least):
        out, used = [], False
        for at in range(self.r.randint(least, 3)):
            if not used and self.some(0.2):
                used = True
                out += ["default"] + self.maybe(lambda: [":"], 0.6) + body()
            else:
                out += self.list_of(values) + [":"] + body()
        return out

    def stmt(self, d):
        kind = self.r.randrange(8) if d > 0 else 0
        if kind == 1:
            return [";"]
        if kind == 2:
            return ["begin"] + self.label() + self.many(lambda: self.stmt(d - 1)) + ["end"]
        if kind == 3:
            return ["if", "("] + self.expr(2) + [")"] + self.stmt(d - 1)
        if kind == 4:
            return ["if", "("] + self.expr(2) + [")"] + self.closed(self.stmt(d - 1)) + ["else"] + self.stmt(d - 1)
        if kind == 5:
            return ["case", "("] + self.expr(2) + [")"] + self.arms(lambda: self.expr(1), lambda: self.stmt(d - 1), 1) + ["endcase"]
        if kind == 6:
            value = lambda: [self.r.choice(FREE)] if self.some(0.5) else self.expr(1)
            return ["casez", "("] + self.expr(2) + [")"] + self.arms(value, lambda: self.stmt(d - 1), 1) + ["endcase"]
        if kind == 7:
            return ["for"] + self.head() + self.stmt(d - 1)
        return self.left(2) + [self.r.choice(["=", "<="])] + self.expr(2) + [";"]

    def function(self):
        out = ["function"] + self.maybe(lambda: ["automatic"], 0.3) + self.ptype() + self.name()
        if self.some(0.5):
            out += ["("] + self.list_of(lambda: ["input"] + self.vector() + self.name()) + [")"]
        out += [";"]
        for _ in range(self.r.randrange(3)):
            if self.some(0.3):
                out += ["integer"] + self.list_of(self.name) + [";"]
            else:
                out += [self.r.choice(["input", "reg"])] + self.vector() + self.list_of(self.name) + [";"]
        return out + self.stmt(2) + ["endfunction"]

    def block(self, d):
        kind = self.r.randrange(4)
        if kind == 0:
            return [";"]
        if kind == 1:
            return self.item(d - 1)
        return ["begin"] + self.label() + self.many(lambda: self.item(d - 1)) + ["end"]

    def gen(self, d):
        kind = self.r.randrange(4)
        if kind == 0:
            return ["for"] + self.head() + self.block(d)
        if kind == 1:
            return ["if", "("] + self.expr(2) + [")"] + self.block(d)
        if kind == 2:
            return ["if", "("] + self.expr(2) + [")"] + self.closed(self.many(lambda: self.item(d - 1))) + ["else"] + self.block(d)
        return ["case", "("] + self.expr(2) + [")"] + self.arms(lambda: self.expr(1), lambda: self.block(d), 0) + ["endcase"]

    def gate(self):
        word = self.r.choice(GATES)
        most = 1 if word in ("buf", "not") else 3
        one = lambda: self.maybe(self.name) + ["("] + self.left(1) + [","] + self.list_of(lambda: self.expr(1), 1, most) + [")"]
        return [word] + self.list_of(one, 1, 2) + [";"]

    def item(self, d):
        kind = self.r.randrange(14 if d > 0 else 12)
        net = lambda: self.maybe(lambda: [self.r.choice(["wire", "reg"])], 0.3)
        if kind == 0:
            return [self.r.choice(["input", "output"])] + net() + self.vector() + self.list_of(self.name) + [";"]
        if kind == 1:
            return [self.r.choice(["wire", "reg"])] + self.vector() + self.list_of(self.var) + [";"]
        if kind == 2:
            return ["integer"] + self.list_of(self.var) + [";"]
        if kind == 3:
            return ["genvar"] + self.list_of(self.name) + [";"]
        if kind == 4:
            return [self.r.choice(["parameter", "localparam"])] + self.ptype() + self.list_of(self.constant) + [";"]
        if kind == 5:
            return ["assign"] + self.list_of(lambda: self.left(2) + ["="] + self.expr(2)) + [";"]
        if kind == 6:
            return ["always", "@"] + self.event() + self.stmt(3)
        if kind == 7:
            return ["initial"] + self.stmt(3)
        if kind == 8:
            return self.function()
        if kind in (9, 10):
            out = self.name() + (["#", "("] + self.binds() + [")"] if self.some(0.4) else [])
            return out + self.list_of(self.instance, 1, 2) + [";"]
        if kind == 11:
            return self.gate()
        if kind == 12:
            return ["generate"] + self.many(lambda: self.item(d - 1)) + ["endgenerate"]
        return self.gen(d)

    def parameters(self):
        out = ["#", "(", "parameter"] + self.ptype() + self.constant()
        for _ in range(self.r.randrange(3)):
            out += [","] + (["parameter"] + self.ptype() if self.some(0.5) else []) + self.constant()
        return out + [")"]

    def ports(self):
        kind = self.r.randrange(3)
        if kind == 0:
            return ["(", ")"]
        if kind == 1:
            return ["("] + self.list_of(self.name) + [")"]
        net = lambda: self.maybe(lambda: [self.r.choice(["wire", "reg"])], 0.3)
        head = lambda: [self.r.choice(["input", "output"])] + net() + self.vector()
        out = ["("] + head() + self.var()
        for _ in range(self.r.randrange(3)):
            out += [","] + (head() if self.some(0.6) else []) + self.var()
        return out + [")"]

    def module(self):
        return (["module"] + self.name() + self.maybe(self.parameters) + self.maybe(self.ports, 0.8) + [";"]
                + self.many(lambda: self.item(2), 5) + ["endmodule"])

    def changed(self, tokens):
        out = list(tokens)
        at, kind = self.r.randrange(len(out)), self.r.randrange(4)
        if kind == 0:
            del out[at]
        elif kind == 1:
            out.insert(at, out[at])
        elif kind == 2:
            to = self.r.randrange(len(out))
            out[at], out[to] = out[to], out[at]
        else:
            out.insert(at, self.r.choice(tokens + ["else", ":", ";", "begin", "end", "(", ")", ","]))
        return out


def text_of(tokens):
    return " ".join("\n" + t if t in ("module", "endmodule") else t for t in tokens) + "\n"


def ours(program, texts):
    """The answers of one run of the program for these sources."""
    lines = "".join("@case %d\n%s@count\n" % (number, text) for number, text in enumerate(texts))
    out = subprocess.run([program], input=lines, capture_output=True, text=True, timeout=600)
    answers = [line.split(": ", 1)[1] for line in out.stdout.splitlines()]
    if len(answers) != len(texts):
        sys.exit("%d answers for %d sources, status %d" % (len(answers), len(texts), out.returncode))
    return answers


# What iverilog says of a source that its grammar has no place for, beside syntax errors: rules that it reads and then refuses by its choice of the language.
OWN_RULES = ["syntax error", "I give up", "requires SystemVerilog", "Superfluous comma", "cannot nest", "not optional", "must have an input",
             "lifetime in this context", "allowed to be empty"]


# What tells nothing of the grammar: that iverilog crashes, or that a name is declared twice.
NO_ANSWER = "assert: |Segmentation fault|Aborted|internal error|already been declared|conflicts with definition|memory exhausted"


def theirs(text):
    """Whether iverilog takes a source by its grammar, or nothing where that is not seen."""
    with tempfile.NamedTemporaryFile("w", suffix=".v") as out:
        out.write(text)
        out.flush()
        ran = subprocess.run(["iverilog", "-g2005", "-t", "null", out.name], capture_output=True, text=True, timeout=120)
    if re.search(NO_ANSWER, ran.stderr):
        return None
    return not any(said in ran.stderr for said in OWN_RULES)


def told(answer):
    """Whether the program takes a source: nothing where the lexer refuses it."""
    return None if re.match("E0[34] ", answer) else answer.startswith("ok")


def pairs(tokens):
    """The places of each opening bracket and its closing one."""
    open_at, out = [], []
    for at, token in enumerate(tokens):
        if token in "([{":
            open_at.append(at)
        elif token in ")]}" and open_at:
            out.append((open_at.pop(), at))
    return out


def smaller(tokens):
    """The tokens without a run of them, or without a pair of brackets, the shortest first."""
    size, out = len(tokens), []
    while size > 1:
        size = (size + 1) // 2
        out += [tokens[:at] + tokens[at + size:] for at in range(len(tokens) - size + 1)]
    out += [tokens[:first] + tokens[first + 1:last] + tokens[last + 1:] for first, last in pairs(tokens)]
    return sorted(out, key=len)


def shortest(program, tokens, takes):
    """The tokens that are left where none can go with the difference kept: that the program takes them, or refuses them, and iverilog does not."""
    while True:
        less = smaller(tokens)
        answers = ours(program, [text_of(it) for it in less])
        found = next((it for it, answer in zip(less, answers) if told(answer) is takes and theirs(text_of(it)) is (not takes)), None)
        if found is None:
            return tokens
        tokens = found


def plain(tokens):
    """The tokens with one name and one number, so that sources of a kind are alike."""
    out = []
    for token in tokens:
        if token in FREE:
            out.append("FREE")
        elif token in NUMBERS:
            out.append("1")
        elif token in NAMES:
            out.append("a")
        elif token in GATES[:6]:
            out.append("GATE")
        elif token in GATES[6:]:
            out.append("BUFFER")
        elif token in UNARY and token not in BINARY:
            out.append("~")
        else:
            out.append(token)
    return " ".join(out)


def compare(program, sources, seed, most):
    maker = Maker(seed)
    lists = []
    for _ in range(sources):
        tokens = maker.module()
        lists += [tokens] + [maker.changed(tokens) for _ in range(8)]
    answers = ours(program, [text_of(tokens) for tokens in lists])
    for number, answer in enumerate(answers):
        if not re.fullmatch(r"ok \d+|E0[345] \d+", answer) or (number % 9 == 0 and not answer.startswith("ok")):
            print("WRONG", answer, text_of(lists[number]))
    if not shutil.which("iverilog"):
        return
    judged = [(tokens, told(answer)) for tokens, answer in zip(lists, answers)]
    judged = [(tokens, takes, theirs(text_of(tokens))) for tokens, takes in judged if takes is not None]
    different = [(tokens, takes) for tokens, takes, other in judged if other is (not takes)]
    silent = sum(other is None for _, _, other in judged)
    print("%d sources compared (%d taken here), %d differ, %d without an answer of iverilog" % (len(judged), sum(takes for _, takes, _ in judged), len(different), silent))
    kinds = collections.Counter()
    for tokens, takes in different[:most]:
        kinds["taken here" if takes else "refused here", plain(shortest(program, tokens, takes))] += 1
    for (side, text), count in kinds.most_common():
        print("%5d  %s: %s" % (count, side, text))


MODULE = """
// A counter with a load, number {i}.
module counter_{i} #(parameter WIDTH = 8, parameter [WIDTH-1:0] START = 8'h0{d}) (
    input wire clk, input wire rst_n, input wire load,
    input wire [WIDTH-1:0] value,   /* what is loaded */
    output reg [WIDTH-1:0] count,
    output wire full
);
    wire [WIDTH-1:0] next = load ? value : count + {{{{(WIDTH-1){{1'b0}}}}, 1'b1}};
    assign full = &count && !load || (count >= 8'd2{d}_0);
    wire [7:0] fast_{i} = count <<< 1;
    always @(posedge clk or negedge rst_n) begin
        if (!rst_n) count <= START;
        else if (load) count <= next;
        else case (value[1:0])
            2'b0{b}: count <= 8'd50;
            2'b1{b}: count <= 8'b1010_0{b}0{b};
            default: count <= count ^ 8'hA{d};
        endcase
    end
endmodule
"""


def ordinary(target):
    parts, size, i = [], 0, 0
    while size < target:
        parts.append(MODULE.format(i=i, d=i % 10, b=i % 2))
        size += len(parts[-1])
        i += 1
    return "".join(parts)


def shapes(size):
    """Long texts of one kind each."""
    yield "one module of many items", "module m;\n" + "wire a; assign a = b;\n" * (size // 23) + "endmodule\n"
    yield "one long sum", "module m; assign y = a" + " + a" * (size // 4) + "; endmodule\n"
    yield "one long concatenation", "module m; assign y = {a" + ", a" * (size // 3) + "}; endmodule\n"
    yield "one long case", "module m; initial case (s)\n" + "4'd1: a = b;\n" * (size // 13) + "endcase endmodule\n"
    yield "one long list of ports", "module m (a" + ", a" * (size // 3) + "); endmodule\n"
    yield "many small modules", "module m; endmodule\n" * (size // 20)
    yield "a fault at the end", "module m;\n" + "wire a;\n" * (size // 8) + "wire\n"


def timed(program, text):
    """Seconds and peak megabytes of a run, and its answer."""
    with tempfile.TemporaryDirectory() as folder:
        path = os.path.join(folder, "m.v")
        with open(path, "w") as out:
            out.write(text)
        start = time.time()
        child = subprocess.Popen([program, path], stdout=subprocess.PIPE)
        answer = child.stdout.read().decode().strip()
        _, _, usage = os.wait4(child.pid, 0)
        return time.time() - start, usage.ru_maxrss / 1024, answer


def speed(program, megabytes):
    for part in (0.25, 0.5, 1):
        text = ordinary(int(megabytes * part * 1e6))
        seconds, peak, answer = timed(program, text)
        print("ordinary, %.1f MB: %.2f s, %.1f MB a second, %.0f MB at the peak, %.0f bytes for one, %s"
              % (len(text) / 1e6, seconds, len(text) / 1e6 / seconds, peak, peak * 1048576 / len(text), answer))
    for title, text in shapes(int(2e6)):
        seconds, peak, answer = timed(program, text)
        print("%s, %.1f MB: %.2f s, %.0f MB at the peak, %s" % (title, len(text) / 1e6, seconds, peak, answer))


def main():
    program = os.path.abspath(sys.argv[1])
    if "--speed" in sys.argv:
        numbers = [word for word in sys.argv[2:] if word != "--speed"]
        speed(program, float(numbers[0]) if numbers else 8)
    else:
        numbers = [int(word) for word in sys.argv[2:]] + [400, 1, 200][len(sys.argv) - 2:]
        compare(program, *numbers)


if __name__ == "__main__":
    main()
