#!/usr/bin/env python3
"""Bytes per second and peak memory of the lexer and the directives on a file of ordinary Verilog.

Usage: bench/lex.py PROGRAM [MEGABYTES]     (a program that is given the name of a source, as the built lex_cases; 3 megabytes where no number stands)

Where iverilog is installed, `iverilog -E` is timed on the same file. Then come texts that were made to be slow, and macros that double
themselves, which end at the limit of kept tokens.
"""
import os
import resource
import shutil
import subprocess
import sys
import tempfile
import time

MODULE = """
// A counter with a load, number {i}.
module counter_{i} #(parameter WIDTH = 8, parameter [WIDTH-1:0] START = 8'h0{d}) (
    input wire clk, input wire rst_n, (* keep *) input wire load,
    input wire [WIDTH-1:0] value,   /* what is loaded */
    output reg [WIDTH-1:0] count,
    output wire full
);
    wire [WIDTH-1:0] next = load ? value : count + {{{{(WIDTH-1){{1'b0}}}}, `ONE}};
    assign full = &count && !load || (count >= 8'd2{d}_0);
`ifdef SLOW
    wire [7:0] slow_{i} = count >>> 2;
`else
    wire [7:0] fast_{i} = count <<< 1;
`endif
    always @(posedge clk or negedge rst_n) begin
        if (!rst_n) count <= START;
        else if (load) count <= next;
        else case (value[1:0])
            2'b0{b}: count <= `HALF;
            2'b1{b}: count <= 8'b1010_0{b}0{b};
            default: count <= count ^ 8'hA{d};
        endcase
    end
endmodule
"""


def ordinary(target):
    parts, size, i = ["`timescale 1ns / 1ps\n`define ONE 1'b1\n`define HALF (8'd100 / 2)\n"], 0, 0
    while size < target:
        part = MODULE.format(i=i, d=i % 10, b=i % 2)
        parts.append(part)
        size += len(part)
        i += 1
    return "".join(parts)


def hostile(size):
    """Texts in which a part is near to many others, or waits for long."""
    yield "numbers before long white space", ("1" + " " * (size // 4)) * 4
    yield "bases without digits before white space", "4'b" * (size // 6) + " " * (size // 2) + ";"
    yield "a long comment", "/*" + "*" * size + "*/"
    yield "many brackets", "(" * (size // 2) + ")" * (size // 2)
    yield "an attribute that is not closed", "(*" + " a" * (size // 2)
    yield "open branches", "`ifdef X\n" * (size // 18) + "`endif\n" * (size // 18)
    yield "many macros", "".join(f"`define A{i} x\n`A{i}\n" for i in range(size // 24))
    yield "joined lines", "`define A" + " x\\\n" * (size // 5) + "\n`A"


def doubling(times):
    lines = ["`define A0 x"] + [f"`define A{i} `A{i - 1} `A{i - 1}" for i in range(1, times + 1)]
    return "\n".join(lines + [f"`A{times}", ""])


def timed(words):
    start = time.time()
    answer = subprocess.run(words, capture_output=True)
    seconds = time.time() - start
    peak = resource.getrusage(resource.RUSAGE_CHILDREN).ru_maxrss
    return answer.stdout, seconds, peak // 1024


def measure(folder, program, name, text):
    source = os.path.join(folder, "m.v")
    with open(source, "w") as out:
        out.write(text)
    answer, seconds, peak = timed([program, source])
    print(f"{name}: {answer[:60].decode().strip()}, {len(text)} bytes, {seconds:.2f} s, {len(text) / seconds / 1e6:.2f} MB/s, peak so far {peak} MB")
    return source


def main():
    program = sys.argv[1]
    target = int(float(sys.argv[2]) * 1e6) if len(sys.argv) > 2 else 3_000_000
    with tempfile.TemporaryDirectory() as folder:
        for part in (target // 4, target // 2, target):
            source = measure(folder, program, "ordinary Verilog", ordinary(part))
        if shutil.which("iverilog"):
            _, seconds, _ = timed(["iverilog", "-E", "-o", os.path.join(folder, "out.v"), source])
            print(f"iverilog -E on the last of these: {seconds:.2f} s")
        for name, text in hostile(target):
            measure(folder, program, name, text)
        for times in (21, 22, 23):
            measure(folder, program, f"a macro that doubles itself {times} times", doubling(times))


main()
