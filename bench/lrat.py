#!/usr/bin/env python3
"""Bytes per second and peak memory of `lrat` on logs of about 5 MB.

Usage: bench/lrat.py PROGRAM        (the built program, as conncheck)

Two formulas are made: a long chain of resolutions with two hints a step, and one whose steps have many hints.
"""
import os
import resource
import subprocess
import sys
import tempfile
import time


def chain(target):
    """x1, and x(i) implies x(i+1); the log derives each unit in turn, then the conflict."""
    variables, log, size = 1, [], 0
    while size < target:
        variables += 1
        size += 2 * len(str(variables)) + 3 * 8
    clauses = ["1 0"] + [f"-{i} {i + 1} 0" for i in range(1, variables)] + [f"-{variables} 0"]
    unit = 1
    for i in range(2, variables + 1):
        step = len(clauses) + i - 1
        log.append(f"{step} {i} 0 {unit} {i} 0")
        unit = step
    log.append(f"{unit + 1} 0 {unit} {len(clauses)} 0")
    return variables, clauses, log


def wide(target, width=200):
    """A ladder of `width` implications, derived again and again under new ids, then the conflict."""
    variables = width + 1
    clauses = ["1 0"] + [f"-{i} {i + 1} 0" for i in range(1, variables)] + [f"-{variables} 0"]
    hints = " ".join(str(i) for i in range(1, variables + 1))
    log, size, step = [], 0, len(clauses)
    while size < target:
        step += 1
        log.append(f"{step} {variables} 0 {hints} 0")
        size += len(log[-1]) + 1
    log.append(f"{step + 1} 0 {step} {len(clauses)} 0")
    return variables, clauses, log


def run(program, name, made):
    variables, clauses, log = made
    with tempfile.TemporaryDirectory() as folder:
        formula = os.path.join(folder, "f.cnf")
        proof = os.path.join(folder, "f.lrat")
        with open(formula, "w") as out:
            out.write(f"p cnf {variables} {len(clauses)}\n" + "\n".join(clauses) + "\n")
        with open(proof, "w") as out:
            out.write("\n".join(log) + "\n")
        size = os.path.getsize(formula) + os.path.getsize(proof)
        start = time.time()
        answer = subprocess.run([program, "lrat", formula, proof], capture_output=True, text=True)
        seconds = time.time() - start
        peak = resource.getrusage(resource.RUSAGE_CHILDREN).ru_maxrss
        print(f"{name}: {answer.stdout.strip()}, {size} bytes, {seconds:.2f} s, {size / seconds / 1e6:.1f} MB/s, peak {peak // 1024} MB")


if __name__ == "__main__":
    if len(sys.argv) != 2:
        sys.exit(__doc__)
    run(sys.argv[1], "chain", chain(3_000_000))
    run(sys.argv[1], "wide", wide(6_000_000))
