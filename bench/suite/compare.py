#!/usr/bin/env python3
"""Runs the families of the solver suite by each solver that is there, and prints a line a family.

    compare.py VSIL VSOLVE [STACKS [PROGRAMS]]

STACKS random stacks of each theory (2000) and PROGRAMS generated programs (500). A run ends after LIMIT seconds; what it answered by then
counts. A line tells how many questions there are, and of each solver how many it decided, with its seconds; and how many answers differ.
"""

import pathlib
import shutil
import subprocess
import sys
import tempfile
import time

import families

LIMIT = 60
STACKS_A_SCRIPT = 50


def solvers(vsolve):
    """The command of each solver that is there."""
    known = {"vsolve": [vsolve], "z3": ["z3", "-in"], "cvc5": ["cvc5", "--incremental"], "cvc4": ["cvc4", "--incremental", "--lang", "smt2"]}
    return {name: words for name, words in known.items() if shutil.which(words[0])}


def answers(command, script):
    """What a solver answers to the questions of a script, and how long it took."""
    start = time.monotonic()
    with tempfile.TemporaryFile() as put:
        child = subprocess.Popen(command, stdin=subprocess.PIPE, stdout=put, stderr=subprocess.DEVNULL)
        try:
            child.communicate(script.encode(), timeout=LIMIT)
        except subprocess.TimeoutExpired:
            child.kill()
            child.wait()
        taken = time.monotonic() - start
        put.seek(0)
        lines = put.read().decode().split("\n")
    return [line for line in lines if line in ("sat", "unsat", "unknown")], taken


class Row:
    """What the solvers made of a family."""

    def __init__(self, name):
        self.name = name
        self.asked = 0
        self.decided = {}
        self.seconds = {}
        self.differ = 0

    def add(self, commands, script):
        asked = script.count("(check-sat)")
        self.asked += asked
        given = []
        for name, command in commands.items():
            said, taken = answers(command, script)
            self.decided[name] = self.decided.get(name, 0) + sum(one != "unknown" for one in said)
            self.seconds[name] = self.seconds.get(name, 0) + taken
            given.append((said + ["unknown"] * asked)[:asked])
        self.differ += sum(len(set(one) - {"unknown"}) > 1 for one in zip(*given))
        return self

    def __str__(self):
        cells = "; ".join(f"{name} {count} in {self.seconds[name]:.2f} s" for name, count in self.decided.items())
        return f"{self.name}, {self.asked}: {cells}; {self.differ} differ"


def apart(stacks):
    """One script of stacks that know nothing of one another."""
    lines = ["(set-logic ALL)"]
    for stack in stacks:
        lines += ["(push 1)", *stack, "(check-sat)", "(pop 1)"]
    return "\n".join(lines) + "\n"


def of_stacks(commands, name, stacks):
    row = Row(name)
    for start in range(0, len(stacks), STACKS_A_SCRIPT):
        row.add(commands, apart(stacks[start : start + STACKS_A_SCRIPT]))
    print(row, flush=True)


def questions(vsil, text, folder):
    """The dialogue in which a program is verified, with z3 as the solver."""
    recorder = folder / "recorder"
    recorder.write_text(f'#!/bin/sh\ntee "{folder}/dialogue" | z3 -in\n')
    recorder.chmod(0o755)
    subprocess.run([vsil, "verify", "--solver", str(recorder)], input=text.encode(), stdout=subprocess.DEVNULL, check=False)
    return (folder / "dialogue").read_text()


def of_programs(commands, vsil, programs):
    with tempfile.TemporaryDirectory() as folder:
        for path in sorted((pathlib.Path(__file__).parents[2] / "examples").glob("*.vpr")):
            print(Row(path.name).add(commands, questions(vsil, path.read_text(), pathlib.Path(folder))), flush=True)
        row = Row("generated programs")
        for seed in range(programs):
            row.add(commands, questions(vsil, families.Program(seed).text(), pathlib.Path(folder)))
        print(row, flush=True)


def main():
    vsil, vsolve, *counts = sys.argv[1:]
    stacks, programs, *_ = [int(one) for one in counts] + [2000, 500][len(counts) :]
    commands = solvers(vsolve)
    of_programs(commands, vsil, programs)
    for theory in families.THEORIES:
        of_stacks(commands, f"random stacks, {theory}", [families.random_stack(theory, seed) for seed in range(stacks)])
    of_stacks(commands, "ten orders of each stack", [families.permuted(seed) for seed in range(stacks // 10 * 10)])
    of_stacks(commands, "one stack in six orders", [families.parity(order) for order in range(6)])
    of_stacks(commands, "knapsacks of five items", [families.knapsack(seed) for seed in range(50)])
    for name, (writer, sizes) in families.BY_SIZE.items():
        for size in sizes:
            of_stacks(commands, f"{name} of {size}", [writer(size)])


if __name__ == "__main__":
    main()
