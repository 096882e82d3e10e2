#!/usr/bin/env python3
"""What each command of flow costs: costs.py FOLDER-OF-FLOW. Prints a Markdown table: times on large tables, each the median of
five rounds of fifty runs, and their ratios to the time in which `true`, a program that does nothing, starts and ends."""
import os
import shutil
import subprocess
import sys
import tempfile
import time

ROUNDS, RUNS = 5, 50


def program(commands):
    """A program of so many commands, of all kinds that labels and masks ask about: seven nodes a command on average."""
    kinds = ["if s < {0} then x := x + 1 else skip", "y := a[x]", "a[y] := s", "while y < x do y := y + {0}"]
    return "var x, y\nsecret var s\narray a[8]\n" + ";\n".join(kinds[i % 4].format(i) for i in range(commands)) + "\n"


def milliseconds(arguments):
    rounds = []
    for _ in range(ROUNDS):
        start = time.perf_counter()
        for _ in range(RUNS):
            subprocess.run(arguments, stdout=subprocess.DEVNULL, check=True)
        rounds.append((time.perf_counter() - start) / RUNS * 1000)
    return sorted(rounds)[ROUNDS // 2]


def main():
    flow = os.path.join(os.path.abspath(sys.argv[1]), "flow")
    with tempfile.TemporaryDirectory() as folder:
        os.chdir(folder)
        nodes = {}
        for name, text in (("small", program(70)), ("large", program(560)), ("loop", "var x while x < 499999 do x := x + 1")):
            with open(name + ".flow", "w") as file:
                file.write(text)
            subprocess.run([flow, "assemble", "-o", name + ".tab", name + ".flow"], check=True)
            records = subprocess.run([flow, "list", "--nodes", name + ".tab"], capture_output=True, text=True, check=True).stdout
            nodes[name] = int(records.split("\n")[0].rsplit(" ", 1)[1])
        start = milliseconds([shutil.which("true")])
        print(f"| command | nodes | time, ms | to that of `true`, {start:.1f} ms |\n|---|---|---|---|")
        for name, *arguments in (
                ("small", "harden", "-o", "out.tab", "small.tab"), ("large", "list", "large.tab"),
                ("large", "assemble", "-o", "out.tab", "large.flow"), ("large", "sheet", "large.tab"),
                ("large", "ask", "large.tab", str(nodes["large"] - 1), "0"), ("large", "run", "large.tab", ""),
                ("loop", "run", "loop.tab", ""),
                ("small", "explain", "small.tab"), ("small", "attack", "small.tab", "step; step", "", ""),
                ("small", "attack", "--harden", "small.tab", "step; step", "", ""),
                ("small", "attack", "--rollback", "small.tab", "force; rollback", "", "")):
            taken = milliseconds([flow, *arguments])
            words = " ".join(argument if argument else "''" for argument in arguments)
            print(f"| `flow {words}` | {nodes[name]:,} | {taken:.1f} | {taken / start:.1f} |")


main()
