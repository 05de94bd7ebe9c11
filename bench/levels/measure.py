#!/usr/bin/env python3
"""Measures the levels of the crate `diff_bounds` beside the unproved Rust program of bench/peer.

    bench/levels/measure.py [FOLDER] [RUNS]

Builds the Rust program with the machine's cargo, and the proved program of program/ on a copy of the crates below it in FOLDER, a new
one if none is named, which takes some minutes. Then both run one after another, RUNS times (15 if left out). Each goes down by an
edge of each of 290 constraints of a graph of 300 events, where the graph allows it, and back, a hundred times over, and prints its
nanoseconds, the levels, the edges that close a loop, and the sum of the labels of the last event, which have to be the same."""
import os
import subprocess
import sys
import tempfile

HERE = os.path.dirname(os.path.abspath(__file__))
BENCH = os.path.dirname(HERE)
sys.path.append(BENCH)
import proved


def build_rust():
    folder = os.path.join(BENCH, "peer")
    subprocess.run(["cargo", "build", "--release", "--offline", "--quiet"], cwd=folder, check=True)
    return os.path.join(folder, "target", "release", "peer")


def main():
    folder = os.path.abspath(sys.argv[1]) if len(sys.argv) > 1 else tempfile.mkdtemp()
    runs = int(sys.argv[2]) if len(sys.argv) > 2 else 15
    below = ["itv_base", "event_graph", "trail", "diff_bounds"]
    programs = {
        "proved": [proved.build(folder, "levels", os.path.join(HERE, "program"), below, ["anyhow"])],
        "Rust": [build_rust(), "levels"],
    }
    least, ends = {}, set()
    for _ in range(runs):
        for program, command in programs.items():
            _, took, *end = subprocess.run(command, capture_output=True, text=True, check=True).stdout.split()
            least[program] = min(least.get(program, sys.maxsize), int(took))
            ends.add(tuple(end))
    if len(ends) != 1:
        sys.exit(f"the programs differ: {ends}")
    levels, loops, _ = ends.pop()
    print(f"{levels} levels and {loops} loops: " + ", ".join(f"{program} {took / 1e6:.1f} ms" for program, took in least.items()))


if __name__ == "__main__":
    main()
