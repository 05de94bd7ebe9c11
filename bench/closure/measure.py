#!/usr/bin/env python3
"""Measures the crate `minplus` beside an unproved Rust program of the same loop.

    bench/closure/measure.py [FOLDER] [RUNS]

Builds the Rust program of this folder with the machine's cargo three times: for cargo's own choice of processor, for the processor that
the toolchain builds for (x86-64-v2), and for this machine's. Builds the proved program of lanes/ on a copy of the crates below it in
FOLDER, a new one if none is named, which takes some minutes. Then all programs run one after another, RUNS times (15 if left out). Of
each time that they print, the least counts, in milliseconds."""
import os
import subprocess
import sys
import tempfile

HERE = os.path.dirname(os.path.abspath(__file__))
sys.path.append(os.path.dirname(HERE))
import proved


def build_rust(cpu):
    target = os.path.join(HERE, "target", cpu or "plain")
    flags = {"RUSTFLAGS": f"-C target-cpu={cpu}"} if cpu else {}
    subprocess.run(["cargo", "build", "--release", "--offline", "--quiet", "--target-dir", target],
                   cwd=HERE, check=True, env={**os.environ, **flags})
    return os.path.join(target, "release", "closure")


def main():
    folder = os.path.abspath(sys.argv[1]) if len(sys.argv) > 1 else tempfile.mkdtemp()
    runs = int(sys.argv[2]) if len(sys.argv) > 2 else 15
    programs = {"proved": proved.build(folder, "lanes", os.path.join(HERE, "lanes"), ["itv_base", "event_graph", "minplus"], ["anyhow"]), "Rust": build_rust(None),
                "Rust, x86-64-v2": build_rust("x86-64-v2"), "Rust, native": build_rust("native")}
    least, ends = {}, {}
    for _ in range(runs):
        for program, path in programs.items():
            for line in subprocess.run([path], capture_output=True, text=True, check=True).stdout.splitlines():
                what, took, end = line.rsplit(" ", 2)
                least[what, program] = min(least.get((what, program), sys.maxsize), int(took))
                ends.setdefault(what, set()).add(end)
    for what in ends:
        if what.startswith("closure") and len(ends[what]) != 1:
            sys.exit(f"{what}: the programs differ: {ends[what]}")
        shown = [f"{program} {least[what, program] / 1e6:.1f}" for program in programs if (what, program) in least]
        print(f"{what}: " + ", ".join(shown))


if __name__ == "__main__":
    main()
