#!/usr/bin/env python3
"""Runs the plain search of bench/settle on random small networks of all kinds, beside a program that tries every choice of causes.

    bench/chances.py PROGRAM [COUNT [SEED]]

The networks have 2 to 8 events, loops, open ends, causes that repeat or that are the target itself, and ends of up to 10^13. PROGRAM takes a network as
lines. Each line of its proofs is checked as it is made, and a line that is refused ends the search as spent. Prints each network on which both differ, and
how many were closed, unbounded and inconsistent."""
import itertools
import random
import subprocess
import sys

from networks import Network

FAR = 10**13


def drawn(seed):
    rng = random.Random(seed)
    net = Network(f"seed {seed}", rng.randrange(2, 9))
    wide = rng.choice([4, 20, 20, 1000, FAR])
    open_share = rng.choice([0, 0.1, 0.3])

    def ends():
        one, other = sorted(rng.randrange(-wide // 2, wide) for _ in range(2))
        if rng.random() < 0.2:
            other = one
        return None if rng.random() < open_share else one, None if rng.random() < open_share else other

    choices = 1
    for _ in range(rng.randrange(1, 3 * net.events)):
        kind = rng.choice(["lin", "late", "early"])
        causes = [(rng.randrange(net.events), *ends()) for _ in range(1 if kind == "lin" else rng.randrange(1, 5))]
        if choices * len(causes) > 3000:
            continue
        choices *= len(causes)
        net.constraints.append((kind, rng.randrange(net.events), causes))
    net.rows = [(rng.randrange(net.events), rng.randrange(net.events))]
    return net


def bounds_by_cases(net):
    """The greatest separations of the row and of its reverse: numbers, infinite, or None if no times satisfy."""
    fixed, choices = [], []
    for kind, target, causes in net.constraints:
        upper = [[(a, target, high)] if high is not None else [] for a, _, high in causes]
        lower = [[(target, a, -low)] if low is not None else [] for a, low, _ in causes]
        for side, some in ((upper, kind == "late"), (lower, kind == "early")):
            if some and len(causes) > 1:
                choices.append(side)
            else:
                fixed += sum(side, [])
    best = None
    a, b = net.rows[0]
    for picked in itertools.product(*choices):
        least = distances(net.events, fixed + sum(picked, []))
        if least is not None:
            both = least[a][b], least[b][a]
            best = both if best is None else tuple(map(max, best, both))
    return best


def distances(events, edges):
    far = float("inf")
    least = [[0 if a == b else far for b in range(events)] for a in range(events)]
    for a, b, weight in edges:
        least[a][b] = min(least[a][b], weight)
    for middle in range(events):
        for a in range(events):
            by = least[a][middle]
            if by < far:
                row, other = least[a], least[middle]
                for b in range(events):
                    if by + other[b] < row[b]:
                        row[b] = by + other[b]
    return None if any(least[a][a] < 0 for a in range(events)) else least


def wanted(net):
    best = bounds_by_cases(net)
    if best is None:
        return ["finding inconsistent", "finding inconsistent"]
    say = lambda number, sign: "unbounded" if number == float("inf") else str(sign * number)
    return ["max " + say(best[0], 1), "min " + say(best[1], -1)]


def main():
    program = sys.argv[1]
    count = int(sys.argv[2]) if len(sys.argv) > 2 else 500
    first = int(sys.argv[3]) if len(sys.argv) > 3 else 1
    kinds = {"closed": 0, "unbounded": 0, "inconsistent": 0}
    differ = 0
    for seed in range(first, first + count):
        net = drawn(seed)
        done = subprocess.run([program, "2000000"], input=net.lines().encode(), capture_output=True)
        says, right = done.stdout.decode().splitlines(), wanted(net)
        if says != right:
            differ += 1
            print(f"{net.name}: {says} for {right}, status {done.returncode}")
        for line in right:
            kinds[line.split()[-1] if line.split()[-1] in kinds else "closed"] += 1
    print(f"{count} networks, {differ} differ;", ", ".join(f"{number} {kind}" for kind, number in kinds.items()))
    sys.exit(differ > 0)


if __name__ == "__main__":
    main()
