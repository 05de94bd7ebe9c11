#!/usr/bin/env python3
"""Measures tools/trace beside a plain script, and prints the lines of the table of docs/speed.md.

  bench/trace.py [RUNS ..]

Captures of so many reads of a memory, as examples/sram-read.json draws them, are made here; without numbers of 1,000, 10,000 and 40,000. The plain script knows
this drawing and nothing else. Both are run one after another, and have to find the same times. A time is the least of three runs, in processor seconds with
those of the programs that the tool runs.
"""
import os
import random
import resource
import subprocess
import sys
import tempfile

sys.dont_write_bytecode = True

import tables

TOP = os.path.dirname(os.path.dirname(os.path.abspath(__file__)))
HEAD = """$timescale 1ps $end
$scope module board $end
$var wire 16 ! addr [15:0] $end
$var wire 1 " ce_n $end
$var wire 1 # oe_n $end
$var wire 16 $ dq [15:0] $end
$upscope $end
$enddefinitions $end
#0
b0 !
1"
1#
bz $
"""

# What somebody would write for this drawing alone: it prints the times of a s o h v z for each run.
PLAIN = '''
import sys
now, run, lines = 0, None, []
for line in open(sys.argv[1]):
    if line[0] == "#":
        now = int(line[1:])
    elif line.endswith("!\\n") and now:
        run = {"a": now}
    elif run and line == '0"\\n':
        run["s"] = now
    elif run and line[1:] == "#\\n":
        run["o" if line[0] == "0" else "h"] = now
    elif run and line == "bz $\\n":
        run["z"] = now
        print("times", *(run[mark] for mark in "asohvz"))
        run = None
    elif run and line.endswith("$\\n"):
        run["v"] = now
'''


def capture(count):
    """A capture of so many reads."""
    rng, lines, begin = random.Random(count), [HEAD], 1000
    for read in range(1, count + 1):
        s, o = begin + rng.randrange(1, 2000), begin + rng.randrange(1, 7000)
        first = max(s, o) + rng.randrange(1, 900)
        v = first + rng.randrange(1, 9000)
        h = max(begin + 20000, v + 100)
        z = h + rng.randrange(1, 7000)
        changes = [(begin, f"b{read % 65536:b} !"), (s, '0"'), (o, "0#"), (first, f"b{read * 7 % 65521:b} $"), (v, f"b{read * 7 % 65521 + 1:b} $"), (h, "1#"),
                   (h + 500, '1"'), (z, "bz $")]
        lines += [f"#{time}\n{change}\n" for time, change in sorted(changes)]
        begin = max(z, h + 500) + rng.randrange(3000, 9000)
    return "".join(lines)


def least(words):
    """The least processor seconds of three runs, and what they print."""
    seconds = []
    for _ in range(3):
        before = resource.getrusage(resource.RUSAGE_CHILDREN)
        text = subprocess.run(words, cwd=TOP, stdout=subprocess.PIPE, stderr=subprocess.DEVNULL, check=True).stdout
        after = resource.getrusage(resource.RUSAGE_CHILDREN)
        seconds.append(after.ru_utime + after.ru_stime - before.ru_utime - before.ru_stime)
    return min(seconds), text


def main():
    counts = list(map(int, sys.argv[1:])) or [1000, 10_000, 40_000]
    tables.row(["reads", "bytes", "tools/trace", "plain script", "times"])
    with tempfile.TemporaryDirectory() as folder:
        path = os.path.join(folder, "capture.vcd")
        for count in counts:
            tables.lay_out({"capture.vcd": capture(count), "plain.py": PLAIN}, folder)
            took, text = least([os.path.join(TOP, "tools", "trace"), path, "examples/sram-read.json"])
            plain, wanted = least([sys.executable, os.path.join(folder, "plain.py"), path])
            same = "same" if text == wanted and text.count(b"\n") == count else "DIFFERENT"
            tables.row([f"{count:,}", f"{os.path.getsize(path):,}", tables.seconds_of(took), tables.seconds_of(plain), same])


if __name__ == "__main__":
    main()
