#!/usr/bin/env python3
"""Measures what the gate costs, crate by crate, in processor time.

  bench/gate.py                     runs `rt ci` from nothing, keeps what it measured in bench/gates/now.json, and writes docs/gate.md
  bench/gate.py [--kept] [NAME ..]  runs `rt ci [NAME ..]` and prints its table alone; with --kept over what earlier runs kept
  bench/gate.py --page              writes docs/gate.md from bench/gates/before.json and bench/gates/now.json, without a run
  bench/gate.py --ratio OLD NEW     prints two measurements crate by crate, with their ratio

Some toolchains keep what a run passed and some do not. For a run from nothing the first kind is given `--anew`. A run that did not pass is
printed and not kept. What `rt ci` prints goes to standard error, and the status is that of `rt ci`. In docs/gate.md the last section is
written by hand, and stays.
"""
import argparse
import json
import os
import sys

sys.dont_write_bytecode = True
TOP = os.path.dirname(os.path.dirname(os.path.realpath(__file__)))
GATES = os.path.join(TOP, "bench", "gates")
PAGE = os.path.join(TOP, "docs", "gate.md")
sys.path.insert(0, GATES)

import measuring
import page
import schedule


def load(path):
    with open(path, encoding="utf-8") as file:
        return json.load(file)


def kept_runs():
    """The runs that are kept, by their names."""
    paths = {name: os.path.join(GATES, f"{name}.json") for name in ("before", "now")}
    return {name: load(path) for name, path in paths.items() if os.path.exists(path)}


def write_page():
    """Writes docs/gate.md from the runs that are kept."""
    with open(PAGE, encoding="utf-8") as file:
        text = page.rewritten(file.read(), kept_runs())
    if text is None:
        sys.exit(f"gate: {PAGE} has no line '{page.BY_HAND}', below which it is written by hand, so it is left as it is")
    with open(PAGE, "w", encoding="utf-8") as file:
        file.write(text)


def keep(run):
    with open(os.path.join(GATES, "now.json"), "w", encoding="utf-8") as file:
        json.dump(run, file, indent=1)
        file.write("\n")


def measure(names, is_kept):
    """Runs the gate, prints its table, and keeps it where it is one of the whole gate from nothing. The status is that of `rt ci`."""
    run, status = measuring.measured(names, is_kept)
    print(page.by_crate(run))
    print(f"Processor minutes; {run['clock'] / 60:.1f} minutes by the clock on {run['processors']} processors: {run['result']}")
    if status == 0 and not names and run["is_from_nothing"]:
        print(f"By the model {schedule.seconds_by_the_clock(run['crates'], run['processors']) / 60:.1f} minutes by the clock.")
        keep(run)
        write_page()
    else:
        print("This is not kept: it is not a whole gate from nothing that passed.")
    return status


def main():
    parser = argparse.ArgumentParser(description=__doc__, formatter_class=argparse.RawDescriptionHelpFormatter)
    parser.add_argument("--kept", action="store_true")
    parser.add_argument("--page", action="store_true")
    parser.add_argument("--ratio", nargs=2, metavar=("OLD", "NEW"))
    parser.add_argument("names", nargs="*", metavar="NAME")
    words = parser.parse_args()
    if words.ratio:
        print(page.ratios(*map(load, words.ratio)), end="")
        return 0
    if words.page:
        write_page()
        return 0
    return measure(words.names, words.kept)


if __name__ == "__main__":
    sys.exit(main())
