"""Writes docs/gate.md: what the gate costs now, by kind and by crate.

The last section of the page, from the line `BY_HAND` on, is written by hand and is kept as it stands.
"""
import textwrap

import measuring
import schedule

BY_HAND = "## Where the minutes go"

HEAD = """# The cost of the gate

`rt ci` from nothing proves each crate, tries its must-fail edits and runs the programs. This page says what that costs now, in processor minutes: the
user and system time of all processes. Minutes compare only on one machine, so the effect of a change is given as a ratio of two runs.
`bench/gate.py` writes this page from `bench/gates/now.json`. Only the last section is written by hand.

| need | command |
|---|---|
| measure the gate from nothing, and write this page | `bench/gate.py` |
| measure some crates and those below them, and print their table | `bench/gate.py NAME ..` |
| write this page from what was measured | `bench/gate.py --page` |
| compare two runs crate by crate | `bench/gate.py --ratio OLD NEW` |
"""

# How many crates the page lists: those that cost most.
MOST_LISTED = 20


def minutes(seconds):
    return f"{seconds / 60:.1f}"


def row(cells):
    return "|" + "".join(f" {cell} |" if cell else " |" for cell in cells) + "\n"


def table(head, rows):
    return row(head) + "|" + "---|" * len(head) + "\n" + "".join(row(cells) for cells in rows)


def sum_of(run, kind):
    """The processor seconds of all crates for one kind."""
    return sum(crate[kind] for crate in run["crates"].values())


def seconds_of(crate):
    """The processor seconds of a crate."""
    return sum(crate[kind] for kind in measuring.KINDS)


def by_crate(run, most=None):
    """The table of a run by crate, the dearest crate first: all crates, or the dearest ones."""
    crates = sorted(run["crates"].items(), key=lambda item: -seconds_of(item[1]))
    rows, listed = [], crates[:most]
    for name, crate in listed:
        cells = [minutes(crate[kind]) for kind in measuring.KINDS]
        rows.append([f"`{name}`", *cells, str(crate["number_of_edits"]), minutes(seconds_of(crate))])
    sums = [sum_of(run, kind) for kind in measuring.KINDS]
    number = sum(crate["number_of_edits"] for crate in run["crates"].values())
    others = f"{len(crates) - len(listed)} other crates" if listed != crates else "the rest"
    rows.append([others, *[""] * 4, minutes(run["whole"] - sum(seconds_of(crate) for _, crate in listed))])
    rows.append(["**all**", *map(minutes, sums), str(number), minutes(run["whole"])])
    return table(["crate", "proof", "edits", "tests", "number of edits", "minutes"], rows)


def run_table(run, before):
    """The run: where it was made, its sums, and its ratio to the run before."""
    lines = [
        ("machine", run["machine"]),
        ("toolchain", f"`{run['toolchain']}`"),
        ("date and commit", f"{run['date']}, `{run['commit']}`"),
        ("crates", str(len(run["crates"]))),
        ("must-fail edits", str(sum(crate["number_of_edits"] for crate in run["crates"].values()))),
        *((f"{kind}, processor minutes", minutes(sum_of(run, kind))) for kind in measuring.KINDS),
        ("all, processor minutes", minutes(run["whole"])),
        ("other work on the machine meanwhile, processor minutes", "not measured" if run["others"] is None else minutes(run["others"])),
        (f"minutes by the clock on {run['processors']} processors", minutes(run["clock"])),
        *((f"the same by the model of `bench/gates/schedule.py` on {number}", by_model(run, number)) for number in sorted({2, run["processors"]}, reverse=True)),
    ]
    if before:
        lines.append(("processor minutes as a ratio to the run of `bench/gates/before.json`", ratio_of(before["whole"], run["whole"])))
    return table(["the run", ""], lines)


def by_model(run, number):
    return minutes(schedule.seconds_by_the_clock(run["crates"], number))


def page_of(runs, by_hand):
    """The page of the run *now*, with what is written by hand at its end."""
    run = runs["now"]
    note = "\n" + textwrap.fill(run["note"], 158) + "\n" if run["note"] else ""
    parts = [HEAD, "## The run\n\n" + run_table(run, runs.get("before")) + note, "## By crate\n\n" + by_crate(run, MOST_LISTED)]
    return "\n".join([*parts, by_hand])


def rewritten(text, runs):
    """The page with new tables, and none where the text has no section that is written by hand."""
    at = text.find("\n" + BY_HAND)
    return None if at < 0 else page_of(runs, text[at + 1 :])


def ratio_of(old, new):
    return f"{new / old:.2f}" if old else ""


def ratios(old, new):
    """Two runs crate by crate, the greatest change first, and how fast the second machine is beside the first."""
    rows = []
    for name in {**old["crates"], **new["crates"]}:
        pair = [seconds_of(run["crates"][name]) if name in run["crates"] else 0.0 for run in (old, new)]
        rows.append((pair[1] - pair[0], [f"`{name}`", *map(minutes, pair), ratio_of(*pair)]))
    sums = [(f"all: {kind}", sum_of(old, kind), sum_of(new, kind)) for kind in measuring.KINDS] + [("**all**", old["whole"], new["whole"])]
    rows = [cells for _, cells in sorted(rows)] + [[what, *map(minutes, pair), ratio_of(*pair)] for what, *pair in sums]
    text = table(["crate", "first", "second", "ratio"], rows)
    same = [name for name in old["crates"] if new["crates"].get(name, {}).get("files") == old["crates"][name]["files"]]
    proofs = [sum(run["crates"][name]["proof"] for name in same) for run in (old, new)]
    if all(proofs):
        speed = proofs[1] / proofs[0]
        there = new["whole"] / speed
        text += f"\nThe proofs of the {len(same)} crates with the same files took {speed:.2f} times as long in the second run. So that run would take about\n"
        text += f"{there / 60:.0f} processor minutes on the first machine, {there / old['whole']:.2f} times the first run.\n"
    return text
