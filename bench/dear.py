#!/usr/bin/env python3
"""Where the time of proving goes: `bench/dear.py ROOT [NUMBER]`.

ROOT is the folder of a repository or of one crate. Each function becomes 20 to 30 modules, and a check over `--incremental` keeps a file for each
module that it has checked. With one job, the time between a file and the file before it is what the module took. `rt check`, and `rt all check` for
all crates, keep them in `crates/NAME/out/incremental`; `rattle check --incremental out/kept` over the statements of the crates below keeps them
in `crates/NAME/out/kept`. Of a crate that has both, the folder with the newest file is read. A crate that was checked more than once over the same
folder gives times that mean nothing: remove its `out` first.

It prints the share of each kind of module, the share of each class of functions, and the functions that took the longest (40, or NUMBER), each
with its crate, its seconds, and the seconds of its two dearest kinds. All are seconds by the clock, so a busy machine makes them longer. What
passed before the first file of a crate (reading its sources and the libraries) is not counted.

Kinds: `Lts` the steps of a function, `Proof` the search at its goals, `Tie` what ties both together, `Answers` its file of answers; `lemmas` are the files
of `proofs/` that belong to no function, `stated` what the crate states. Classes: `new`, what a derive or an impl of Debug, PartialEq, Display and
others wrote, drops, and all others.

Exit statuses: 0; 1 nothing is kept there; 2 the words are wrong.
"""
import collections
import pathlib
import re
import sys

FOLDERS = ("kept", "incremental")
# What the last words of a module's name say of it. `Code.Mir` comes before `Code`.
KINDS = ("Code.Mir", "Code", "Lts", "Proof", "Tie", "Reads", "Layout", "Kinds", "Answers", "Invariants", "Met", "Statement", "Named", "TheLink", "Symbol",
         "Key", "Walk")
# The derived or written impl of a type is named by the type and the trait, as in `FaultDebug.fmt`.
IMPLS = ("Debug", "PartialEq", "Eq", "Hash", "Clone", "Copy", "Display", "Error", "Model", "Default", "Ord", "PartialOrd", "Iterator")


def modules_of(crate):
    """The modules that are kept of a crate, each with its seconds, in the order in which they were checked."""
    kept = [files for files in (sorted((path.stat().st_mtime_ns, path.name) for path in (crate / "out" / folder).rglob("*.oantt"))
                                for folder in FOLDERS) if files]
    if not kept:
        return
    before = None
    for stamp, name in max(kept, key=lambda files: files[-1]):
        if before is not None:
            yield re.sub(r"(\.decls)?\.oantt$", "", name), (stamp - before) / 1e9
        before = stamp


def split(module, crate):
    """The kind of a module, and the function that it belongs to, or ''."""
    found = re.fullmatch(rf"Rattle-{crate.name}-proofs\.(.+)", module)
    if not found:
        return "stated", ""
    if (crate / "proofs" / (found[1].replace(".", "/") + ".antt")).exists() and not found[1].endswith((".Answers", ".Invariants", ".Proof")):
        return "lemmas", ""
    for kind in KINDS:
        if found[1].endswith("." + kind):
            return kind, found[1][:-len(kind) - 1]
    return "others", ""


def class_of(function):
    """The class of a function: what it is by its name or by the impl that it stands in."""
    *owners, name = function.split(".")
    owner = owners[-1] if owners else ""
    if name == "drop" or "Destruct" in function:
        return "drops of types"
    if re.search(r"[a-z0-9]From[A-Z]", owner):
        return "impl of From"
    for word in IMPLS:
        if owner.endswith(word) and owner != word:
            return f"impl of {word}"
    return "new" if name == "new" else "others"


def add_up(crates):
    """The seconds of each kind, of each class, and of each function, with the function's own by kind."""
    kinds, classes, functions = collections.Counter(), collections.Counter(), collections.defaultdict(collections.Counter)
    for crate in crates:
        for module, seconds in modules_of(crate):
            kind, function = split(module, crate)
            kinds[kind] += seconds
            if function:
                classes[class_of(function)] += seconds
                functions[f"{crate.name}::{function.replace('.', '::')}"][kind] += seconds
    return kinds, classes, functions


def show(title, counter, total):
    print(f"\n{title}")
    for word, seconds in counter.most_common():
        print(f"  {seconds:8.1f} s  {100 * seconds / total:5.1f} %  {word}")


def main():
    if len(sys.argv) not in (2, 3) or sys.argv[1].startswith("-") or not (len(sys.argv) == 2 or sys.argv[2].isdigit()):
        print(__doc__, file=sys.stderr)
        return 2
    root = pathlib.Path(sys.argv[1]).resolve()
    folders = sorted((root / "crates").iterdir()) if (root / "crates").is_dir() else [root]
    crates = [folder for folder in folders if any((folder / "out" / word).is_dir() for word in FOLDERS)]
    kinds, classes, functions = add_up(crates)
    total = sum(kinds.values())
    if not total:
        print(f"dear: nothing is kept in {root}", file=sys.stderr)
        return 1
    print(f"{len(crates)} crates, {total:.0f} s of modules, {len(functions)} functions")
    show("by kind of module", kinds, total)
    show("by class of function", classes, total)
    print("\nthe dearest functions")
    ranked = sorted(functions.items(), key=lambda item: -sum(item[1].values()))
    for name, parts in ranked[:int(sys.argv[2]) if len(sys.argv) == 3 else 40]:
        dearest = ", ".join(f"{kind} {seconds:.1f}" for kind, seconds in parts.most_common(2))
        print(f"  {sum(parts.values()):8.1f} s  {name}  ({dearest})")
    return 0


if __name__ == "__main__":
    sys.exit(main())
