#!/usr/bin/env python3
"""Makes plain Rust of the crates `settle` and `edge_clauses`, without their contracts, to measure the proved program beside it.

    bench/settle/port.py [FOLDER]

Writes the modules `settle`, `edge_clauses`, `falling::gap` and `event_graph::times` into FOLDER/src (this folder without it): the same
statements, over the vectors of Rust's own library (`src/shim.rs`). What they stand on, networks and their limits, is written by hand beside
them. `tools/dev/test-bench` tries that all of it compiles."""
import os
import re
import sys

HERE = os.path.dirname(os.path.abspath(__file__))
CRATES = os.path.join(HERE, "..", "..", "crates")


def without_contracts(text):
    lines, kept, at = text.split("\n"), [], 0
    while at < len(lines):
        line = lines[at].strip()
        if line.startswith("ghost "):
            while not lines[at].rstrip().endswith(";"):
                at += 1
        elif re.match(r"(requires|ensures)\b", line):
            while lines[at].strip() != "{":
                at += 1
            continue
        elif re.match(r"impl(<.*>)? (Model|fmt::Display|Error) for ", line):
            while not line.endswith("{}") and lines[at] != "}":
                at += 1
        elif not line.startswith(("#![tactic", "#[tactic", "//!")):
            kept.append(lines[at])
        at += 1
    return "\n".join(kept)


def as_rust(crate, text):
    text = re.sub(r"#\[derive\(Drop\)\]\n", "", without_contracts(text)).replace(", Drop)", ")")
    text = text.replace("crate::", f"crate::{crate}::").replace("pub mod laws;\n", "").replace("mod decided;\n", "")
    text = re.sub(r"pub use decided::.*\n", "", text)
    text = re.sub(r"\buse (itv_base|event_graph|falling|edge_clauses)::", r"use crate::\1::", text)
    text = re.sub(r"impl<T: Drop> From<AllocFailed<T>> for \w+ \{.*?\n\}\n", "", text, flags=re.S)
    text = re.sub(r"use std::(alloc|marker|error|fmt)[^;]*;\n", "", text)
    return "use crate::shim::*;\n" + text


def main():
    to = os.path.join(sys.argv[1] if len(sys.argv) > 1 else HERE, "src")
    files = [("settle", name) for name in os.listdir(f"{CRATES}/settle/src")]
    files += [("edge_clauses", name) for name in os.listdir(f"{CRATES}/edge_clauses/src") if name not in ("laws.rt", "decided.rt")]
    files += [("falling", "gap.rt"), ("event_graph", "times.rt")]
    for crate, name in files:
        os.makedirs(f"{to}/{crate}", exist_ok=True)
        with open(f"{CRATES}/{crate}/src/{name}", encoding="utf-8") as file:
            text = as_rust(crate, file.read())
        out = "mod.rs" if name == "lib.rt" else name.replace(".rt", ".rs")
        with open(f"{to}/{crate}/{out}", "w", encoding="utf-8") as file:
            file.write(text)


if __name__ == "__main__":
    main()
