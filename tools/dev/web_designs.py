"""The designs that the tests of the page open: those that are drawn, wrong labels and nets, and large ones."""
import glob
import json
import os

from designs import text_from_top

TOP = os.path.dirname(os.path.dirname(os.path.dirname(os.path.abspath(__file__))))


def text_of(name):
    with open(os.path.join(TOP, name), encoding="utf-8") as file:
        return file.read()


def examples_text():
    """All files of the examples by their names."""
    paths = glob.glob(os.path.join(TOP, "examples", "**", "*"), recursive=True)
    return {name: text_from_top(name) for name in sorted(os.path.relpath(path, TOP) for path in paths if os.path.isfile(path))}


def drawn_designs():
    """Designs that are drawn in tests: a name, and the design and its files."""
    texts = {name: text for name, text in examples_text().items() if name.endswith(".json")}

    def example(name, **changed):
        design = dict(json.loads(texts[name]), **changed)
        sheets = {part["sheet"]: texts[part["sheet"]] for part in design.get("parts", [])}
        return name, {name: json.dumps(design), **sheets}

    def sheet(tree):
        return "sheet.json", {"sheet.json": json.dumps(tree)}

    return {
        "passes": example("examples/sram-write.json"),
        "fails": example("examples/shared-bus.json"),
        "inconsistent": example("examples/contradiction.json"),
        "unbounded": sheet(unbounded()),
        "two cycles": example("examples/cpu-sram.json"),
        "64 cycles": example("examples/cpu-sram-fast.json", cycles=64),
        "groups": example("examples/two-masters.json"),
        "93 marks": sheet(many_marks()),
    }


def unbounded():
    """An answer that nothing bounds: no rule says how late the data comes."""
    lanes = [
        {"name": "CLK", "wave": "P.|.", "node": ".c"},
        {"name": "DATA", "wave": "x.=.", "node": "..v", "data": ["a value"]},
        {"name": "BUSY", "wave": "u.d.", "node": "..b"},
    ]
    return {"signal": lanes, "edge": ["c~>v @lin [3000,*] tCO", "v~>b @lin [0,2000] tB", "c->v @ask clock to data", "c->b @req [0,20000] busy in time"]}


def many_marks():
    """A sheet with as many marks as there are, in a chain over six lanes, some of whose names are long."""
    marks = [chr(code) for code in range(33, 127) if chr(code) != "."]
    lanes = [{"name": f"lane {number}" + " with a long name" * (number % 2), "wave": "0" * 94, "node": ["."] * 94} for number in range(6)]
    for place, mark in enumerate(marks):
        lanes[place % 6]["node"][place + 1] = mark
    for lane in lanes:
        level, wave = 0, []
        for char in lane["node"]:
            level = level if char == "." else 1 - level
            wave.append("." if wave and char == "." else str(level))
        lane["wave"], lane["node"] = "".join(wave), "".join(lane["node"])
    rules = [f"{first}->{second} @lin [100,{200 + place}]" for place, (first, second) in enumerate(zip(marks, marks[1:]))]
    rows = [f"{marks[first]}->{marks[second]} @req [{50 * (second - first)},*] from {first} to {second}" for first, second in ((0, 92), (10, 12), (3, 40))]
    return {"signal": lanes, "edge": rules + rows}


def fourteen_rows():
    """A sheet with fourteen requirements on fourteen lanes, half of which fail."""
    letters = "abcdefghijklmno"
    lanes = [{"name": f"lane {letter}", "wave": "0" + "." * place + "1" + "." * (14 - place), "node": "." * (place + 1) + letter}
             for place, letter in enumerate(letters)]
    rules = [f"{first}~>{second} @lin [1000,{2000 + 100 * place}] t{place}" for place, (first, second) in enumerate(zip(letters, letters[1:]))]
    rows = [f"a->{letter} @req [{1000 * (place + 1) + (500 if place % 2 else 0)},*] r{place}" for place, letter in enumerate(letters[1:])]
    return {"signal": lanes, "edge": rules + rows}


def layers(count, width):
    """A network of layers: units of an odd layer wait for two of the layer before, and those of an even one for the first of two."""
    files, parts, nets, wires = {}, [], [], []
    pins = [{"name": f"u{k}", "wave": "01", "node": "." + chr(97 + k)} for k in range(width)]
    following = [{"name": f"v{k}", "wave": "01", "node": "." + chr(65 + k)} for k in range(width)]
    for kind in ("late", "early"):
        edges = [f"{chr(97 + k)}->{chr(65 + (k + step) % width)} @{kind} [{500 + 37 * k + 11 * step},{900 + 53 * k + 29 * step}]"
                 for k in range(width) for step in (0, 1)]
        files[f"{kind}.json"] = json.dumps({"signal": pins + following, "edge": edges})
    first = [f"a->{chr(97 + k)} @lin [{100 * k},{100 * k + 250}]" for k in range(1, width)]
    files["first.json"] = json.dumps({"signal": pins, "edge": first})
    parts.append({"name": "F", "sheet": "first.json"})
    before, lane = "F", "u"
    for layer in range(count):
        parts.append({"name": f"L{layer}", "sheet": ("late.json", "early.json")[layer % 2]})
        nets += [{"pins": [f"{before}.{lane}{k}", f"L{layer}.u{k}"], "delay": [0, 50]} for k in range(width)]
        before, lane = f"L{layer}", "v"
    wires = [f"F.a {before}.A @ask", f"F.a {before}.A @req [*,1000000] in a microsecond"]
    files["net.json"] = json.dumps({"itv": 1, "cycles": 1, "parts": parts, "nets": nets, "edges": wires})
    return "net.json", files


def sheet_with(edge, **keys):
    return {"signal": [{"name": "A", "wave": "01", "node": ".a"}, {"name": "B", "wave": "01", "node": ".b"}], "edge": ["a->b @lin [0,5]", edge], **keys}


# Wrong labels, and a part of what the program says of each.
LABELS = {
    "a->b @lin [0, 2000]": "remove the space after the comma",
    "a->b @lin[0,2000]": "expected a space here",
    "a->b @lin [0,2.5]": "'2.5' is not a whole number",
    "a->b @lin 0..2000": "a range is in brackets",
    "a->b @linear [0,2]": "there is no kind 'linear'",
    "a->b @LIN [0,2]": "there is no kind 'LIN'",
    "a->b @lin [2000]": "a range has two ends",
    "a->b @lin [0,inf]": "'inf' is not a whole number: an open end is *",
    "a->b @lin [0,]": "an end is missing: an open end is *",
    "a->b @lin [2,*]ns": "expected a space between the range and the note",
    "a->b @lin $tAA": '$ needs a netlist with "itv": 2',
    "a->b @lin": "expected a range here",
    "a->b @lin+65 [0,2]": "a whole number from 1 to 64",
    "a->b @lin [9,2]": "the low end is above the high end",
    "a->k @lin [0,2]": "no lane has the mark k",
}


# Wrong nets, and a part of what the program says of each.
NETS = {
    '{ "pins": ["A.X", "B.Y"] }': "there is no part 'A'",
    '{ "pins": ["CPU.ADDR", "RAM.NO"] }': "part RAM has no lane 'NO' with a mark",
    '{ "pins": ["CPU.ADDR", "RAM.ADDR"], "delay": 300 }': "expected a list of two ends",
    '{ "pins": ["CPU.ADDR", "RAM.ADDR"], "delay": [0, "*"] }': "an open end of a list is null",
    '{ "pins": ["CPU.ADDR", "ADDR"] }': "expected a text PART.LANE",
    '{ "pins": ["CPU.ADDR", "RAM.ADDR"], "delay": [300, 100] }': "the low end is above the high end",
}


# A report whose rows pass, fail with a slack, pass closely, are left open by the budget, fail beyond it, fail unbounded, and ask.


def sixteen_parts():
    """Sixteen parts of one sheet in a row, each with a requirement: the name of the netlist, and its files."""
    names = "ABCDEFGHIJKLMNOP"
    lanes = [("CLK", "p.", "c"), ("IN", "x=", ".i"), ("OUT", "x.=", "..o")]
    sheet = {"signal": [{"name": name, "wave": wave, "node": node} for name, wave, node in lanes],
             "edge": ["c->c @lin+1 [20000,20000] clock", "i~>o @lin [300,900] tPD", "o->c @req+1 [1500,*] tSU"]}
    nets = [{"name": f"{first}{second}", "pins": [f"{first}.OUT", f"{second}.IN"], "delay": [100, 300]} for first, second in zip(names, names[1:])]
    nets.append({"name": "CLOCK", "pins": [f"{name}.CLK" for name in names], "delay": [0, 0]})
    board = {"itv": 1, "cycles": 2, "parts": [{"name": name, "sheet": "stage.json"} for name in names], "nets": nets, "edges": ["A.c A.i @lin [500,1000] tCO"]}
    return "board.json", {"board.json": json.dumps(board, indent=1), "stage.json": json.dumps(sheet, indent=1)}


ROWS = """itv report 1
budget 9
events 2
event 0 U.a@0
event 1 U.b@0
finding consistent
times 0 5
rows 7
row 0 req U.a@0 U.b@0 [0,9]
max 6
times 0 6
min 5
times 0 5
verdict pass
slack 5 3
row 1 req U.a@0 U.b@0 [7,9]
max 6
times 0 6
min 5
times 0 5
verdict fail low
times 0 5
slack -2 3
row 2 req U.a@0 U.b@0 [4,9]
max 6
times 0 6
min 5
times 0 5
verdict pass
slack 1 3
row 3 req U.a@0 U.b@0 [0,9]
max within 12 found 6
times 0 6
min 5
times 0 5
verdict undecided
slack 5 *
row 4 req U.a@0 U.b@0 [0,8]
max within * found 12
times 0 12
min 5
times 0 5
verdict fail high
times 0 12
slack 5 *
row 5 req U.a@0 U.b@0 [0,9]
max unbounded
times 0 70
raise 1
min 5
times 0 5
verdict fail high
times 0 70
slack 5 *
row 6 ask U.a@0 U.b@0
max within 8 found 6
times 0 6
min within *
end fail
"""
