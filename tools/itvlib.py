"""What the tools of this folder share: running the program, reading its texts, and reading designs with the place of each thing in its file.

- `Fault`: what a tool refuses, in words.
- `picoseconds`, `in_unit`: times with a unit, in exact decimals.
- `table_of`: tables of comma-separated values, with the line of each record.
- `File`, `Sheet`, `Netlist`, `design_of`: the files of a design. Each edge, net, part, grade and number has its place, so that a message can name
  FILE:LINE:COL, and a number can be changed with the layout of the file kept (`edited`).
- `Program`: the program that the launcher beside this folder runs.
- `read_text`, `read_margin`, `read_lint`, `read_table`: the texts of the jobs.

The program decides what a design means and which one is refused. A reader here takes what the program accepts; of other texts it raises a Fault, or
leaves out what it does not understand.
"""
import csv
import dataclasses
import decimal
import io
import json
import json.decoder
import os
import re
import signal
import subprocess
import sys

TOP = os.path.dirname(os.path.dirname(os.path.realpath(__file__)))


class Fault(Exception):
    """What a tool refuses. Its text is for a person, and names the place."""


def after(prefix, text):
    """The text without these characters at its beginning, if it has them there."""
    return text[len(prefix) :] if text.startswith(prefix) else text


def end_with_reader():
    """Lets the tool end without a word when nobody reads its output any more, as in `tools/all .. | head`."""
    signal.signal(signal.SIGPIPE, signal.SIG_DFL)


def say(tool, text):
    """Says something on standard error, each line with the name of the tool before it."""
    sys.stdout.flush()
    for line in str(text).splitlines():
        sys.stderr.write(f"{tool}: {line}\n")


def stop(tool, text, status=1):
    """Says why a tool ends, and ends it."""
    say(tool, text)
    sys.exit(status)


# Files

def bytes_to_text(name, data):
    """The text of the bytes of a file, whose ends of lines stay as they are."""
    try:
        return data.decode("utf-8")
    except UnicodeDecodeError as error:
        raise Fault(f"{name} is not a text in UTF-8: byte {error.start}") from error


def text_of(name):
    """The text of a file, whose ends of lines stay as they are."""
    try:
        with open(name, "rb") as file:
            return bytes_to_text(name, file.read())
    except OSError as error:
        raise Fault(f"{name} cannot be read: {error.strerror}") from error


def write_text(name, text):
    """Writes a whole file. If that fails, the old file is as it was, and nothing is left beside it."""
    part = f"{name}.part"
    try:
        with open(part, "wb") as file:
            file.write(text.encode())
        if os.path.exists(name):
            os.chmod(part, os.stat(name).st_mode & 0o777)
        os.replace(part, name)
    except OSError as error:
        if os.path.exists(part):
            os.remove(part)
        raise Fault(f"{name} cannot be written: {error.strerror}") from error


def edited(text, edits):
    """The text with each edit (START, END, NEW): the characters from START to before END are replaced. No two may overlap."""
    for start, end, new in sorted(edits, reverse=True):
        text = text[:start] + new + text[end:]
    return text


def unedited(at, edits):
    """The offset before the edits of an offset after them. What is within new text comes from where this begins."""
    moved = 0
    for start, end, new in sorted(edits):
        if at < start + moved:
            break
        if at < start + moved + len(new):
            return start
        moved += len(new) - (end - start)
    return at - moved


# Times

# The power of ten by which a unit is greater than a picosecond.
UNITS = {"fs": -3, "ps": 0, "ns": 3, "us": 6, "ms": 9, "s": 12}
# The micro sign and the Greek letter.
SPELLINGS = {"\u00b5s": "us", "\u03bcs": "us"}
GREATEST = 10_000_000_000_000
NUMBER = re.compile(r"[+-]?(?:[0-9]+(?:\.[0-9]*)?|\.[0-9]+)(?:[eE][+-]?[0-9]{1,2})?")


def decimal_of(text):
    """A decimal number, without rounding."""
    if not NUMBER.fullmatch(text) or len(text) > 40:
        raise Fault(f"'{text}' is not a number")
    return decimal.Decimal(text)


EXACT = decimal.Context(prec=200, traps=[decimal.Inexact, decimal.InvalidOperation])


def picoseconds(text, unit):
    """The whole number of picoseconds of a text in a unit. A fraction of a picosecond, or more than a range can hold, is refused."""
    unit = SPELLINGS.get(unit, unit)
    if unit not in UNITS:
        raise Fault(f"'{unit}' is not a unit of time; the units are {', '.join(UNITS)}")
    value = EXACT.scaleb(decimal_of(text), UNITS[unit])
    if abs(value) > GREATEST:
        raise Fault(f"{text} {unit} is beyond {GREATEST} ps, which is the limit of a range")
    if value != value.to_integral_value():
        raise Fault(f"{text} {unit} is {EXACT.to_sci_string(value)} ps, and not a whole number of picoseconds")
    return int(value)


def in_unit(value, unit, digits=0):
    """Picoseconds as a decimal number of a unit, exact, with at least so many digits after the point."""
    power = UNITS[unit]
    sign, places = "-" if value < 0 else "", f"{abs(value):0{max(power, 0) + 1}d}"
    if power < 0:
        return sign + places + "0" * -power
    whole, rest = places[: len(places) - power], places[len(places) - power :].rstrip("0").ljust(digits, "0")
    return sign + whole + ("." + rest if rest else "")


# Tables

@dataclasses.dataclass
class Record:
    """A line of a table: its number, and its cells by the names of the columns, without the spaces around them."""

    line: int
    cells: dict


@dataclasses.dataclass
class Table:
    """A table of comma-separated values: its name, its columns in order, in small letters and as they are written, and its records."""

    name: str
    columns: list
    header: list
    records: list

    def fault(self, record, text):
        """What is wrong with a record, with its place."""
        return f"{self.name}:{record.line}: {text}"


def table_of(name):
    """The table of a file, whose first line names the columns. Columns are compared in small letters. A byte order mark is taken."""
    text = after("\ufeff", text_of(name))
    reader, lines, began = csv.reader(io.StringIO(text, newline=""), strict=True), [], 1
    try:
        for cells in reader:
            if any(cell.strip() for cell in cells):
                lines.append((began, [cell.strip() for cell in cells]))
            began = reader.line_num + 1
    except csv.Error as error:
        raise Fault(f"{name}:{began}: this is not a line of comma-separated values: {error}") from error
    if not lines:
        raise Fault(f"{name}:1: the table is empty")
    (first, header), *rest = lines
    columns = [cell.lower() for cell in header]
    twice = [column for column in columns if columns.count(column) > 1]
    if twice:
        raise Fault(f"{name}:{first}: column '{twice[0]}' is there twice")
    for line, cells in rest:
        if len(cells) != len(columns):
            raise Fault(f"{name}:{line}: there are {len(cells)} cells, and {len(columns)} columns")
    return Table(name, columns, header, [Record(line, dict(zip(columns, cells))) for line, cells in rest])


def refuse_all(faults):
    """Refuses what has these faults, if there are any, with a line for each."""
    if faults:
        raise Fault("\n".join(faults))


# JSON with places

@dataclasses.dataclass
class Value:
    """A value of a JSON file and its place: the offset of its first character, and the offset after its last one.

    `data` is a text, a number, True, False, None, a list of values, or a dictionary from keys to values. Of a key that is written twice it has the
    last value, as the program does.
    """

    start: int
    end: int
    data: object

    def get(self, key):
        """The value of a key of an object, or None."""
        return self.data.get(key) if isinstance(self.data, dict) else None

    def text(self, key):
        """The text of a key of an object; None if it is not there, or is no text."""
        value = self.get(key)
        return value.data if value is not None and isinstance(value.data, str) else None

    def items(self):
        """The values of a list; none if it is no list."""
        return self.data if isinstance(self.data, list) else []


SPACE = re.compile(r"[ \t\r\n]*")
WORD = re.compile(r"-?[0-9][0-9.eE+-]*|true|false|null")


def skip(text, at):
    return SPACE.match(text, at).end()


def value_at(text, at):
    """The value that begins at an offset of a text that is JSON."""
    if text[at] == '"':
        data, end = json.decoder.scanstring(text, at + 1)
    elif text[at] == "{":
        data, end = object_at(text, at)
    elif text[at] == "[":
        data, end = list_at(text, at)
    else:
        end = WORD.match(text, at).end()
        data = json.loads(text[at:end])
    return Value(at, end, data)


def list_at(text, at):
    values, at = [], skip(text, at + 1)
    while text[at] != "]":
        values.append(value_at(text, at))
        at = skip(text, values[-1].end)
        if text[at] == ",":
            at = skip(text, at + 1)
    return values, at + 1


def object_at(text, at):
    values, at = {}, skip(text, at + 1)
    while text[at] != "}":
        key, at = json.decoder.scanstring(text, at + 1)
        values[key] = value_at(text, skip(text, skip(text, at) + 1))
        at = skip(text, values[key].end)
        if text[at] == ",":
            at = skip(text, at + 1)
    return values, at + 1


def refuse_constant(word):
    raise ValueError(f"{word} is not JSON")


def root_of(name, text):
    """The value of a whole JSON file. What is no JSON is refused with its place."""
    try:
        json.loads(text, parse_constant=refuse_constant)
        return value_at(text, skip(text, 0))
    except json.JSONDecodeError as error:
        raise Fault(f"{name}:{error.lineno}:{error.colno}: this is not strict JSON: {error.msg}; tools/strict FILE prints WaveDrom's relaxed spelling as strict JSON") from error
    except ValueError as error:
        raise Fault(f"{name}: {error}") from error
    except RecursionError as error:
        raise Fault(f"{name}: the nesting is too deep") from error


PIECE = re.compile(r"\\u[dD][89abAB][0-9a-fA-F]{2}\\u[dD][c-fC-F][0-9a-fA-F]{2}|\\u[0-9a-fA-F]{4}|\\.|.", re.S)


def offset_in(text, value, place):
    """The offset in the file of character `place` of a text value, whatever escapes are before it."""
    at = value.start + 1
    for _ in range(place):
        at = PIECE.match(text, at).end()
    return at


# Designs

class File:
    """A file of a design: its name, its text, and its value with all places."""

    def __init__(self, name, text=None):
        self.name = name
        self.text = text_of(name) if text is None else text
        self.root = root_of(name, self.text)
        if not isinstance(self.root.data, dict):
            raise Fault(f"{name}: a design is an object")

    def place(self, offset):
        """FILE:LINE:COL of an offset, each counted from 1; columns count characters."""
        line = self.text.count("\n", 0, offset) + 1
        return f"{self.name}:{line}:{offset - self.text.rfind(chr(10), 0, offset)}"


def is_netlist(file):
    return file.root.get("itv") is not None


@dataclasses.dataclass
class Label:
    """A timing label: its kind, shift, tag, range or parameter, and note. An end that is open is None."""

    kind: str
    shift: int
    tag: str
    has_range: bool
    low: int
    high: int
    parameter: str
    note: str
    # Where the two ends, or the parameter with its `$`, are within the label.
    spans: tuple


END = r"\*|0|-?[1-9][0-9]*"
LABEL = re.compile(rf"@(lin|late|early|req)(?:\+([1-9][0-9]?))?(?::(\w{{1,16}}))? (?:\[({END}),({END})\]|(\$\w{{1,16}}))(?: (.*))?", re.S | re.A)
ASK = re.compile(r"@(ask)(?:\+([1-9][0-9]?))?(?::(\w{1,16}))?(?: (.*))?", re.S | re.A)


def end_of(text):
    """An end of a range in a label."""
    return None if text == "*" else int(text)


def end_text(end):
    """An end of a range as a label has it."""
    return "*" if end is None else str(end)


def label_of(text):
    """The label of a text that begins with `@`, or None if it is none."""
    found = LABEL.fullmatch(text)
    if found:
        kind, shift, tag, low, high, parameter, note = found.groups()
        spans = (found.span(6),) if parameter else (found.span(4), found.span(5))
        ends = (None, None) if parameter else (end_of(low), end_of(high))
        return Label(kind, int(shift or 0), tag, not parameter, *ends, parameter and parameter[1:], note or "", spans)
    found = ASK.fullmatch(text)
    if found:
        kind, shift, tag, note = found.groups()
        return Label(kind, int(shift or 0), tag, False, None, None, None, note or "", ())
    return None


@dataclasses.dataclass
class Edge:
    """An edge of a sheet or of a netlist: its number, its text, its two marks and its label. A comment has no label and no marks.

    `source` and `target` are marks, as `a`, and in a netlist `PART.a`. `begin` is where the label begins in the text, and `at` where in the file; of a
    comment, where its text begins.
    """

    number: int
    text: str
    source: str
    target: str
    label: Label
    value: Value
    begin: int
    at: int


def edge_of(file, number, value, words):
    """Edge `number`, whose label follows so many words. A label that is not of the form is refused with its place."""
    text = value.data
    if not isinstance(text, str):
        raise Fault(f"{file.place(value.start)}: edge {number} is not a text")
    pieces = text.split(" ", words)
    if len(pieces) <= words or not pieces[words].startswith("@"):
        return Edge(number, text, None, None, None, value, 0, value.start + 1)
    begin = len(text) - len(pieces[words])
    at = offset_in(file.text, value, begin)
    label = label_of(pieces[words])
    if label is None:
        raise Fault(f"{file.place(at)}: '{pieces[words]}' is not a label")
    source, target = (pieces[0][0], pieces[0][-1]) if words == 1 else pieces[:2]
    return Edge(number, text, source, target, label, value, begin, at)


def label_span(file, edge, k):
    """Where end k of the range of an edge is in the file, or its parameter."""
    start, end = edge.label.spans[k]
    return offset_in(file.text, edge.value, edge.begin + start), offset_in(file.text, edge.value, edge.begin + end)


@dataclasses.dataclass
class Lane:
    """A lane: its number, its name or None, its wave, its marks in order, each with its brick, and the title of the group it is in."""

    number: int
    name: str
    wave: str
    marks: list
    group: str
    value: Value


def lanes_of(value, group=None):
    """The lanes of a list of lanes and groups, in the order in which they are drawn, without numbers."""
    lanes = []
    for item in value.items():
        if isinstance(item.data, list):
            title = item.data[0].data if item.data and isinstance(item.data[0].data, str) else group
            lanes += lanes_of(item, title)
        elif isinstance(item.data, dict):
            marks = [(mark, brick) for brick, mark in enumerate(item.text("node") or "") if mark not in ". "]
            lanes.append(Lane(0, item.text("name") or None, item.text("wave"), marks, group, item))
    return lanes


LEVELS = {**dict.fromkeys("0lL", "low"), **dict.fromkeys("1hH", "high"), **dict.fromkeys("=23456789", "bus"), "z": "z", "u": "up", "d": "down"}
BEGINS = {**LEVELS, **dict.fromkeys("pP", "high"), **dict.fromkeys("nN", "low")}
ENDS = {**LEVELS, **dict.fromkeys("pP", "low"), **dict.fromkeys("nN", "high")}


def kind_of(wave, brick):
    """The kind of a mark at a brick of a wave: rise, fall, change, steady or bare."""
    if not wave or brick >= len(wave):
        return "bare"
    drawn = wave[: brick + 1].rstrip(".|")
    if drawn[-1:] in ("p", "P", "n", "N"):
        return "rise" if drawn[-1] in "pP" else "fall"
    if brick == 0:
        return "bare"
    if wave[brick] in ".|":
        return "steady"
    before = ENDS.get(wave[:brick].rstrip(".|")[-1:], "unknown")
    now = BEGINS.get(wave[brick], "unknown")
    if (before, now) in (("low", "high"), ("high", "low")):
        return "rise" if now == "high" else "fall"
    return "steady" if before == now and now != "bus" else "change"


class Sheet(File):
    """A sheet: its lanes, its edges and its grades, a dictionary from names to parameters to values of two ends."""

    def __init__(self, name, text=None):
        super().__init__(name, text)
        signal = self.root.get("signal")
        self.lanes = lanes_of(signal) if signal is not None else []
        for number, lane in enumerate(self.lanes):
            lane.number = number
        edges = self.root.get("edge")
        self.edges = [edge_of(self, number, value, 1) for number, value in enumerate(edges.items() if edges is not None else [])]
        grades = self.root.get("itv_grades")
        self.grades = grades.data if grades is not None and isinstance(grades.data, dict) else {}

    def lane_of(self, mark):
        """The lane of a mark, or None."""
        return next((lane for lane in self.lanes if any(mark == other for other, _ in lane.marks)), None)

    def pin(self, name):
        """The lane of a name that has marks, or None."""
        return next((lane for lane in self.lanes if lane.name == name and lane.marks), None)

    def kind(self, mark):
        """The kind of a mark."""
        lane = self.lane_of(mark)
        return kind_of(lane.wave, dict(lane.marks)[mark])

    def checked_grades(self):
        """The grades, if each is an object from names to lists of two, each a whole number or null."""
        grades = self.root.get("itv_grades")
        if grades is not None and not isinstance(grades.data, dict):
            raise Fault(f"{self.place(grades.start)}: itv_grades is not an object")
        for name, value in self.grades.items():
            if not isinstance(value.data, dict):
                raise Fault(f"{self.place(value.start)}: grade {name} is not an object")
            for key, ends in value.data.items():
                if [type(end.data) in (int, type(None)) for end in ends.items()] != [True, True]:
                    raise Fault(f"{self.place(ends.start)}: {key} of grade {name} is not a list of two, each a whole number or null")
        return self.grades

    def grade(self, name):
        """The ranges of a grade: from parameters to pairs of ends, None for an open one."""
        return {key: tuple(end.data for end in value.items()) for key, value in self.grades[name].data.items()}

    def range_of(self, edge, grade=None):
        """The range of an edge: what its label says, or what the grade gives to its parameter."""
        if edge.label.parameter is None:
            return edge.label.low, edge.label.high
        ranges = self.grade(grade) if grade in self.grades else {}
        if edge.label.parameter not in ranges:
            raise Fault(f"{self.place(edge.at)}: no grade gives a range to ${edge.label.parameter}")
        return ranges[edge.label.parameter]


@dataclasses.dataclass
class Part:
    """A part: its name, the name of its sheet as it is written, its grade or None, and its place."""

    name: str
    sheet: str
    grade: str
    value: Value


@dataclasses.dataclass
class Net:
    """A net: its number, its name or None, its pins as pairs of a part and a lane, its delay as a pair of ends or None, and its place."""

    number: int
    name: str
    pins: list
    delay: tuple
    value: Value


class Netlist(File):
    """A netlist: its version, its cycles, its parts, its nets and its wires, which are its edges.

    `folder` is where its sheets are looked for, see `folder_of`.
    """

    def __init__(self, name, text=None, base=""):
        super().__init__(name, text)
        self.version = self.number("itv")
        self.cycles = self.number("cycles")
        self.parts = [Part(value.text("name"), value.text("sheet"), value.text("grade"), value) for value in self.list("parts")]
        self.nets = [self.net(number, value) for number, value in enumerate(self.list("nets"))]
        self.wires = [edge_of(self, number, value, 2) for number, value in enumerate(self.list("edges"))]
        self.folder = folder_of(name, [part.sheet for part in self.parts if part.sheet], base)
        self.read = {}

    def number(self, key):
        value = self.root.get(key)
        return value.data if value is not None and type(value.data) is int else None

    def list(self, key):
        value = self.root.get(key)
        return value.items() if value is not None else []

    def net(self, number, value):
        pins = value.get("pins")
        pairs = [tuple(pin.data.split(".", 1)) for pin in (pins.items() if pins is not None else []) if isinstance(pin.data, str) and "." in pin.data]
        delay = value.get("delay")
        return Net(number, value.text("name"), pairs, tuple(end.data for end in delay.items()) if delay is not None else None, value)

    def part(self, name):
        """The part of a name, or None."""
        return next((part for part in self.parts if part.name == name), None)

    def path_of(self, part):
        """The path of the sheet of a part, from the current folder."""
        if not part.sheet:
            raise Fault(f"{self.place(part.value.start)}: part {part.name} has no sheet")
        return os.path.join(self.folder, part.sheet)

    def sheet(self, name):
        """The sheet of the part of a name; each file is read once."""
        path = self.path_of(self.part(name))
        if path not in self.read:
            self.read[path] = Sheet(path)
        return self.read[path]


def folder_of(name, sheets, base=""):
    """The folder in which the program has to run for a netlist that names these sheets: `base`, or the netlist's own. "" is the current folder.

    The names of sheets count from `base`. If none of the sheets exists from there, and all exist from the netlist's own folder, they count from that
    folder, as the launcher does it.
    """
    own = os.path.dirname(name)
    if not sheets or any(os.path.exists(os.path.join(base, sheet)) for sheet in sheets):
        return base
    return own if all(os.path.exists(os.path.join(own, sheet)) for sheet in sheets) else base


def design_of(name):
    """The sheet or the netlist of a file."""
    file = File(name)
    return Netlist(name, file.text) if is_netlist(file) else Sheet(name, file.text)


def part_of_event(event):
    """The part of an event, as `RAM` of `RAM.q@0`."""
    return event.split(".", 1)[0]


def mark_of_event(event):
    """The mark of an event, as `q` of `RAM.q@0`."""
    return event.split(".", 1)[1][0]


def cycle_of_event(event):
    """The cycle of an event, as 0 of `RAM.q@0`."""
    return int(event.rsplit("@", 1)[1])


def drawing_of(design, event, drawn):
    """The file and the edge that draw a row: `drawn` is `edge N` or `wire N`, and an edge is one of the sheet of the part of `event`."""
    kind, number = drawn.split(" ")[:2]
    if kind == "wire":
        return design, design.wires[int(number)]
    sheet = design.sheet(part_of_event(event)) if isinstance(design, Netlist) else design
    return sheet, sheet.edges[int(number)]


# The program

@dataclasses.dataclass
class Answer:
    """What a run of the program gave: its status, its text, and the lines of standard error."""

    status: int
    text: str
    said: list


UNPROVED = "UNPROVED: this program was built here without a proof; itv --prove proves it"


class Program:
    """The program that the launcher runs, or that ITV names. It is looked for once. As the launcher does, it says so if the program is not proved."""

    def __init__(self):
        self.path = os.environ.get("ITV")
        if not self.path:
            done = subprocess.run([os.path.join(TOP, "itv"), "--which"], capture_output=True, text=True, errors="replace", stdin=subprocess.DEVNULL)
            self.path = done.stdout.strip()
            if done.returncode or not self.path:
                lines = done.stderr.strip().splitlines()
                raise Fault(lines[-1] if lines else "there is no program")
            if os.path.basename(os.path.dirname(self.path)) == "quick":
                say("itv", UNPROVED)
        self.path = os.path.abspath(self.path)

    def run(self, words, folder="", quiet=False):
        """The answer to these words in a folder. With `quiet` the program says nothing on standard error."""
        env = {key: value for key, value in os.environ.items() if key not in ("ITV_QUIET", "ITV_HINTS")}
        if quiet:
            env["ITV_QUIET"] = "1"
        try:
            done = subprocess.run([self.path, *words], cwd=folder or None, env=env, capture_output=True, stdin=subprocess.DEVNULL)
        except OSError as error:
            raise Fault(f"{self.path} cannot be run: {error.strerror}") from error
        return Answer(done.returncode, done.stdout.decode(errors="replace"), done.stderr.decode(errors="replace").splitlines())


# Texts of jobs

@dataclasses.dataclass
class Bound:
    """A bound: `word` is number, unbounded, within or spent. A number has `value`; within has `limit` and `found`, None for none.

    `times` are the times after it, `steps` the lines of job why: from-event, to-event, weight and what draws it; `raised` are the events or numbers of
    its `raise` lines.
    """

    word: str
    value: int = None
    limit: int = None
    found: int = None
    times: list = None
    steps: list = dataclasses.field(default_factory=list)
    raised: list = dataclasses.field(default_factory=list)


@dataclasses.dataclass
class Row:
    """A row of a text of jobs bounds, settle, fall or why: its number, `ask` or `req`, its two events, the range, what draws it, and the answers.

    A slack that is `*` is None. `verdict` is None for a question.
    """

    number: int
    kind: str
    source: str
    target: str
    low: int
    high: int
    drawn: str
    max: Bound = None
    min: Bound = None
    verdict: str = None
    low_slack: int = None
    high_slack: int = None


@dataclasses.dataclass
class Text:
    """A text of jobs bounds, settle, fall or why. `finding` is the word after it, `end` the last word, or None if the text has no end."""

    form: str
    events: list
    finding: str
    times: list
    rows: list
    end: str


def bound_of(words):
    """The bound of the words after `max` or `min`."""
    if words[0] == "within":
        found = words[3] if len(words) > 3 else None
        return Bound("within", limit=end_of(words[1]), found=int(found) if found else None)
    return Bound(words[0]) if words[0] in ("unbounded", "spent") else Bound("number", int(words[0]))


def row_of(line):
    words = line.split(" ", 5)
    number, kind, source, target = int(words[1]), words[2], words[3], words[4]
    rest = words[5] if len(words) > 5 else ""
    if kind == "ask":
        return Row(number, kind, source, target, None, None, rest)
    ends, _, drawn = rest.partition(" ")
    low, high = ends[1:-1].split(",")
    return Row(number, kind, source, target, end_of(low), end_of(high), drawn)


def add_line(text, bound, line):
    """Takes a line of a text into it. The bound that the next `times`, `step` and `raise` lines are about."""
    word, _, rest = line.partition(" ")
    words = rest.split(" ")
    row = text.rows[-1] if text.rows else None
    if word == "event":
        text.events.append(words[1])
    elif word == "finding":
        text.finding = rest
    elif word == "end":
        text.end = rest
    elif word == "row":
        text.rows.append(row_of(line))
        return None
    elif word in ("max", "min") and row is not None:
        bound = bound_of(words)
        setattr(row, word, bound)
    elif word == "verdict" and row is not None:
        row.verdict = rest
        return None
    elif word == "slack" and row is not None:
        row.low_slack, row.high_slack = map(end_of, words)
    elif word == "times" and row is None:
        text.times = list(map(int, words))
    elif word == "times" and bound is not None:
        bound.times = list(map(int, words))
    elif word == "step" and bound is not None:
        bound.steps.append((words[0], words[1], int(words[2]), " ".join(words[3:])))
    elif word == "raise" and bound is not None:
        bound.raised += words
    return bound


def read_text(lines):
    """A text of job bounds, settle, fall or why. Lines of proofs are left out."""
    form, _, rest = lines.partition("\n")
    text, bound = Text(form, [], None, None, [], None), None
    for line in rest.splitlines():
        bound = add_line(text, bound, line)
    return text


@dataclasses.dataclass
class Margin:
    """A line of job margin: its word (low, high, down, up), how far (a number of picoseconds, or *, none, limit, spent), the number it is about as
    `RAM edge 0`, `net 0` or `wire 0`, its range as drawn, the row that breaks next or None, and the note."""

    word: str
    reach: object
    subject: str
    low: int
    high: int
    row: int
    note: str


MARGIN = re.compile(rf"(low|high|down|up) (\S+) (\w+ edge \d+|net \d+|wire \d+) \[({END}),({END})\](?: row (\d+))?(?: (.*))?", re.A)


def read_margin(text):
    """The finding, the lines and the last word of a text of job margin."""
    finding, lines, end = None, [], None
    for line in text.splitlines():
        found = MARGIN.fullmatch(line)
        if found:
            word, reach, subject, low, high, row, note = found.groups()
            reach = int(reach) if re.fullmatch(r"-?\d+", reach) else reach
            lines.append(Margin(word, reach, subject, end_of(low), end_of(high), int(row) if row else None, note or ""))
        elif line.startswith("finding "):
            finding = line[len("finding ") :]
        elif line.startswith("end "):
            end = line[len("end ") :]
    return finding, lines, end


def read_lint(text):
    """The warnings of a text of job lint, each without its first word, and the last word: clean or noted."""
    lines = text.splitlines()
    last = lines[-1].split(" ") if lines else []
    return [line[len("warning ") :] for line in lines if line.startswith("warning ")], last[1] if last[:1] == ["end"] else None


@dataclasses.dataclass
class Line:
    """A line of job brief: the rows of the cycles from `first` to `last` that one edge draws. A slack that is `*` is None."""

    number: int
    kind: str
    source: str
    target: str
    low: int
    high: int
    least: str
    greatest: str
    verdict: str
    low_slack: int
    high_slack: int
    drawn: str
    note: str
    grade: str
    is_ordered: bool
    first: int
    last: int

    def rows(self):
        """How many rows the line has."""
        return self.last - self.first + 1

    def slacks(self):
        """The slacks that are numbers."""
        return [slack for slack in (self.low_slack, self.high_slack) if slack is not None]

    def is_unbounded(self):
        return "unbounded" in (self.least, self.greatest)


def read_table(text):
    """The lines of a text of job brief with --csv."""
    lines = []
    for cells in list(csv.reader(io.StringIO(text, newline="")))[1:]:
        number, kind, source, target, low, high, least, greatest, verdict, low_slack, high_slack, drawn, note, grade, order, first, last = cells
        ends = [end_of(cell) if cell else None for cell in (low, high, low_slack, high_slack)]
        lines.append(Line(int(number), kind, source, target, *ends[:2], least, greatest, verdict, *ends[2:], drawn, note, grade, order == "order", int(first), int(last)))
    return lines
