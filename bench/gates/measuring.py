"""Measures one run of `rt ci`: the processor seconds of each crate for its proof, its edits and its tests.

Every 0.2 s it reads the times of all processes that this `rt ci` has begun, from /proc. A process counts for the crate that its words name
after `--crate-name`, or else for its parent's. Its kind is `edits` where it checks a crate outside of the crate's own folder, as a must-fail
edit is tried on a copy; `tests` where it checks, builds or runs tests; and else `proof`, programs included. What a process used after its last
reading is in no row but in that of the rest: the rest is the whole time, which the system counts exactly, less all rows.
"""
import glob
import hashlib
import os
import re
import resource
import subprocess
import sys
import threading
import time

TOP = os.path.dirname(os.path.dirname(os.path.dirname(os.path.realpath(__file__))))
PAUSE = 0.2
TICKS = os.sysconf("SC_CLK_TCK")
KINDS = ("proof", "edits", "tests")
FOLDERS = ("src", "specs", "proofs")

# What `rt ci` says of work that it did not do again.
KEPT = "an earlier run on this machine"


class Process:
    """A process that was seen: its parent, the crate and the kind that it counts for, and its processor seconds at the last reading."""

    def __init__(self, parent):
        self.parent = parent
        self.crate = self.kind = None
        self.seconds = 0.0


def stat_of(pid):
    """The parent of a process, its start and its own processor seconds; none where it has ended."""
    try:
        with open(f"/proc/{pid}/stat") as file:
            fields = file.read().rsplit(")", 1)[1].split()
    except OSError:
        return None
    return int(fields[1]), int(fields[19]), (int(fields[11]) + int(fields[12])) / TICKS


def words_of(pid):
    """The words of a process, and the folder in which it runs."""
    try:
        with open(f"/proc/{pid}/cmdline", "rb") as file:
            words = file.read().decode(errors="replace").split("\0")
        return words, os.readlink(f"/proc/{pid}/cwd")
    except OSError:
        return [], ""


def crate_in(words, folder):
    """The crate that words and a folder name."""
    if "--crate-name" in words[:-1]:
        return words[words.index("--crate-name") + 1]
    for text in (folder, *words):
        found = re.search(r"/crates/([a-z][a-z0-9_]*)(?:/|$)", text)
        if found:
            return found.group(1)
    return None


def kind_in(words, folder):
    """The kind that words and a folder name."""
    if "--crate-name" in words[:-1]:
        name = words[words.index("--crate-name") + 1]
        if "/rt-edit" in folder or f"/crates/{name}/" not in folder + "/":
            return "edits"
        return "tests" if "--test" in words else "proof"
    return "tests" if any(os.path.basename(word) == "rattle-test" for word in words) else None


class Gate:
    """The processes of one `rt ci`, by their numbers and starts."""

    def __init__(self, root):
        self.root = root
        self.seen = {}
        self.current = {}

    def read(self):
        """Reads the times of all processes that the root has begun, or that those have begun."""
        stats = {int(name): stat for name in os.listdir("/proc") if name.isdigit() and (stat := stat_of(name))}
        self.current = {pid: (pid, stat[1]) for pid, stat in stats.items()}
        ours = {pid for pid, key in self.current.items() if pid == self.root or key in self.seen}
        grown = True
        while grown:
            more = {pid for pid, stat in stats.items() if pid not in ours and stat[0] in ours}
            ours, grown = ours | more, bool(more)
        for pid in sorted(ours, key=lambda pid: stats[pid][1]):
            self.note(pid, *stats[pid])

    def note(self, pid, parent, start, seconds):
        """Notes one reading of a process."""
        process = self.seen.setdefault((pid, start), Process(self.current.get(parent)))
        process.seconds = max(process.seconds, seconds)
        words, folder = words_of(pid)
        process.crate = crate_in(words, folder) or process.crate
        process.kind = kind_in(words, folder) or process.kind

    def of_nearest(self, process, what):
        """The crate or the kind of a process, or of the nearest process above it that has one."""
        while process:
            if getattr(process, what):
                return getattr(process, what)
            process = self.seen.get(process.parent)
        return None

    def table(self):
        """The processor seconds by crate and kind."""
        sums = {}
        for process in self.seen.values():
            crate, kind = self.of_nearest(process, "crate"), self.of_nearest(process, "kind") or "proof"
            if crate:
                row = sums.setdefault(crate, dict.fromkeys(KINDS, 0.0))
                row[kind] += process.seconds
        return sums


def sum_of_files(folder):
    """A sum of all that the proof of a crate reads in its folder."""
    total = hashlib.sha256()
    for path in sorted(path for part in FOLDERS for path in glob.glob(f"{folder}/{part}/**/*", recursive=True) if os.path.isfile(path)):
        with open(path, "rb") as file:
            total.update(f"{os.path.relpath(path, folder)} {hashlib.sha256(file.read()).hexdigest()}\n".encode())
    return total.hexdigest()[:16]


def crate_of(name, words, all_names):
    """What a table says of a crate beside its times: its edits, its lines of code, the crates on its line, and the sum of its files."""
    folder = os.path.join(TOP, "crates", name)
    lines = 0
    for path in glob.glob(f"{folder}/src/**/*.rt", recursive=True):
        with open(path, "rb") as file:
            lines += file.read().count(b"\n")
    return {"number_of_edits": len(glob.glob(f"{folder}/must-fail/*.edit")), "lines": lines,
            "below": [word for word in words if word in all_names], "files": sum_of_files(folder)}


def crates():
    """What a table says of each crate of crates.txt beside its times, in the order of that file."""
    with open(os.path.join(TOP, "crates.txt"), encoding="utf-8") as file:
        found = dict(re.findall(r"^([a-z][a-z0-9_]*)[^:\n]*:(.*)$", file.read(), re.M))
    return {name: crate_of(name, words.split(), found) for name, words in found.items()}


def output_of(*words):
    """What a command prints, on standard output and standard error; nothing where there is no such command."""
    try:
        return subprocess.run(words, cwd=TOP, stdin=subprocess.DEVNULL, stdout=subprocess.PIPE, stderr=subprocess.STDOUT, text=True).stdout
    except OSError:
        return ""


def commit():
    """The commit that stands here, with `-dirty` where a file differs from it; nothing where git does not say."""
    said = output_of("git", "describe", "--always", "--dirty", "--exclude", "*").strip()
    return said if re.fullmatch(r"[0-9a-f]+(-dirty)?", said) else ""


def machine():
    """The machine in words."""
    with open("/proc/cpuinfo") as file:
        model = re.search(r"^model name\s*:\s*(.*)$", file.read(), re.M)
    with open("/proc/meminfo") as file:
        memory = int(re.search(r"^MemTotal:\s*(\d+)", file.read()).group(1))
    return f"{model.group(1) if model else 'processors of unknown kind'}, {memory / 1e6:.0f} GB of memory"


def busy_seconds():
    """The processor seconds that all processes of the machine have used since it began."""
    with open("/proc/stat") as file:
        user, nice, system = file.readline().split()[1:4]
    return (int(user) + int(nice) + int(system)) / TICKS


def watch(command):
    """Runs a command, with what it prints on standard error: its processes, its lines and its status."""
    run = subprocess.Popen(command, cwd=TOP, stdin=subprocess.DEVNULL, stdout=subprocess.PIPE, text=True, errors="replace")
    lines = []

    def pass_on():
        for line in run.stdout:
            sys.stderr.write(line)
            lines.append(line.rstrip("\n"))

    reader = threading.Thread(target=pass_on)
    reader.start()
    gate = Gate(run.pid)
    while run.poll() is None:
        gate.read()
        time.sleep(PAUSE)
    reader.join()
    return gate, lines, run.returncode


def measured(names, is_kept):
    """One run of `rt ci` as a table, and its status. Without `is_kept` all is done from nothing, also by a toolchain that keeps work. A
    toolchain that keeps none knows neither `--anew` nor names."""
    keeps = "--anew" in output_of("rt", "help")
    if names and not keeps:
        sys.exit("gate: `rt ci` of this toolchain takes no names")
    anew = ["--anew"] if keeps and not is_kept else []
    began, busy = time.time(), busy_seconds()
    gate, lines, status = watch(["rt", "ci", *anew, *names])
    used = resource.getrusage(resource.RUSAGE_CHILDREN)
    whole, sums, nothing = used.ru_utime + used.ru_stime, gate.table(), dict.fromkeys(KINDS, 0.0)
    return {
        "machine": machine(),
        "processors": len(os.sched_getaffinity(0)),
        "toolchain": output_of("rt", "version").strip(),
        "date": time.strftime("%Y-%m-%d"),
        "commit": commit(),
        "is_from_nothing": not any(KEPT in line for line in lines),
        "result": lines[-1] if lines else "",
        "clock": round(time.time() - began, 1),
        "whole": round(whole, 1),
        "others": round(max(0.0, busy_seconds() - busy - whole), 1),
        "note": "",
        "crates": {name: {kind: round(sums.get(name, nothing)[kind], 1) for kind in KINDS} | crate
                   for name, crate in crates().items() if name in sums or not names},
    }, status
