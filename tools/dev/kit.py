"""What the tools of this folder share: the toolchain, the crates of crates.txt, their sums, and the words that have a crate checked."""
import hashlib
import pathlib
import re
import subprocess

FOLDERS = ("src", "specs", "proofs")

# What a program is compiled for and linked with: every x86-64 processor, and each glibc from this one on.
TARGET, CPU, GLIBC = "x86_64-unknown-linux-gnu", "x86-64", (2, 28)
START = pathlib.Path(__file__).resolve().parent / "start.c"
C_FLAGS = [f"--target={TARGET}", f"-march={CPU}", "--no-default-config", "-fintegrated-cc1", "-ffreestanding", "-nostdinc", "-fPIE", "-O2", "-Wall", "-Wextra",
           "-Werror", "-c", "-x", "c"]


class Unfit(Exception):
    """The toolchain is not there, or not as these tools know it."""


class Kit:
    """The toolchain: its folder and its line."""

    def __init__(self):
        try:
            page = subprocess.run(["rt", "doc"], capture_output=True, text=True, check=True).stdout.strip()
        except (OSError, subprocess.CalledProcessError) as error:
            raise Unfit("rt is not on the PATH, or does not say where its pages are") from error
        self.folder = pathlib.Path(page).parent
        self.line = (self.folder / "KIT-ID").read_text().splitlines()[0] if (self.folder / "KIT-ID").exists() else ""
        self.rattle = self.folder / "bin" / "rattle"
        self.link = self.folder / "bin" / "rattle-link"

    def needs(self, verb, flags, paths):
        """Stops where the toolchain lacks one of these paths, or its `rattle VERB` one of these flags."""
        wanted = [self.rattle, *(self.folder / path for path in ("rlibs/std.rlib", "logic_built", "rattle/logic/antt-project.json", *paths))]
        lacking = [str(path) for path in wanted if not path.exists()]
        if lacking:
            raise Unfit("the toolchain has no " + ", ".join(lacking))
        words = subprocess.run([self.rattle, verb, "--help"], capture_output=True, text=True, check=False).stdout
        lacking = [flag for flag in ("--logic-built", "--jobs", "--links", "--antt-project", *flags) if flag not in words]
        if lacking:
            raise Unfit(f"rattle {verb} has no " + ", ".join(lacking))

    def links(self, program_object, program, log):
        """Links an object file to a program that starts with each glibc from GLIBC on. Whether that was done. The log is an open file."""
        start = program_object.parent / "start.o"
        for words in ([self.folder / "toolchain/bin/clang", *C_FLAGS, START, "-o", start],
                      [self.link, "--target", TARGET, "--toolchain", self.folder / "toolchain", "-o", program, program_object, start,
                       self.folder / "c/libos_c.a", self.folder / "c/liblibc_c.a"]):
            if subprocess.run(words, stdin=subprocess.DEVNULL, stdout=log, stderr=log, check=False).returncode != 0:
                return False
        return True

    def has(self, library):
        return (self.folder / "rlibs" / f"{library}.rlib").exists()


class Crate:
    """A crate: its name, the repository's crates and the kit's libraries on its line, and its files."""

    def __init__(self, top, name, below, libraries):
        self.name, self.below, self.libraries = name, below, libraries
        self.folder = top / "crates" / name
        self.stated = self.folder / "out" / "stated"
        self.is_program = (self.folder / "src/main.rt").exists()
        self.root = "src/main.rt" if self.is_program else "src/lib.rt"
        self.files = sorted(path for folder in FOLDERS for path in (self.folder / folder).rglob("*") if path.is_file())
        self.stamp = None

    def sum_of_files(self):
        total = hashlib.sha256()
        for path in self.files:
            total.update(f"{path.relative_to(self.folder)}\0{hashlib.sha256(path.read_bytes()).hexdigest()}\n".encode())
        return total.hexdigest()

    def made(self):
        return self.stated / (self.name if self.is_program else f"{self.name}.rlib")

    def stands(self):
        """Whether what was made of the crate is of these very files."""
        mark = self.stated / "stamp"
        return self.made().exists() and mark.exists() and mark.read_text() == self.stamp


def read_crates(top, is_library):
    """The crates of crates.txt by their names. Of the other words on a line those count that `is_library` takes."""
    lines = {}
    for line in (top / "crates.txt").read_text().splitlines():
        found = re.match(r"([a-z][a-z0-9_]*)([^:]*):(.*)", line)
        if found:
            lines[found[1]] = found[3].split()
    return {name: Crate(top, name, [word for word in words if word in lines], [word for word in words if word not in lines and is_library(word)])
            for name, words in lines.items()}


def glibc_needed(data):
    """The newest version of glibc that a linked program asks for: its names stand among the names of functions. Nothing where there is none."""
    return max((tuple(map(int, found.split(b"."))) for found in re.findall(rb"\bGLIBC_(\d+(?:\.\d+)+)\0", data)), default=None)


def closure(crates, names):
    """The crates of these names and all below them, a crate after those that it stands on."""
    order = []

    def visit(name):
        if name not in order:
            for below in crates[name].below:
                visit(below)
            if name not in order:
                order.append(name)

    for name in names:
        visit(name)
    return order


def give_stamps(crates, order, kit):
    """Gives each crate its stamp: a sum of the toolchain's line, of the crate's files and line, of the stamps below, and of how a program is linked."""
    linked = f"{CPU} {hashlib.sha256(START.read_bytes()).hexdigest()}\n"
    for name in order:
        crate = crates[name]
        below = "".join(f"{other} {crates[other].stamp}\n" for other in crate.below) + (linked if crate.is_program else "")
        crate.stamp = hashlib.sha256(f"{kit.line}\n{crate.sum_of_files()}\n{crate.libraries}\n{below}".encode()).hexdigest()


def check_words(crate, crates, kit, jobs):
    """The words after `rattle check` or `rattle build` with which a crate is checked over the statements of the crates below it."""
    words = ["--crate-name", crate.name, crate.root, "--extern", f"std={kit.folder}/rlibs/std.rlib"]
    for library in crate.libraries:
        words += ["--extern", f"{library}={kit.folder}/rlibs/{library}.rlib"]
    words += ["-L", f"dependency={kit.folder}/rlibs"]
    for name in crate.below:
        words += ["--extern", f"{name}={crates[name].stated}/{name}.rlib"]
    for name in closure(crates, crate.below):
        words += ["-L", f"dependency={crates[name].stated}"]
    words += ["--antt-project", f"{kit.folder}/rattle/logic/antt-project.json", "--logic-built", f"{kit.folder}/logic_built",
              "--links", f"{crate.name}=", "--jobs", str(jobs)]
    return [str(word) for word in words]
