"""The sum of a program's sources, as the launcher works it out too, and the files SOURCES that hold it."""
import hashlib
import os
import re

import kit as kits

PAGE_TOOLS = ("designs.py", "lower32", "pack-page", "web", "web-heap.c")


def lines_of(top, names):
    """The lines of crates.txt of these crates, in order."""
    found = {}
    for line in (top / "crates.txt").read_text().splitlines():
        name = re.match(r"[a-z][a-z0-9_]*", line)
        if name:
            found[name[0]] = line
    return sorted(found[name] for name in names)


def sum_of(top, name, folders=kits.FOLDERS):
    """The sum of a crate and of all crates below it: their lines in crates.txt, and their files in these folders.

    With all folders it is what `sha256sum` gives of the lines, followed by the lines that `sha256sum` gives of the files, both in the order
    of their bytes.
    """
    crates = kits.read_crates(top, lambda word: False)
    order = kits.closure(crates, [name])
    total = hashlib.sha256()
    for line in lines_of(top, order):
        total.update(f"{line}\n".encode())
    files = [str(path.relative_to(top / "crates")) for below in order for path in crates[below].files]
    for path in sorted(files, key=os.fsencode):
        if path.split("/")[1] in folders:
            total.update(f"{hashlib.sha256((top / 'crates' / path).read_bytes()).hexdigest()}  {path}\n".encode())
    return total.hexdigest()


def sum_of_page(top):
    """The sum of what the page is made of: the crate `web` and all below it, the folder page/ without its tests, the designs of examples/, the version, and the
    tools."""
    page = [path for path in (top / "page").rglob("*") if path.parent.name != "test"]
    files = [top / "VERSION", *page, *(top / "examples").rglob("*.json"), *(top / "tools/dev" / name for name in PAGE_TOOLS)]
    total = hashlib.sha256(f"{sum_of(top, 'web')}\n".encode())
    for path in sorted(files):
        if path.is_file():
            total.update(f"{hashlib.sha256(path.read_bytes()).hexdigest()}  {path.relative_to(top)}\n".encode())
    return total.hexdigest()


def read(path):
    """The values of a file SOURCES, by the words before each; none where there is no such file."""
    try:
        lines = path.read_text().splitlines()
    except OSError:
        return {}
    toolchain = {"toolchain": line.partition(" ")[2] for line in lines if line.startswith("toolchain ")}
    return toolchain | {line.rpartition(" ")[0]: line.rpartition(" ")[2] for line in lines if not line.startswith("toolchain ")}


def text_of(values):
    """The text of a file SOURCES."""
    return "".join(f"{words} {value}\n" for words, value in values.items())


def put_program(data_of, folder, values):
    """Puts a program into a folder, with what it was made of beside it; at each moment the program there is whole and is what SOURCES says."""
    folder.mkdir(parents=True, exist_ok=True)
    program, text = (folder / f"{name}.{os.getpid()}" for name in ("itv", "SOURCES"))
    program.write_bytes(data_of.read_bytes())
    program.chmod(0o755)
    text.write_text(text_of(values))
    (folder / "SOURCES").unlink(missing_ok=True)
    program.replace(folder / "itv")
    text.replace(folder / "SOURCES")
