"""Builds the small proved programs that measurements need, on copies of the crates below them."""
import os
import shutil
import subprocess
import sys

TOP = os.path.dirname(os.path.dirname(os.path.abspath(__file__)))


def lines_of(crates):
    """The lines of crates.txt for some crates."""
    with open(os.path.join(TOP, "crates.txt")) as file:
        return [line for line in file if line.split(":")[0] in crates]


def build(folder, name, sources, crates, libraries):
    """Builds the program in FOLDER and answers its path. Its files are in SOURCES with `.txt` after their names, because the gate
    wants each source in a crate that crates.txt lists. It uses CRATES of this repository and LIBRARIES of the toolchain."""
    for crate in crates:
        if not os.path.exists(os.path.join(folder, "crates", crate)):
            shutil.copytree(os.path.join(TOP, "crates", crate), os.path.join(folder, "crates", crate))
    own = os.path.join(folder, "crates", name)
    for place, _, names in os.walk(sources):
        for file in names:
            path = os.path.join(own, os.path.relpath(place, sources), file.removesuffix(".txt"))
            os.makedirs(os.path.dirname(path), exist_ok=True)
            shutil.copyfile(os.path.join(place, file), path)
    with open(os.path.join(folder, "crates.txt"), "w") as file:
        file.writelines([*lines_of(crates), f"{name}: {' '.join([*crates, *libraries])}\n"])
    done = subprocess.run(["rt", "run"], cwd=own, capture_output=True, text=True, stdin=subprocess.DEVNULL)
    if done.returncode:
        sys.exit(done.stdout[-3000:] + done.stderr[-3000:])
    return os.path.join(own, "out", name)
