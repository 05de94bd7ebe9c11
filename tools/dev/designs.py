"""The designs of examples/ as the page and its tests have them: all files of a page are named from one folder, the top of the repository."""
import pathlib
import posixpath
import re

TOP = pathlib.Path(__file__).resolve().parents[2]
SHEET = re.compile(r'("sheet": *")([^"]+)"')


def text_from_top(name):
    """The text of a file, by its name from the top. The sheets of a netlist, whose names count from its own folder, have their names from the top too."""
    folder = posixpath.dirname(name)
    text = (TOP / name).read_text(encoding="utf-8")
    return SHEET.sub(lambda found: f'{found[1]}{posixpath.normpath(posixpath.join(folder, found[2]))}"', text) if name.endswith(".json") else text
