"""Files of networks, lines of what programs print, and lines of the tables of docs/speed.md."""
import os


def lay_out(files, folder):
    for name, text in files.items():
        with open(os.path.join(folder, name), "wb") as file:
            file.write(text.encode() if isinstance(text, str) else text)


def bound_lines(text):
    return [line for line in text.decode().splitlines() if line.startswith(("max ", "min ", "finding incons"))]


def row(cells):
    print("| " + " | ".join(cells) + " |", flush=True)


def seconds_of(took):
    return f"{took:.3f}" if took < 0.0995 else f"{took:.2f}" if took < 9.95 else f"{took:.1f}"
