"""Makes a Debian package of the files of a release, in which nothing depends on who makes it, when and where. It needs none of Debian's tools."""
import gzip
import hashlib
import io
import lzma
import tarfile

NAME = "itv"
# Where the launcher and what it runs and names are.
HOME = "usr/lib/itv"
DOCUMENTS = f"usr/share/doc/{NAME}"

CONTROL = """Package: itv
Version: {version}
Architecture: amd64
Maintainer: {maintainer}
Installed-Size: {size}
Depends: libc6 (>= {glibc})
Recommends: xdg-utils
Section: electronics
Priority: optional
Description: interface timing verifier for timing diagrams
 itv finds the worst case of the timing diagrams that board designers draw, over
 all delays that the data sheets allow. It says of each requirement whether it is
 always met, and by how much. The program is proved to meet its contracts.
 .
 The package has the command, the page that runs the program in a browser, the
 documents and the examples.
"""

COPYRIGHT = """Format: https://www.debian.org/doc/packaging-manuals/copyright-format/1.0/
Upstream-Name: itv

Files: *
Copyright: {holder}
License: Expat
{licence}
Comment: /usr/share/itv/itv.html also has CodeMirror and JSON5 in it. It shows their licences, which are this one too.
"""


def place_of(name):
    """Where a file of the archive is put."""
    moved = {"dist/itv.html": "usr/share/itv/itv.html", "tools/deb/itv.bash": "usr/share/bash-completion/completions/itv",
             "tools/deb/itv.desktop": "usr/share/applications/itv.desktop"}
    if name in moved:
        return moved[name]
    is_read = name.startswith(("docs/", "examples/")) or name.endswith(".md")
    return f"{DOCUMENTS}/{name}" if is_read else f"{HOME}/{name}"


# The launcher finds the page and the documents beside itself, and the shell finds the launcher.
LINKS = {"usr/bin/itv": "../lib/itv/itv", f"{HOME}/docs": f"../../share/doc/{NAME}/docs", f"{HOME}/dist": "../../share/itv"}


def copyright_of(licence):
    """The licence in the form of a package."""
    holder = next(line.partition("(c) ")[2] for line in licence.splitlines() if "(c) " in line)
    text = licence.split("\n\n", 2)[2]
    return COPYRIGHT.format(holder=holder, licence="\n".join(f" {line}" if line else " ." for line in text.strip().splitlines()))


def files_of(entries):
    """The files of the package: a name, its mode and its bytes for each."""
    by_name = {name: data for name, _, data in entries}
    files = [(place_of(name), mode, data) for name, mode, data in entries if name != "LICENSE"]
    files.append(("usr/share/man/man1/itv.1.gz", 0o644, gzip.compress(by_name["docs/itv.1"], 9, mtime=0)))
    files.append((f"{DOCUMENTS}/copyright", 0o644, copyright_of(by_name["LICENSE"].decode()).encode()))
    return sorted(files)


def folders_of(names):
    """All folders in which these files are, each after the one that it is in."""
    found = set()
    for name in names:
        parts = name.split("/")[:-1]
        found.update("/".join(parts[:count]) for count in range(1, len(parts) + 1))
    return sorted(found)


def tar(files, links, seconds):
    """The bytes of a tar archive of files and links, with their folders, all owned by root."""
    out = io.BytesIO()
    with tarfile.open(fileobj=out, mode="w", format=tarfile.GNU_FORMAT) as archive:

        def add(name, kind, mode, data=b"", target=""):
            info = tarfile.TarInfo(f"./{name}")
            info.type, info.mode, info.size, info.linkname, info.mtime, info.uname, info.gname = kind, mode, len(data), target, seconds, "root", "root"
            archive.addfile(info, io.BytesIO(data))

        for name in folders_of([*(name for name, _, _ in files), *links]):
            add(name, tarfile.DIRTYPE, 0o755)
        for name, mode, data in files:
            add(name, tarfile.REGTYPE, mode, data)
        for name, target in sorted(links.items()):
            add(name, tarfile.SYMTYPE, 0o777, target=target)
    return out.getvalue()


def member(name, data, seconds):
    """A file of an archive in the form of `ar`."""
    return f"{name:<16}{seconds:<12}{0:<6}{0:<6}{'100644':<8}{len(data):<10}`\n".encode() + data + b"\n" * (len(data) % 2)


def package(entries, version, glibc, maintainer, seconds):
    """The bytes of the package of an archive's files, each with its name there, its mode and its bytes."""
    files = files_of(entries)
    size = sum((len(data) + 1023) // 1024 for _, _, data in files)
    control = CONTROL.format(version=version, size=size, glibc=glibc, maintainer=maintainer).encode()
    sums = "".join(f"{hashlib.md5(data).hexdigest()}  {name}\n" for name, _, data in files).encode()
    parts = [("debian-binary", b"2.0\n"),
             ("control.tar.xz", lzma.compress(tar([("control", 0o644, control), ("md5sums", 0o644, sums)], {}, seconds))),
             ("data.tar.xz", lzma.compress(tar(files, LINKS, seconds), preset=9))]
    return b"!<arch>\n" + b"".join(member(name, data, seconds) for name, data in parts)
