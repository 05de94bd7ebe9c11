"""Runs of programs within limits of processor seconds and of memory, as `ulimit -t` and `ulimit -v` set them."""
import os
import signal
import subprocess
import sys
import tempfile
from dataclasses import dataclass

SECONDS = 5
BYTES = 500_000 * 1024

# A run counts the memory of the process that started it. So a small one starts it, which has only these modules, and says what was used.
STARTER = """
import os, resource, sys
seconds, size = map(int, sys.argv[1:3])
number = os.fork()
if number == 0:
    os.dup2(os.open(os.devnull, os.O_WRONLY), 2)
    resource.setrlimit(resource.RLIMIT_AS, (size, size))
    resource.setrlimit(resource.RLIMIT_CPU, (seconds, seconds + 1))
    os.execvp(sys.argv[3], sys.argv[3:])
_, status, used = os.wait4(number, 0)
os.write(2, f"{os.waitstatus_to_exitcode(status)} {used.ru_utime + used.ru_stime} {used.ru_maxrss / 1024}".encode())
"""


@dataclass
class Run:
    """What a program printed, the status of its end (below 0 a signal), its processor seconds and its megabytes."""

    printed: bytes
    status: int
    took: float
    room: float

    def is_late(self):
        return self.status in (-signal.SIGXCPU, -signal.SIGKILL)


def run(command, folder=None, given=b"", seconds=SECONDS, size=BYTES, is_quiet=False):
    """One run of a program, with these bytes at its standard input. A run past the limit of seconds is ended."""
    env = {name: value for name, value in os.environ.items() if name != "ITV_QUIET"} | ({"ITV_QUIET": "1"} if is_quiet else {})
    with tempfile.TemporaryFile() as source, tempfile.TemporaryFile() as printed:
        source.write(given)
        source.seek(0)
        words = [sys.executable, "-S", "-E", "-c", STARTER, str(seconds), str(size), *command]
        done = subprocess.run(words, cwd=folder, stdin=source, stdout=printed, stderr=subprocess.PIPE, env=env, check=True)
        status, took, room = done.stderr.decode().split()
        printed.seek(0)
        return Run(printed.read(), int(status), float(took), float(room))
