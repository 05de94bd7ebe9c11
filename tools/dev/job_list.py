"""The jobs of a program, read from its help: their one list is in crates/command_words/src/job_word.rt."""
import re
import subprocess
from dataclasses import dataclass


@dataclass(frozen=True)
class Job:
    """A job: its name, the option that it needs with the option's value or nothing, and what it does."""

    name: str
    needs: str
    about: str

    @property
    def usage(self):
        """The words that do the job. A job that needs a size makes its design."""
        design = [] if self.needs.startswith("--size") else ["DESIGN"]
        return " ".join(["itv", "--job", self.name, *self.needs.split(), *design])


def jobs_in(text):
    """The jobs that a text of help lists. After the name and what the job needs come at least two spaces."""
    listed = re.search(r"^Jobs:\n((?:  .+\n)+)", text, re.M).group(1)
    found = [re.fullmatch(r"  (\w+)(?: (--\w+ \w+))? {2,}(.+)", line) for line in listed.splitlines()]
    return [Job(line.group(1), line.group(2) or "", line.group(3)) for line in found]


def jobs_of(program):
    """The jobs of a program."""
    return jobs_in(subprocess.run([program, "--help"], capture_output=True, text=True, check=True).stdout)
