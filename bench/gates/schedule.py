"""A model of the order in which `rt ci` works, which gives the minutes by the clock that a gate takes on some number of processors.

The tasks of a crate are those of `rt ci`. Its proof and the proof of its tests each wait for the proofs of all crates below it. Where it
has two or more edits, a check of the crate that the edits start from waits for the same, and each edit waits for all three. A last check of
the crate waits for its edits. A single edit is tried from nothing, after the proof and the tests. A task begins as soon as what it waits
for has ended and a processor is idle. The proofs go first, those with the longest chain of other tasks behind them before the others; edits
take the processors that are left. A proof takes up to four processors where no other proof waits for them. What a task has behind it is
counted in lines of code, as `rt ci` counts.

The model knows nothing of memory, of the start of `rt ci`, and of the runs of programs and tests at its end.
"""
import dataclasses
import heapq

# The elapsed time of a check with one, two, three and four jobs, relative to its time with one; measured in one crate with one and four.
BY_JOBS = (1.0, 0.71, 0.62, 0.57)


@dataclasses.dataclass
class Task:
    """What a task waits for, its lines, and its processor seconds."""

    waits: set
    lines: int
    seconds: float


def all_below(crates, name):
    """The names of all crates below a crate."""
    found = set()
    for other in crates[name]["below"]:
        found |= {other} | all_below(crates, other)
    return found


def tasks_of(crates):
    """The tasks of a gate, each after those that it waits for, by crate, kind and number."""
    below = {name: all_below(crates, name) for name in crates}
    tasks = {}
    for name in sorted(crates, key=lambda name: len(below[name])):
        crate, waits = crates[name], {(other, "proof", 0) for other in below[name]}
        tasks[name, "proof", 0] = Task(waits, crate["lines"], crate["proof"])
        tasks[name, "tests", 0] = Task(waits, crate["lines"] if crate["tests"] else 0, crate["tests"])
        add_edits(tasks, name, crate, waits)
    return tasks


def add_edits(tasks, name, crate, waits):
    """Adds the tasks of a crate's edits. What the edits took beside the first check is shared by each edit and the last check alike."""
    number = crate["number_of_edits"]
    own = {(name, "proof", 0), (name, "tests", 0)}
    if number == 1:
        tasks[name, "edits", 0] = Task(own, crate["lines"], crate["edits"])
    elif number:
        first = min(crate["proof"], crate["edits"])
        share = (crate["edits"] - first) / (number + 1)
        tasks[name, "first", 0] = Task(waits, 0, first)
        for at in range(number):
            tasks[name, "edits", at] = Task(own | {(name, "first", 0)}, crate["lines"], share)
        tasks[name, "last", 0] = Task({(name, "edits", at) for at in range(number)}, 0, share)


def lines_behind(tasks):
    """For each task the lines of the longest chain that begins with it."""
    behind = dict.fromkeys(tasks, 0)
    for key in reversed(list(tasks)):
        behind[key] += tasks[key].lines
        for other in tasks[key].waits:
            behind[other] = max(behind[other], behind[key])
    return behind


def seconds_by_the_clock(crates, processors):
    """How long a gate takes by the clock on so many processors."""
    tasks = tasks_of(crates)
    behind = lines_behind(tasks)
    left = sorted(tasks, key=lambda key: (key[1] in ("edits", "first"), -behind[key]))
    running, done, now = [], set(), 0.0
    while left or running:
        ready = [key for key in left if tasks[key].waits <= done]
        for key, jobs in begun(ready, processors - sum(jobs for _, _, jobs in running)):
            left.remove(key)
            heapq.heappush(running, (now + tasks[key].seconds * BY_JOBS[jobs - 1], key, jobs))
        now, key, _ = heapq.heappop(running)
        done.add(key)
    return now


def begun(ready, idle):
    """The tasks that begin on the idle processors, each with its number of jobs."""
    proofs = [key for key in ready if key[1] in ("proof", "tests")]
    found = []
    for at, key in enumerate(ready):
        if idle == 0:
            break
        waiting = len(proofs) - proofs.index(key) if key in proofs else len(ready) - at
        jobs = max(1, min(len(BY_JOBS), idle // waiting)) if key in proofs or key[1] == "first" else 1
        found.append((key, jobs))
        idle -= jobs
    return found
