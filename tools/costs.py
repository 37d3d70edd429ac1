#!/usr/bin/env python3
"""costs.py RUN [FILE] [--add]: measures a run of `rt ci` while it is at work, and writes what each crate cost.

RUN is the folder in which the run was started, or the number of its process. FILE is docs/COSTS.md where none is named; what
stands there between two marks is replaced. Start the run, then this beside it: it looks at the run's processes every five seconds
(/proc), takes nothing from them, and writes FILE every two minutes and when the run has ended, or when it is interrupted. A process
belongs to a crate and to its proof, its tests or its edits by its command line and its folder; the run of a program or of tests is
among the tests. Where one process ended between two looks, the times of the run's ended processes tell its whole time to the
hundredth of a second; where several did, what is left over is shared among them. What the run didn't do itself, since an earlier
run had done it, has no figure, or with --add the one that FILE has.
"""
import collections
import os
import re
import signal
import sys
import time

TOP = os.path.dirname(os.path.dirname(os.path.realpath(__file__)))
# Seconds between two looks, and looks after which FILE is written, should the script be killed.
EVERY, KEPT = 5, 24
TICKS = os.sysconf("SC_CLK_TCK")
KINDS = ("proof", "tests", "edits")
FIRST, LAST = "<!-- tools/costs.py writes what follows -->", "<!-- up to here -->"


def text_of(path):
    with open(path, "rb") as file:
        return file.read().decode(errors="replace")


class Process:
    """A process as it was at one look: its parent, its own time and that of its ended children in seconds, and when it began."""

    def __init__(self, number):
        rest = text_of(f"/proc/{number}/stat").rpartition(")")[2].split()
        self.number, self.parent, self.began = number, int(rest[1]), int(rest[19])
        self.own = (int(rest[11]) + int(rest[12])) / TICKS
        self.ended = (int(rest[13]) + int(rest[14])) / TICKS


def look():
    """All processes by their numbers."""
    found = {}
    for it in os.listdir("/proc"):
        if it.isdigit():
            try:
                found[int(it)] = Process(int(it))
            except (OSError, IndexError, ValueError):
                pass
    return found


def words_of(number):
    try:
        return text_of(f"/proc/{number}/cmdline").split("\0")[:-1]
    except OSError:
        return []


def folder_of(number):
    try:
        return os.readlink(f"/proc/{number}/cwd")
    except OSError:
        return ""


def find(run):
    """The number of the run's process. A run that was told names works in a copy, and is told by its crates.txt."""
    if run.isdigit():
        return int(run)
    if not os.path.isfile(f"{run}/crates.txt"):
        sys.exit(f"costs.py: {run} has no crates.txt: name the folder in which rt ci was started")
    here, copies = [], []
    for number in look():
        words = words_of(number)
        at = next((at for at, it in enumerate(words) if os.path.basename(it) == "rt"), None)
        if at is not None and words[at + 1 : at + 2] == ["ci"]:
            folder = folder_of(number)
            if folder == os.path.realpath(run):
                here.append(number)
            elif f"/rt-copy-{number}-" in folder and text_of(f"{folder}/crates.txt") == text_of(f"{run}/crates.txt"):
                copies.append(number)
    found = here or copies
    if len(found) != 1:
        sys.exit(f"costs.py: of {run} there are {len(found)} runs of rt ci: name one by the number of its process {found or ''}")
    return found[0]


def task_of(number):
    """The crate and the kind of work of a child of the run, or None for what is of no crate."""
    words, folder = words_of(number), folder_of(number)
    for it in words:
        ran = re.search(r"/rt-run-[^/]*/bin/(\w+?)(_tests)?$", it)
        if ran:
            return ran[1], "tests"
    if "--crate-name" in words:
        crate = words[words.index("--crate-name") + 1]
        if re.search(r"/rt-edit-", folder):
            return crate, "edits"
        return crate, "tests" if "--test" in words else "proof"
    crate = re.search(r"/crates/(\w+)$", folder)
    if crate:
        return crate[1], "tests" if any(it.endswith("_tests.o") for it in words) else "proof"
    return None


def is_edited(number):
    """Whether a check of a crate for its edits has an edit in it: the first and the last one are of the crate as it is, in a folder seed."""
    words = words_of(number)
    return "--incremental" not in words or os.path.basename(words[words.index("--incremental") + 1]) != "seed"


class Measured:
    """What a run cost so far: processor seconds by task, and by the clock when each task was first and last at work."""

    def __init__(self, run):
        self.run = run
        first = Process(run)
        self.began, self.before, self.own = first.began, first.ended, first.own
        self.missed = first.ended
        self.seconds, self.clock = collections.Counter(), {}
        self.alive, self.edits = {}, collections.Counter()
        self.start = time.time()

    def step(self):
        """Takes one look, and answers whether the run is still at work."""
        now, found = time.time(), look()
        run = found.get(self.run)
        if run is None or run.began != self.began:
            for task, seconds in self.alive.values():
                self.seconds[task] += seconds
            self.alive = {}
            return False
        children = {(it.number, it.began): it for it in found.values() if it.parent == self.run}
        gone = [it for it in self.alive if it not in children]
        left = run.ended - self.before - sum(self.alive[it][1] for it in gone)
        for it in gone:
            task, seconds = self.alive.pop(it)
            self.seconds[task] += seconds + max(left, 0) / len(gone)
        if not gone:
            self.seconds[None] += max(left, 0)
        for key, it in children.items():
            known = self.alive.get(key)
            task = known[0] if known and known[0] else task_of(it.number)
            if task and task[1] == "edits" and not (known and known[0]) and is_edited(it.number):
                self.edits[task[0]] += 1
            self.alive[key] = task, it.own + it.ended
            if task:
                self.clock.setdefault(task, [now, now])[1] = now
        self.before, self.own = run.ended, run.own
        return True

    def so_far(self):
        found = collections.Counter(self.seconds)
        for task, seconds in self.alive.values():
            found[task] += seconds
        return found


def crates():
    """The crates as crates.txt has them, lowest first, each with those that it names."""
    lines = [it.partition(":") for it in text_of(f"{TOP}/crates.txt").splitlines() if ":" in it]
    # (behind a crate's name there may be words of its own, as may_wait=5)
    lines = [(head.split()[0], rest.split()) for head, _, rest in lines]
    names = {name for name, _ in lines}
    return {name: [dep for dep in deps if dep in names] for name, deps in lines}


def longest(below, cost):
    """The row of crates, each on the one before it, whose costs sum up to most."""
    best = {}
    for name, deps in below.items():
        seconds, row = max((best[it] for it in deps if it in best), default=(0, []))
        best[name] = seconds + cost(name), [*row, name]
    return max(best.values(), default=(0, []))


def machine():
    """What the machine is, as the system says."""
    found = re.search(r"model name\s*: (.*)", text_of("/proc/cpuinfo"))
    memory = int(re.search(r"MemTotal:\s+(\d+)", text_of("/proc/meminfo"))[1]) / 1e6
    return f"{os.cpu_count()} processors ({found[1].strip() if found else 'unknown'}), {memory:.0f} GB"


def rounded(seconds):
    return f"{seconds:.0f}" if seconds >= 0.5 else ""


def row(name, cells):
    return " ".join(["|", f"`{name}`", "|", *(f"{it} |" if it else "|" for it in cells)])


def chain(below, cells):
    """The line on the longest chain, given the cells of each crate."""
    cost = lambda it: int((re.findall(r"\d+", cells[it][0]) or [0])[0])
    seconds, names = longest(below, cost)
    return f"The longest chain of proofs takes {seconds} s of these: " + ", ".join(f"`{it}`" for it in names) + "."


def figures(file):
    """The cells of the rows that the file has, by their crates."""
    rows = re.findall(r"^\| `(\w+)` \|(.*)\|$", text_of(file), re.M) if os.path.exists(file) else []
    return {name: [it.strip() for it in cells.split("|")] for name, cells in rows}


def page(measured, earlier):
    """The lines that stand in FILE between the marks. The cells that the run doesn't fill are those of earlier ones."""
    below, seconds = crates(), measured.so_far()
    proof = lambda it: seconds[it, "proof"]
    sums = {kind: sum(value for task, value in seconds.items() if task and task[1] == kind) for kind in KINDS}
    seen = [it for it in below if proof(it)]
    day = time.strftime("%Y-%m-%d", time.gmtime(measured.start))
    lines = [f"Processor seconds of the run of {day}, on {machine()}: {(time.time() - measured.start) / 60:.0f} minutes by the clock, "
             f"{sum(sums.values()) / 60:.0f} processor minutes, {sums['proof'] / 60:.0f} of proofs, {sums['tests'] / 60:.0f} of tests, "
             f"{sums['edits'] / 60:.0f} of edits; `rt` itself took {measured.own / 60:.0f} more."]
    if len(seen) < len(below):
        lines[0] += f" {len(below) - len(seen)} of {len(below)} crates weren't proved while it was measured"
        lines[0] += ": what figures they have are of earlier runs, which may be of other machines." if earlier else ", and have no figure."
    if measured.missed + seconds[None] > 60:
        lines[0] += f" {(measured.missed + seconds[None]) / 60:.0f} minutes of what had ended before the first look are in no row."
    cells = {}
    for it in below:
        edits = rounded(seconds[it, "edits"]) + (f" ({measured.edits[it]})" if measured.edits[it] else "")
        new = [rounded(proof(it)), rounded(seconds[it, "tests"]), edits]
        cells[it] = [here or before for here, before in zip(new, earlier.get(it, [""] * 3))]
    lines += ["", chain(below, cells), "", "| Crate | Proof | Tests | Edits |", "|---|---|---|---|"]
    lines += [row(it, cells[it]) for it in below]
    lines += ["", "Beside the seconds of edits stands how many were tried; the checks of the crate as it is, with which they begin and end, are in the seconds."]
    return lines


def put(file, lines):
    """Writes the lines into the file, in place of those between the marks."""
    before, _, rest = (text_of(file) if os.path.exists(file) else "").partition(FIRST)
    after = rest.partition(LAST)[2] or "\n"
    with open(file, "w", encoding="utf-8") as out:
        out.write(f"{before}{FIRST}\n" + "\n".join(lines) + f"\n{LAST}{after}")


def main():
    words = [it for it in sys.argv[1:] if it != "--add"]
    if len(words) not in (1, 2) or any(it.startswith("-") for it in words):
        sys.exit(__doc__)
    file = words[1] if len(words) > 1 else f"{TOP}/docs/COSTS.md"
    if os.path.exists(file) and FIRST not in text_of(file):
        sys.exit(f"costs.py: {file} is there and has no marks")
    earlier = figures(file) if "--add" in sys.argv else {}
    try:
        measured = Measured(find(words[0]))
    except OSError:
        sys.exit(f"costs.py: there is no process {words[0]}")

    def stop(*_):
        raise KeyboardInterrupt

    def write():
        put(file, page(measured, earlier))

    signal.signal(signal.SIGTERM, stop)

    looks = 0
    try:
        while measured.step():
            looks += 1
            if looks % KEPT == 0:
                write()
            time.sleep(EVERY)
    except KeyboardInterrupt:
        pass
    write()


if __name__ == "__main__":
    main()
