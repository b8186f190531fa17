"""Measures the instructions, the time and the memory of runs."""
import os
import re
import resource
import subprocess
import sys
import tempfile
from typing import NamedTuple

# A program is not run again for a case once its runs have taken this many seconds.
MAX_SECONDS = 5

# Pairs of a case and a side whose sum differs from ours. A SlotMap counts the versions of each slot separately.
DIFFERENT_SUMS = {("replace", "slotmap")}


class CaseOutput(NamedTuple):
    """The output of a run of a case."""

    operations: int
    total: int
    nanoseconds: int


class NotSupported(Exception):
    """A side does not support a case."""


class TimedOut(Exception):
    """A run took longer than its limit."""


def exit_for(command, run):
    """Exits with the output of a run that failed."""
    sys.exit(f"{' '.join(command)}: status {run.returncode}\n{run.stdout[-500:]}{run.stderr[-2000:]}")


def output_of(command, seconds=None):
    """Runs a case, and returns its output."""
    try:
        run = subprocess.run(command, capture_output=True, text=True, timeout=seconds)
    except subprocess.TimeoutExpired:
        raise TimedOut from None
    if re.fullmatch(r"\w+: left out\n", run.stdout):
        raise NotSupported
    found = re.fullmatch(r"\w+: (\d+) operations, sum (\d+)(?:, (\d+) nanoseconds)?\n", run.stdout)
    if run.returncode or not found:
        exit_for(command, run)
    return CaseOutput(int(found[1]), int(found[2]), int(found[3] or 0))


def instructions(command, text=None):
    """Returns the number of instructions of a run, by callgrind, and its output."""
    with tempfile.NamedTemporaryFile() as profile:
        run = subprocess.run(
            ["valgrind", "--tool=callgrind", f"--callgrind-out-file={profile.name}", *command], input=text, capture_output=True, text=True
        )
    found = re.search(r"Collected : (\d+)", run.stderr)
    if run.returncode or not found:
        exit_for(command, run)
    return int(found[1]), run.stdout


def instructions_of_operation(side, case, links, chain):
    """Returns the instructions of an operation, of the better program: those of a run, less those of making the arena."""
    return min(difference_of([*program, case, str(links), str(chain), "1"]) for program in side.programs)


def difference_of(command):
    operations = output_of([*command, "all"]).operations
    return (instructions([*command, "all"])[0] - instructions([*command, "setup"])[0]) / operations


def peak(command):
    """Returns the peak memory of a run in bytes. It is never less than that of this program, which starts the run."""
    run = subprocess.Popen(command, stdout=subprocess.DEVNULL)
    _, status, usage = os.wait4(run.pid, 0)
    run.returncode = os.waitstatus_to_exitcode(status)
    if run.returncode:
        sys.exit(f"{' '.join(command)}: status {run.returncode}")
    return usage.ru_maxrss * 1024


def peak_of_link(side, case, fewer, more, chain):
    """Returns the bytes of each further link at the peak of a run, or `None` if there are too few links to measure it."""
    peaks = [peak([*side.programs[0], case, str(links), str(chain), "1", "all"]) for links in (fewer, more)]
    if peaks[0] <= resource.getrusage(resource.RUSAGE_SELF).ru_maxrss * 1024:
        return None
    return (peaks[1] - peaks[0]) / (more - fewer)


def rounds_of(links):
    return min(10, max(1, 1_000_000 // links))


class Times:
    """The nanoseconds of an operation of a case, for each side. Runs alternate between the programs of all sides."""

    def __init__(self, case, links, chain, part="timed"):
        rounds = 1 if part == "longest" else rounds_of(links)
        self.case, self.part, self.links = case, part, links * rounds
        self.arguments = [case, str(links), str(chain), str(rounds), part]
        self.runs, self.reasons, self.totals, self.expected = {}, {}, {}, None

    def measure(self, sides, runs, seconds):
        for _ in range(runs):
            for side in sides:
                for k, program in enumerate(side.programs):
                    if (side.name, k) not in self.reasons and self.totals.get((side.name, k), 0) < MAX_SECONDS * 1e9:
                        self.measure_one(side.name, k, program, seconds)
        return self

    def measure_one(self, name, k, program, seconds):
        try:
            output = output_of([*program, *self.arguments], seconds)
        except NotSupported:
            self.reasons[name, k] = ""
        except TimedOut:
            self.reasons[name, k] = f"over {seconds * 1e9 / self.links:,.0f}"
        else:
            self.check(name, output)
            self.totals[name, k] = self.totals.get((name, k), 0) + output.nanoseconds
            operations = 1 if self.part == "longest" else output.operations
            self.runs.setdefault((name, k), []).append(output.nanoseconds / operations)

    def check(self, name, output):
        """Exits if the operations or the sum of a side are not those of the first side."""
        self.expected = self.expected or output
        if output[:2] != self.expected[:2] and (self.case, name) not in DIFFERENT_SUMS:
            sys.exit(f"{' '.join(self.arguments)}: {name} has the operations and the sum {output[:2]}, the first side {self.expected[:2]}")

    def of(self, name):
        """Returns the times of the better program of a side, or an empty list."""
        return min((runs for (side, _), runs in self.runs.items() if side == name), key=min, default=[])

    def best(self, name):
        return min(self.of(name), default=None)

    def reason(self, name):
        """Returns why a side has no times."""
        return self.reasons.get((name, 0), "")
