"""Runs the rows of docs/DIAGRAMS.md by the program, `chain_tool`.

For each row, the chains before are built and the call is made. Then each chain after is walked, and its first link is shown.
Rows with words beside their call are skipped. `rt try` runs the program without proofs."""
import re
import subprocess

from sources.items import ROOT
from sources.pages import read, table_rows

KINDS = {"Disconnected": "alone", "SingleLinkCyclic": "ring", "ChainEnd": "end", "ChainStart": "start", "NextTo": "after"}
KINDS.update({"PrevTo": "before", "AtInterlink": "between", "Bridge": "bridge"})
CALLS = {"connect": "connect", "break_next": "breaknext", "break_prev": "breakprev", "exchange_next": "exchange", "remove": "remove"}


class Run:
    """Lines for the program, each with its expected response, or `None` if any response is accepted."""

    def __init__(self):
        self.lines = []

    def add_line(self, line, response):
        self.lines.append((line, response))

    def build(self, chains):
        """Builds an arena of these chains, and returns the index of each letter. The value of a link is its letter."""
        self.add_line("clear", None)
        self.add_line("setgen 2", "ok")
        indexes = {}
        for letters, is_cyclic in chains:
            for k, letter in enumerate(letters):
                indexes[letter] = len(indexes) + 1
                self.add_line(f"add alone {ord(letter)}", f"at {indexes[letter]}.2")
                if k:
                    self.add_line(f"connect {indexes[letters[k - 1]]}.2 {indexes[letter]}.2", "ok")
            if is_cyclic:
                self.add_line(f"connect {indexes[letters[-1]]}.2 {indexes[letters[0]]}.2", "ok")
        return indexes

    def call(self, name, letters, indexes):
        """Adds a line that makes a call on the links with these letters."""
        pointers = "".join(f" {indexes[it]}.2" for it in letters)
        if name in KINDS:
            indexes["x"] = len(indexes) + 1
            self.add_line(f"add {KINDS[name]}{pointers} {ord('x')}", f"at {indexes['x']}.2")
        else:
            self.add_line(CALLS[name] + pointers, f"value {ord(letters[0])}" if name == "remove" else "ok")

    def expect(self, chains, indexes):
        """Adds lines that print these chains."""
        for letters, is_cyclic in chains:
            first, second = letters[0], letters[1] if letters[1:] else letters[0] if is_cyclic else None
            self.add_line(f"chain {indexes[first]}.2", " ".join(f"{indexes[it]}.2:{ord(it)}" for it in letters))
            before = f"{indexes[letters[-1]]}.2" if is_cyclic else "-"
            after = f"{indexes[second]}.2" if second else "-"
            self.add_line(f"show {indexes[first]}.2", f"prev {before} next {after} value {ord(first)}")


def chains_of(cell):
    return [(code.strip("()").split(), code.startswith("(")) for code in re.findall(r"`([^`]+)`", cell)]


def rows():
    """Yields the name of each call, the letters of its arguments, and the chains before and after it."""
    for cells in table_rows(read("docs/DIAGRAMS.md")):
        calls = re.findall(r"`([^`]+)`", cells[0]) if cells[0].startswith("`") else ["exchange_next(p, q)"]
        for call in calls if not re.sub(r"`[^`]+`|, ", "", cells[0]) or not cells[0].startswith("`") else []:
            name, arguments = re.match(r"(\w+)(.*)", call).groups()
            letters = re.findall(r"(?<=[ (:])[a-z](?=[,) ])", arguments)
            yield name, letters, chains_of(cells[1]), chains_of(cells[2])


def script():
    """Returns the lines for all rows."""
    run = Run()
    for name, letters, before, after in rows():
        indexes = run.build(before)
        run.call(name, letters, indexes)
        run.expect(after, indexes)
    return run.lines


def run_problems():
    lines = script()
    text = "".join(f"{line}\n" for line, _ in lines)
    result = subprocess.run(["rt", "try"], cwd=f"{ROOT}/crates/chain_tool", input=text, capture_output=True, text=True)
    responses = result.stdout.split("\n")
    if not lines or len(responses) < len(lines):
        yield f"docs/DIAGRAMS.md: {len(responses)} responses to {len(lines)} lines"
    for (line, expected), response in zip(lines, responses):
        if expected not in (None, response):
            yield f"docs/DIAGRAMS.md: {line}: {response}, expected {expected}"
