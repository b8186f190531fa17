"""Makes lines for the program of docs/CLI.md from a seed, and counts the instructions that they take."""
import random
import re
import sys

from measures import instructions


class Writer:
    """Writes lines for the program. It knows the pointers of all links, and the neighbors of each link."""

    def __init__(self, seed):
        self.lines, self.rng = [], random.Random(seed)
        self.slots, self.free, self.counter = 0, [], 2
        self.links, self.positions, self.next, self.before = [], {}, {}, {}

    def add_line(self, *words):
        self.lines.append(" ".join(map(str, words)))

    def any_pointer(self):
        return self.rng.choice(self.links)

    def connect(self, p, q):
        self.next[p], self.before[q] = q, p

    def add(self, kind, *beside):
        """Adds a link, and returns its pointer. For the kinds `after` and `end`, it is added after the link `beside`."""
        index = self.free.pop() if self.free else self.slots + 1
        self.slots = max(self.slots, index)
        p = f"{index}.{self.counter}"
        self.add_line("add", kind, *beside, self.rng.randrange(2**32))
        self.positions[p] = len(self.links)
        self.links.append(p)
        if kind == "ring":
            self.connect(p, p)
        if beside:
            after = self.next.get(beside[0])
            self.connect(beside[0], p)
            if after:
                self.connect(p, after)
        return p

    def remove_pointer(self, p):
        """Removes a pointer from the list of all pointers, and moves the last one to its position."""
        position, last = self.positions.pop(p), self.links.pop()
        if last != p:
            self.links[position], self.positions[last] = last, position

    def remove(self, p):
        self.add_line("remove", p)
        before, after = self.before.pop(p, None), self.next.pop(p, None)
        if before and before != p:
            self.next.pop(before)
        if after and after != p:
            self.before.pop(after)
        if before and after and before != p:
            self.connect(before, after)
        self.remove_pointer(p)
        self.free.append(int(p.split(".")[0]))
        self.counter += 1

    def exchange(self, p, q):
        self.add_line("exchange", p, q)
        after_p, after_q = self.next[p], self.next[q]
        self.connect(p, after_q)
        self.connect(q, after_p)

    def break_and_connect(self, p):
        self.add_line("breaknext", p)
        self.add_line("connect", p, self.next[p])

    def chains(self, links, chain):
        starts = []
        for k in range(links):
            last = self.add("end", last) if k % chain else self.add("alone")
            if k % chain == 0:
                starts.append(last)
        return starts

    def rings(self, links, chain):
        for k in range(links):
            last = self.add("after", last) if k % chain else self.add("ring")

    def tangle(self, links, chain):
        alone = [self.add("alone") for _ in range(links)]
        self.rng.shuffle(alone)
        for k in range(1, links):
            if k % chain:
                self.add_line("connect", alone[k - 1], alone[k])


# The kinds of lines. Each function adds the lines that make an arena, and returns a function that adds the measured lines.


def build(writer, links, chain):
    return lambda: writer.chains(links, chain)


def churn(writer, links, chain):
    writer.chains(links, chain)

    def add_measured():
        for _ in range(links // 2):
            writer.remove(writer.any_pointer())
            writer.add("after", writer.any_pointer())

    return add_measured


def splice(writer, links, chain):
    writer.rings(links, chain)

    def add_measured():
        for _ in range(links // 4):
            writer.exchange(writer.any_pointer(), writer.any_pointer())
            writer.exchange(writer.any_pointer(), writer.any_pointer())
            writer.break_and_connect(writer.any_pointer())

    return add_measured


def walk(writer, links, chain):
    starts = writer.chains(links, chain)
    return lambda: [writer.add_line("chain", p) for p in starts]


def drain(writer, links, chain):
    starts = writer.chains(links, chain)
    return lambda: [writer.add_line("drain", p, chain) for p in starts]


def compress(writer, links, chain):
    writer.chains(2 * links, 2 * chain)
    for p in writer.links[1::2]:
        writer.add_line("remove", p)
    return lambda: writer.add_line("compress", "keep")


def canonical(writer, links, chain):
    writer.tangle(links, chain)
    return lambda: writer.add_line("canonical", "keep")


def mixed(writer, links, chain):
    writer.rings(links, chain)

    def add_measured():
        for _ in range(links // 5):
            writer.add("after", writer.any_pointer())
            writer.exchange(writer.any_pointer(), writer.any_pointer())
            writer.add_line("show", writer.any_pointer())
            writer.break_and_connect(writer.any_pointer())
            writer.remove(writer.any_pointer())

    return add_measured


KINDS = {
    "build": (build, "`add alone`, `add end`", "command"),
    "churn": (churn, "`remove`, `add after`", "command"),
    "splice": (splice, "`exchange`, `breaknext` and `connect`", "command"),
    "walk": (walk, "`chain`", "link"),
    "drain": (drain, "`drain`", "link"),
    "compress": (compress, "`compress`, with a hole after each link", "link"),
    "canonical": (canonical, "`canonical`, of chains at random indexes", "link"),
    "mixed": (mixed, "`add after`, `exchange`, `show`, `breaknext`, `connect`, `remove`", "command"),
}


def instructions_of_lines(programs, kind, options):
    """Returns the instructions of a command, or of a link, for each program. Exits if their responses differ."""
    make, _, unit = KINDS[kind]
    writer = Writer(options.seed)
    add_measured = make(writer, options.links[0], options.chain)
    first = len(writer.lines)
    add_measured()
    texts = ["".join(f"{line}\n" for line in part) for part in (writer.lines[:first], writer.lines)]
    count = options.links[0] if unit == "link" else len(writer.lines) - first
    runs = [[instructions(command, text) for text in texts] for command in programs]
    check_responses(kind, writer.lines, runs[0][1][1].splitlines())
    if any(whole[1] != runs[0][1][1] for _, whole in runs):
        sys.exit(f"{kind}: the responses of the programs differ")
    return [(whole[0] - setup[0]) / count for setup, whole in runs]


def check_responses(kind, lines, responses):
    """Exits if a response is missing or a refusal."""
    refusals = [(line, response) for line, response in zip(lines, responses) if re.match("none|refused|bad", response)]
    if refusals or len(responses) != len(lines):
        sys.exit(f"{kind}: {len(lines)} lines, {len(responses)} responses, of which {refusals[:3]} are refusals")
