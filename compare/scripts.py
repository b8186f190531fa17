"""Makes scripts for both programs, some of them from seeds. A script is a list of lines, as bytes without line feeds."""
import itertools
import random

from model import MAX_U32, Model


def to_bytes(lines):
    return [line if isinstance(line, bytes) else line.encode() for line in lines]


def has_response(line):
    """Returns whether a program responds to a line: it has words, or it is too long."""
    return len(line) > 200 or line.removesuffix(b"\r").strip(b" ") != b""


def text_of(script):
    return b"".join(line + b"\n" for line in script)


# Scripts written by hand. They have each command and kind, with each response that occurs without an allocation failure.
ROWS = [
    # The example session of docs/CLI.md.
    "add alone 10;add alone 20;connect 1.2 2.2;add end 1.2 40;add end 2.2 40;chain 1.2;show 2.2;remove 2.2;chain 3.2;show 2.2;hello",
    # Kinds by pointers, and the requirements of each.
    "reserve 4;add alone 1;add ring 2;add end 1.2 3;add start 1.2 4;add after 1.2 5;add before 1.2 6;add between 4.2 6.2 7;"
    "add bridge 3.2 4.2 8;chain 1.2;add end 1.2 9;add start 1.2 9;add between 1.2 1.2 9;add bridge 1.2 1.2 9;add after 9.2 9;"
    "add before 1.3 9;add end 9.9 9;add start 1.1 9;add between 4.2 9.2 9;add bridge 9.2 1.2 9;len",
    # Kinds by indexes.
    "reserve 4;add alone 1;add ring 2;add end 1 3;add start 1 4;add after 1 5;add before 1 6;add between 4 6 7;add bridge 3 4 8;"
    "chain 1.2;add end 1 9;add start 1 9;add between 1 1 9;add bridge 1 1 9;add after 9 9;add before 99 9;add end 4294967295 9;"
    "add between 2 2 9;add bridge 3 9 9;chain 2.2;len",
    # Insertions within the capacity.
    "reserve 3;addwithin alone 1;addwithin end 1.2 2;addwithin end 1.2 3;addwithin bridge 2.2 1.2 3;addwithin alone 4;"
    "addwithin end 1.2 4;add alone 4;addwithin alone 5;addwithin ring 6;addwithin after 1 7;remove 2.2;addwithin after 1 7;"
    "reserve 12;addwithin between 1.2 2.3 8;addwithin before 4 9;addwithin start 4.2 10;addwithin between 1 7 11;"
    "addwithin bridge 5 6 12;chain 1.2;chain 4.2;len",
    # Connections.
    "reserve 4;add alone 1;add alone 2;add alone 3;connect 1.2 2.2;connect 1.2 3.2;connect 3.2 2.2;connect 2.2 1.2;connect 3.2 3.2;"
    "connect 9.2 3.2;connect 3.2 9.2;breaknext 1.2;breaknext 1.2;breakprev 1.2;breakprev 1.2;breakprev 9.2;breaknext 1.1;"
    "exchange 1.2 3.2;exchange 3.2 3.2;connect 1.2 2.2;exchange 1.2 3.2;exchange 3.2 1.2;exchange 2.2 3.2;exchange 9.2 3.2;"
    "show 1.2;show 2.2;show 3.2;show 3.3;chain 3.2;chain 9.2",
    # Removals, drains and new generations.
    "reserve 8;add alone 1;add end 1.2 2;add end 2.2 3;add end 3.2 4;add ring 5;remove 2.2;remove 2.2;remove 3;remove 3;remove 99;"
    "invalidate 1.2;invalidate 1.2;show 1.5;drain 1.5 1;drain 1.5 1;drain 5.2 0;drain 5.2 9;len;add alone 6;add end 5.9 7;"
    "remove 5.2;chain 5.9;clear;clear;chain 5.9;len;add alone 8",
    # Drains of parts.
    "reserve 8;add alone 1;add end 1.2 2;add end 2.2 3;add end 3.2 4;drain 3.2 2;len;add ring 5;add after 4 6;add after 4 7;"
    "drain 1.6 9;drain 4.6 2;add alone 8;add alone 9;chain 1.9;setgen 4294967294;drain 1.9 1;drain 2.9 1;add alone 10",
    # Renumberings, with holes, and overflows.
    "reserve 16;add alone 1;add ring 2;add end 1.2 3;add alone 4;add start 4.2 5;add after 2.2 6;remove 1.2;remove 4.2;"
    "compress keep;chain 1.5;moves keep;show 1.6;show 2.6;show 3.6;show 4.6;canonical keep;moves reset;chain 1.2;incgen;moves keep;"
    "setgen 4294967295;moves keep;setgen 4294967295;canonical keep;setgen 4294967295;compress keep;setgen 4294967295;clear;"
    "setgen 4294967295;moves keep;canonical keep;compress keep;clear;incgen;incgen;moves reset;canonical reset;compress reset;"
    "add alone 7;setgen 4294967295;invalidate 1.2;setgen 4294967295;remove 1.2;add alone 8;setgen 4294967295;remove 1;setgen 1;"
    "add alone 9;show 1.1;invalidate 1.1;show 1.2;len",
    # Reservations.
    "reserve 2;reserve 2;reserve 0;reserve 1;add alone 1;reserve 8;len;addwithin alone 2;addwithin alone 3;chain 3.2",
]

# Lines that are no commands, and lines that test the limits of the syntax.
SYNTAX_LINES = [
    b"", b" ", b"   ", b"\r", b" \r", b"\r\r", b"len", b" len", b"len ", b"len\r", b"len \r", b"  len  ", b"len x", b"LEN", b"lena",
    b"\tlen", b"len\t", b"len\0", b"l\xc3\xa9n", b"\xff", b"hello", b"add", b"add alone", b"add alone 1 2", b"add 1", b"add end 1",
    b"add end 1.2", b"add between 1.2 3 9", b"add between 1 3.2 9", b"add bridge 1 9", b"add alone -1", b"add alone +1",
    b"add alone 4294967295", b"add alone 4294967296", b"add alone 0", b"add alone 0000000000", b"add alone 00000000000",
    b"add alone 0004294967295", b"add alone 9999999999", b"add alone 99999999999", b"add alone 1.2", b"add alone 0x1", b"add lone 1",
    b"add end 0 1", b"add end 0.2 1", b"add end 1.0 1", b"add end 1.2. 1", b"add end .2 1", b"add end 1. 1", b"add end . 1",
    b"add end 1..2 1", b"add end 1.2.3 1", b"add end 1,2 1", b"add after 1.4294967296 1", b"add after 4294967296 1",
    b"addwithin", b"addwithin alone", b"addwithin beside 1.2 1", b"connect 1.2", b"connect 1 2", b"connect 1.2 2", b"connect 1.2 2.2 3.2",
    b"breakprev", b"breakprev 1", b"breaknext 1 2", b"breaknext", b"exchange 1.2", b"exchange 1 1", b"remove", b"remove 0", b"remove 1 2",
    b"remove 1.0", b"invalidate", b"invalidate 1", b"drain 1.2", b"drain 1 1", b"drain 1.2 x", b"drain 1.2 1 1", b"drain 1.2 4294967296",
    b"drain 9.9 4294967295", b"clear x", b"compress", b"compress hold", b"compress keep keep", b"canonical", b"canonical Keep", b"moves",
    b"moves resets", b"reserve", b"reserve x", b"reserve 1 1", b"reserve -1", b"reserve 4294967296", b"setgen", b"setgen 0", b"setgen 1 1",
    b"setgen 4294967296", b"incgen 1", b"show", b"show 1", b"show 1.2 1.2", b"chain", b"chain 1", b"chain 1.2 2.2", b"len" + b" " * 197,
    b"len" + b" " * 198, b"len" + b" " * 196 + b"\r", b"len" + b" " * 197 + b"\r", b"len" + b" " * 198 + b"\r", b" " * 200, b" " * 201,
    b" " * 199 + b"\r", b" " * 200 + b"\r", b"x" * 200, b"x" * 201, b"x" * 70000, b" " * 70000 + b"len", b"add  alone   1", b" add alone 1 ",
]


def rows():
    """Yields the scripts written by hand, and scripts with the lines that test the syntax."""
    yield from (to_bytes(row.split(";")) for row in ROWS)
    first = to_bytes(["reserve 64", "add alone 1", "add ring 2"])
    yield first + SYNTAX_LINES + to_bytes(["len", "moves reset"])
    for line in SYNTAX_LINES:
        yield first + [line] + to_bytes(["len", "moves reset"])


# Calls on two links. The three-call scripts have each sequence of three of them.
CALLS = [
    "connect 1.2 1.2", "connect 1.2 2.2", "connect 2.2 1.2", "connect 2.2 2.2", "breakprev 1.2", "breakprev 2.2", "breaknext 1.2",
    "breaknext 2.2", "exchange 1.2 1.2", "exchange 1.2 2.2", "exchange 2.2 1.2", "remove 1.2", "remove 2", "invalidate 1.2",
    "drain 1.2 1", "add alone 3", "add ring 3", "add end 1.2 3", "add start 2 3", "add after 1.2 3", "add before 2.2 3",
    "add between 1.2 2.2 3", "add between 1 1 3", "add bridge 1.2 2.2 3", "add bridge 2 1 3", "add bridge 1.2 1.2 3", "compress keep",
    "canonical keep", "moves keep", "clear",
]

# Further calls, which `--all-calls` adds to these.
MORE_CALLS = [
    "exchange 2.2 2.2", "remove 2.2", "remove 1", "invalidate 2.2", "drain 1.2 0", "drain 2.2 1", "drain 2.2 2", "addwithin alone 3",
    "addwithin end 2.2 3", "add end 2.2 3", "add end 1 3", "add end 2 3", "add start 1.2 3", "add start 2.2 3", "add start 1 3",
    "add after 2.2 3", "add after 1 3", "add after 2 3", "add before 1.2 3", "add before 1 3", "add before 2 3", "add between 2.2 1.2 3",
    "add between 1.2 1.2 3", "add between 2.2 2.2 3", "add between 1 2 3", "add between 2 1 3", "add between 2 2 3",
    "add bridge 2.2 1.2 3", "add bridge 2.2 2.2 3", "add bridge 1 1 3", "add bridge 1 2 3", "add bridge 2 2 3", "compress reset",
    "canonical reset", "moves reset", "incgen", "setgen 4294967295",
]

# Makes an arena of two lone links with the counter 2, and with capacity for all links that three calls can add.
SETUP = ["clear", "setgen 2", "reserve 8", "add alone 1", "add alone 2"]
# Prints the next index and the counter, all pointers, and all neighbors and values.
REPORT = ["add alone 9", "moves reset", "show 1.2", "show 2.2", "show 3.2", "show 4.2", "show 5.2", "show 6.2"]


def three_call_scripts(all_calls):
    """Yields all scripts of three calls over two links."""
    calls = to_bytes(CALLS + (MORE_CALLS if all_calls else []))
    setup, report = to_bytes(SETUP), to_bytes(REPORT)
    for three_calls in itertools.product(calls, repeat=3):
        yield [*setup, *three_calls, *report]


class Writer:
    """Writes a random script. It has a model of the arena, so that most lines refer to links that exist."""

    def __init__(self, seed, max_links, capacity):
        self.rng = random.Random(seed)
        self.max_links = max_links
        self.model = Model(capacity or self.rng.choice([2, 3, 4, 8, 50]))
        self.lines = [f"reserve {self.model.capacity}"]
        self.stale = ["1.1"]

    def add_line(self, *words):
        self.lines.append(" ".join(map(str, words)))

    def any_index(self):
        """Returns the index of a random link, or 0 if there are no links."""
        return self.rng.choice(list(self.model.links)) if self.model.links else 0

    def value(self):
        return self.rng.choice([self.rng.randrange(100), self.rng.randrange(2**32)])

    def invalid_pointer(self):
        """Returns a pointer that is probably invalid: a stale one, another generation, or an index beyond the last."""
        rng, i = self.rng, self.any_index() or 1
        return rng.choice(
            [rng.choice(self.stale), f"{i}.{rng.randrange(1, 9)}", f"{self.model.slots + 1}.{self.model.counter}", f"{i}.{MAX_U32}"]
        )

    def pointer(self, i):
        """Returns the pointer of a link, or sometimes an invalid one."""
        if not self.model.contains(i) or self.rng.random() < 0.06:
            return self.invalid_pointer()
        return self.model.pointer(i)

    def keep_stale(self, i):
        """Keeps the pointer of a link among the last 20 stale ones."""
        self.stale.append(self.model.pointer(i))
        del self.stale[:-20]

    def indexes_of(self, words):
        """Returns the indexes of the links of pointers or indexes, 0 where there is no link."""
        indexes = [int(str(word).partition(".")[0]) for word in words]
        contains, pointer = self.model.contains, self.model.pointer
        return [i if contains(i) and word in (i, pointer(i)) else 0 for word, i in zip(words, indexes)]

    def arguments_for(self, *indexes):
        """Returns arguments for links, as pointers or as indexes, and the indexes of the links that they refer to."""
        if self.rng.random() < 0.3:
            if self.rng.random() < 0.06 or not all(indexes):
                indexes = [self.rng.randrange(1, self.model.slots + 3) for _ in indexes]
            return indexes, self.indexes_of(indexes)
        words = [self.pointer(i) for i in indexes]
        return words, self.indexes_of(words)

    def add(self):
        kind = self.rng.choice(["alone", "ring", "end", "start", "after", "before", "between", "bridge", "end", "after"])
        getattr(self, kind)("add" if self.rng.random() < 0.8 else "addwithin")

    def insert(self, name, words, is_met, before=0, after=0, ring=False):
        """Adds a line with an insertion. The model gets the link if the requirement is met and the capacity suffices."""
        self.add_line(name, *words, self.value())
        model = self.model
        if is_met and (name == "add" or len(model.links) < model.capacity):
            if ring:
                model.add_ring()
            else:
                model.add(before, after)

    def alone(self, name):
        self.insert(name, ["alone"], True)

    def ring(self, name):
        self.insert(name, ["ring"], True, ring=True)

    def neighbors(self, i):
        return self.model.links[i][1:] if self.model.contains(i) else (0, 0)

    def choose(self, is_good):
        """Returns the index of a random link. Draws up to eight times for a good one."""
        for _ in range(8):
            i = self.any_index()
            if i and is_good(*self.neighbors(i)):
                return i
        return self.any_index()

    def end(self, name):
        words, (i,) = self.arguments_for(self.choose(lambda before, after: not after))
        self.insert(name, ["end", *words], i and not self.neighbors(i)[1], before=i)

    def start(self, name):
        words, (i,) = self.arguments_for(self.choose(lambda before, after: not before))
        self.insert(name, ["start", *words], i and not self.neighbors(i)[0], after=i)

    def after(self, name):
        words, (i,) = self.arguments_for(self.any_index())
        self.insert(name, ["after", *words], i, before=i, after=self.neighbors(i)[1])

    def before(self, name):
        words, (i,) = self.arguments_for(self.any_index())
        self.insert(name, ["before", *words], i, before=self.neighbors(i)[0], after=i)

    def between(self, name):
        i = self.choose(lambda before, after: after)
        j = self.neighbors(i)[1] if self.rng.random() < 0.9 else self.any_index()
        words, (i, j) = self.arguments_for(i, j)
        self.insert(name, ["between", *words], i and j and self.neighbors(i)[1] == j, before=i, after=j)

    def bridge(self, name):
        words, (i, j) = self.arguments_for(self.choose(lambda before, after: not after), self.choose(lambda before, after: not before))
        is_met = i and j and not self.neighbors(i)[1] and not self.neighbors(j)[0]
        self.insert(name, ["bridge", *words], is_met, before=i, after=j)

    def add_command(self, name, *indexes):
        """Adds a line with a command on links. Returns their indexes, or zeros if a pointer is not valid."""
        words = [self.pointer(i) for i in indexes]
        self.add_line(name, *words)
        found = self.indexes_of(words)
        return found if all(found) else [0] * len(found)

    def connect(self):
        i = self.choose(lambda before, after: not after)
        j = self.choose(lambda before, after: not before)
        i, j = self.add_command("connect", i, j)
        if i and not self.neighbors(i)[1] and not self.neighbors(j)[0]:
            self.model.connect(i, j)

    def break_next(self):
        (i,) = self.add_command("breaknext", self.choose(lambda before, after: after))
        if self.neighbors(i)[1]:
            self.model.break_next(i)

    def break_prev(self):
        (i,) = self.add_command("breakprev", self.choose(lambda before, after: before))
        if self.neighbors(i)[0]:
            self.model.break_next(self.neighbors(i)[0])

    def exchange(self):
        i = self.choose(lambda before, after: after)
        j = self.choose(lambda before, after: after)
        i, j = self.add_command("exchange", i, j)
        if self.neighbors(i)[1] and self.neighbors(j)[1]:
            self.model.exchange(i, j)

    def remove(self):
        words, (i,) = self.arguments_for(self.any_index())
        self.add_line("remove", *words)
        if i:
            self.keep_stale(i)
            self.model.remove(i)

    def remove_some(self):
        for _ in range(self.rng.randrange(1, 6)):
            self.remove()

    def invalidate(self):
        (i,) = self.add_command("invalidate", self.any_index())
        if i:
            self.keep_stale(i)
            self.model.increment_counter()
            self.model.links[i][0] = self.model.counter

    def drain(self):
        word = self.pointer(self.any_index())
        self.add_line("drain", word, self.rng.choice([0, 1, 2, 3, 1000, MAX_U32]))
        (i,) = self.indexes_of([word])
        if i:
            self.keep_stale(i)
            self.model.drain(i)

    def clear(self):
        self.add_line("clear")
        self.model.clear()

    def renumber(self):
        name = self.rng.choice(["compress", "canonical", "moves"])
        reset = self.rng.random() < 0.2
        self.add_line(name, "reset" if reset else "keep")
        if self.model.links:
            self.keep_stale(self.any_index())
        order = sorted(self.model.links) if name == "compress" else self.model.canonical_order()
        self.model.renumber(order, reset)

    def reserve(self):
        """Adds a reservation of at most the capacity, or of at least twice the capacity. For these, both programs reserve the same."""
        capacity = self.model.capacity
        n = self.rng.choice([self.rng.randrange(capacity + 1), capacity, 2 * capacity, 2 * capacity + self.rng.randrange(9)])
        if n <= 4 * self.max_links:
            self.add_line("reserve", n)
            self.model.capacity = max(capacity, n)

    def set_counter(self):
        counter = self.rng.choice([1, 2, 3, self.model.counter, MAX_U32, MAX_U32 - 1, MAX_U32 - self.rng.randrange(20)])
        self.add_line("setgen", counter)
        self.model.counter = counter

    def increment_counter(self):
        self.add_line("incgen")
        self.model.increment_counter()

    def show(self):
        self.add_line("show", self.pointer(self.any_index()))

    def chain(self):
        self.add_line("chain", self.pointer(self.any_index()))

    def length(self):
        self.add_line("len")

    def syntax_line(self):
        line = self.rng.choice(SYNTAX_LINES)
        if len(line) < 300 and not line.strip().startswith((b"add ", b"reserve 6")):
            self.lines.append(line)

    def altered_line(self):
        """Adds the last line again, with a byte inserted, replaced or removed at a random position."""
        line = bytearray(to_bytes(self.lines[-1:])[0])
        position = self.rng.randrange(len(line) + 1)
        line[position : position + self.rng.randrange(2)] = self.rng.choice([b"", b" ", b"\r", b"\t", b".", b"x", b"  "])
        name = bytes(line).split()[:1]
        if name and name[0] in (b"show", b"chain", b"len", b"connec", b"remov", b"ad", b"drai"):
            self.lines.append(bytes(line))


# The methods that `random_script` calls, with the weight of each.
STEP_WEIGHTS = {
    "add": 30, "connect": 8, "break_next": 4, "break_prev": 4, "exchange": 6, "remove": 10, "remove_some": 1, "invalidate": 4, "drain": 2,
    "clear": 0.1, "renumber": 1.5, "reserve": 1, "set_counter": 1, "increment_counter": 1, "show": 16, "chain": 3, "length": 2,
    "syntax_line": 2, "altered_line": 2,
}


def random_script(seed, length, max_links, capacity=None):
    """Returns a script of about `length` lines. When there are more than `max_links` links, some are removed."""
    writer = Writer(seed, max_links, capacity)
    names, weights = list(STEP_WEIGHTS), list(STEP_WEIGHTS.values())
    while len(writer.lines) < length:
        name = writer.rng.choices(names, weights)[0]
        if len(writer.model.links) > max_links:
            name = writer.rng.choice(["drain", "remove_some", "remove", "renumber"])
        getattr(writer, name)()
        if name != "show" and writer.rng.random() < 0.3:
            writer.show()
    writer.add_line("moves reset")
    writer.lines += [f"show {k}.2" for k in range(1, min(max_links, 12))]
    return to_bytes(writer.lines)


def in_place_script(seed):
    """Returns the lines that make an arena, and those that compress it canonically and print it. The links have distinct values."""
    writer = Writer(seed, 12, None)
    writer.value = itertools.count(1).__next__
    while len(writer.lines) < writer.max_links * 2:
        getattr(writer, writer.rng.choice(["add", "add", "add", "connect", "exchange", "remove", "break_next"]))()
    count = len(writer.model.links)
    shows = [f"show {k}.2" for k in range(1, count + 1)]
    return to_bytes(writer.lines), to_bytes(["canonical reset", *shows, "len", "add alone 0"])
