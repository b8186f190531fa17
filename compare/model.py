"""A model of an arena of links: its pointers, neighbors, freed indexes, counter and capacity.

Scripts are written by it, so that most lines find their links. It also keeps the capacities of both programs equal, which grow
by different rules (known_differences.txt). No response is checked against it.
"""

MAX_U32 = 2**32 - 1


class Model:
    """The links of an arena by index. A link is its generation and the indexes before and after it, 0 for none."""

    def __init__(self, capacity):
        self.capacity = capacity
        self.counter = 2
        self.links, self.freed, self.slots = {}, [], 0

    def pointer(self, i):
        return f"{i}.{self.links[i][0]}"

    def contains(self, i):
        return i in self.links

    def increment_counter(self):
        self.counter = 2 if self.counter == MAX_U32 else self.counter + 1

    def take_index(self):
        """Returns the index of the next link. A full arena doubles its capacity."""
        if self.freed:
            return self.freed.pop()
        if self.slots == self.capacity:
            self.capacity *= 2
        self.slots += 1
        return self.slots

    def add(self, before, after):
        """Adds a link between two indexes, 0 for none, and returns its index."""
        i = self.take_index()
        self.links[i] = [self.counter, before, after]
        if before:
            self.links[before][2] = i
        if after:
            self.links[after][1] = i
        return i

    def add_ring(self):
        i = self.add(0, 0)
        self.links[i][1:] = [i, i]
        return i

    def connect(self, i, j):
        self.links[i][2], self.links[j][1] = j, i

    def break_next(self, i):
        j = self.links[i][2]
        self.links[i][2] = 0
        self.links[j][1] = 0

    def exchange(self, i, j):
        k, m = self.links[i][2], self.links[j][2]
        self.connect(i, m)
        self.connect(j, k)

    def remove(self, i):
        _, before, after = self.links.pop(i)
        if before and before != i:
            self.links[before][2] = after
        if after and after != i:
            self.links[after][1] = before
        self.freed.append(i)
        self.increment_counter()

    def walk(self, i):
        """Returns the indexes of a chain: from `i` to the end, and then from the link before `i` back to the start."""
        indexes, j = [i], self.links[i][2]
        while j and j != i:
            indexes.append(j)
            j = self.links[j][2]
        if not j:
            j = self.links[i][1]
            while j:
                indexes.append(j)
                j = self.links[j][1]
        return indexes

    def drain(self, i):
        for j in self.walk(i):
            self.remove(j)

    def clear(self):
        if self.links:
            self.increment_counter()
        self.links, self.freed, self.slots = {}, [], 0

    def start_of(self, i):
        """Returns the first link of a linear chain, or `i` itself in a cyclic one."""
        j = i
        while self.links[j][1] and self.links[j][1] != i:
            j = self.links[j][1]
        return i if self.links[j][1] else j

    def canonical_order(self):
        """Returns the indexes in the order of a canonical compression."""
        order, visited = [], set()
        for i in sorted(self.links):
            if i not in visited:
                chain = self.walk(self.start_of(i))
                order += chain
                visited.update(chain)
        return order

    def renumber(self, order, reset):
        """Moves the links to the indexes from 1 on, in the given order. `reset` sets the counter to 2."""
        if reset:
            self.counter = 2
        elif self.links:
            self.increment_counter()
        new = {0: 0, **{i: k + 1 for k, i in enumerate(order)}}
        self.links = {new[i]: [self.counter, new[before], new[after]] for i, (_, before, after) in self.links.items()}
        self.freed, self.slots = [], len(self.links)
