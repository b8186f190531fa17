"""Expected differences: those that known_differences.txt lists, and the arrangement by a compression in place."""
import itertools

import scripts
from programs import NO_RESPONSE, responses_of


class KnownDifferences:
    """The entries of known_differences.txt: scripts, and calls of cases, each with the last response of both sides."""

    def __init__(self, path):
        self.scripts, self.cases = [], {}
        with open(path, encoding="utf-8") as file:
            for entry in file.read().split("\n\n"):
                self.add_entry([line for line in entry.splitlines() if line and not line.startswith("#")])

    def add_entry(self, lines):
        if not lines:
            return
        *lines, ours, rust = lines
        responses = ours.removeprefix("ours: "), rust.removeprefix("Rust: ")
        if lines[0].startswith("case: "):
            self.cases[lines[0].removeprefix("case: "), lines[1]] = responses
        else:
            self.scripts.append((scripts.to_bytes(lines), responses))

    def contains_script(self, script, ours, rust):
        """Returns whether the script is listed with these last responses."""
        return (script, (ours[-1:], rust[-1:])) in [(lines, ([one], [other])) for lines, (one, other) in self.scripts]

    def compare_scripts(self, programs):
        """Returns the number of listed scripts, of their responses, and of scripts that do not differ as listed."""
        responses = unexpected = 0
        for lines, listed in self.scripts:
            ours, rust = (responses_of(it) for it in programs.both(lines))
            responses += len(ours)
            if ours == rust:
                print(f"A known difference does not occur: {lines[-1].decode()}")
            elif ours[:-1] != rust[:-1] or (ours[-1], rust[-1]) != listed:
                unexpected += 1
                print(f"The responses are not those of the known difference: {lines}, ours {ours}, Rust {rust}")
        print(f"listed scripts: {len(self.scripts)} scripts, {responses} responses")
        return len(self.scripts), responses, unexpected

    def compare_cases(self, expected, ours, rust):
        """Compares library_cases.txt line by line with what both libraries write. Returns the number of cases, of results, and of
        calls with an unexpected result."""
        lines, unexpected, case = expected.splitlines(), 0, ""
        for line, our_line, rust_line in itertools.zip_longest(lines, ours.splitlines(), rust.splitlines(), fillvalue=NO_RESPONSE):
            case = line[2:] if line.startswith("#") else case
            unexpected += not self.check_call(case, line, our_line, rust_line)
        count, compared = sum(line.startswith("#") for line in lines), sum(" = " in line for line in lines)
        print(f"cases of calls: {count} cases, {compared} results", flush=True)
        return count, compared, unexpected

    def check_call(self, case, line, our_line, rust_line):
        """Returns whether our result of a call in a case is that of the file, and the Rust's is the same or a known difference.
        Prints the results if not."""
        call, _, result = line.partition(" = ")
        ours, rust = our_line.removeprefix(f"{call} = "), rust_line.removeprefix(f"{call} = ")
        if our_line == line and (rust_line == line or self.cases.get((case, call)) == (result, rust)):
            return True
        print(f"A difference, in the case {case}:\n  {call}\n  file: {result}\n  ours: {ours}\n  Rust: {rust}")
        return False


def neighbors_of(responses):
    """Returns the values of the links before and after each link, or `None`, by its value. The responses are those of `show`."""
    links = [response.split() for response in responses]
    values = {f"{k + 1}.2": link[5] for k, link in enumerate(links)}
    return {link[5]: (values.get(link[1]), values.get(link[3])) for link in links}


def are_chains_contiguous(responses):
    """Returns whether each link begins its chain or is directly after the link before it. The responses are those of `show`."""
    links = [response.split() for response in responses]
    for k, link in enumerate(links):
        before = link[1].partition(".")[0]
        if before != "-" and int(before) != k and int(before) < k + 1:
            return False
    return True


def compare_in_place(programs, seed):
    """Compares a canonical compression in place. Returns the number of responses, and a list of the script if they differ.

    The order of the chains and the starts of cycles are not compared. The values of links are distinct, so each link's neighbors
    are compared by their values.
    """
    first, last = scripts.in_place_script(seed)
    script = first + last
    ours, rust = responses_of(programs.ours(script)), responses_of(programs.in_place(script))
    count = len(last) - 3
    shows = slice(len(first) + 1, len(first) + 1 + count)
    others = [ours[: shows.start] + ours[shows.stop :], rust[: shows.start] + rust[shows.stop :]]
    is_same = others[0] == others[1] and len(ours) == len(script)
    is_same = is_same and neighbors_of(ours[shows]) == neighbors_of(rust[shows])
    is_same = is_same and are_chains_contiguous(ours[shows]) and are_chains_contiguous(rust[shows])
    return len(ours), [] if is_same else [script]
