"""Runs both programs, and shrinks scripts whose responses differ."""
import subprocess

from scripts import text_of

NO_RESPONSE = "no response"


def responses_of(output):
    return [line.decode("utf-8", "replace") for line in output.split(b"\n")[:-1]]


class Programs:
    """The program of this repository, and the program over the Rust crate."""

    def __init__(self, tool, rust):
        self.tool = tool
        self.rust = f"{rust}/responses"

    def output(self, command, script):
        """Returns what a program writes, followed by its exit status if that is not 0."""
        run = subprocess.run(command, input=text_of(script), stdout=subprocess.PIPE, stderr=subprocess.DEVNULL, check=False)
        end = b"" if run.returncode == 0 else f"status {run.returncode}\n".encode()
        return run.stdout + end

    def ours(self, script):
        return self.output([self.tool], script)

    def by_transfer(self, script):
        """Returns the output of the Rust program, in which the transfer executes `canonical F`."""
        return self.output([self.rust, "--by-transfer"], script)

    def in_place(self, script):
        """Returns the output of the Rust program, in which `compress_canonical` executes `canonical F`."""
        return self.output([self.rust], script)

    def both(self, script):
        return self.ours(script), self.by_transfer(script)


def first_difference(programs, script):
    """Returns the first responses that differ, each as its kind, or `None`."""
    ours, rust = (responses_of(it) for it in programs.both(script))
    for our_response, rust_response in zip(ours + [NO_RESPONSE] * len(rust), rust + [NO_RESPONSE] * len(ours)):
        if our_response != rust_response:
            return kind_of(our_response), kind_of(rust_response)
    return None


def kind_of(response):
    """Returns the first 12 characters of a response that are not digits."""
    return "".join(letter for letter in response if not letter.isdigit())[:12]


def differs(programs, script):
    return first_difference(programs, script) is not None


def shrink(programs, script):
    """Returns the script without the lines that its first difference does not need.

    Pieces of lines are removed while that difference remains. The pieces become ever smaller.
    """
    difference, size = first_difference(programs, script), max(1, len(script) // 2)
    while size:
        smaller = without_pieces(programs, script, size, difference)
        if size > 1 or len(smaller) == len(script):
            size //= 2
        script = smaller
    return script


def without_pieces(programs, script, size, difference):
    """Returns the script without each piece of `size` lines that the difference does not need."""
    start = 0
    while start < len(script):
        smaller = script[:start] + script[start + size :]
        if first_difference(programs, smaller) == difference:
            script = smaller
        else:
            start += size
    return script
