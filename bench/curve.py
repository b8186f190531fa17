"""Prints the curve of docs/BENCHMARKS.md: the time of a link in a canonical compression, by the number of links."""
from measures import Times
from tables import ratio, table

LINKS = [1_000, 2_000, 5_000, 10_000, 20_000, 50_000, 100_000, 200_000, 500_000, 1_000_000]
CASES = ["canonical_behind", "canonical_tangled"]
SIDES = ["ours", "Rust"]


def print_curve(options, sides):
    """Measures both cases on both sides."""
    sides = [side for side in sides if side.name in SIDES]
    headers = [f"`{case}`: {column}" for case in CASES for column in (*SIDES, "ours / Rust")]
    table(["links", *headers], [[f"{links:,}", *(cell for case in CASES for cell in cells(options, sides, case, links))] for links in LINKS])


def cells(options, sides, case, links):
    """Returns the best time of each side, and their ratio."""
    times = Times(case, links, options.chain).measure(sides, options.runs, options.seconds)
    bests = [times.best(name) for name in SIDES]
    return [*("" if best is None else f"{best:.1f}" for best in bests), ratio(*bests)]
