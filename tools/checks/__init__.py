"""The parts of `tools/check`. Each has a function `problems` that returns a line for each problem."""
