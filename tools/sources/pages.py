"""Reads the pages: README, CONTRIBUTING, docs/ and the crates' READMEs."""
import functools
import os
import re

from .items import ROOT


@functools.cache
def read(path, encoding="utf-8"):
    with open(f"{ROOT}/{path}", encoding=encoding, newline="\n") as file:
        return file.read()


def code_blocks(text, language):
    """Returns the contents of the fenced code blocks in a language."""
    return re.findall(rf"^```{language}\n(.*?)^```", text, flags=re.S | re.M)


def table_rows(text):
    """Yields the cells of each row of the tables in a text, without heads and rules."""
    lines = text.splitlines()
    for k, line in enumerate(lines):
        is_head = k + 1 < len(lines) and re.match(r"\|\s*-", lines[k + 1])
        if line.startswith("|") and not is_head and not re.match(r"\|\s*-", line):
            yield [it.strip() for it in line.strip().strip("|").split("|")]


def words_of_glossary():
    """Yields each word of docs/GLOSSARY.md with the file that its row or the last one before it leads to, and its meaning."""
    path = None
    for cells in table_rows(read("docs/GLOSSARY.md")):
        for name, target in re.findall(r"`([^`]+)`(?:\]\(\.\./([^)#]+)[^)]*\))?", cells[0]):
            path = target or path
            if path:
                yield name, path, cells[-1]
