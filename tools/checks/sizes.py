"""Checks that the pages stay short."""
import os

from sources.items import ROOT, files_below
from sources.pages import read

README_LINES, WORDS, PAGE_BYTES, API_PAGE_BYTES, TOOLS = 100, 12_000, 60_000, 120_000, 9


def problems():
    pages = [it for it in files_below("docs") if it.endswith(".md")]
    lines = len(read("README.md").splitlines())
    words = sum(len(read(it).split()) for it in ["README.md", *pages] if not it.startswith("docs/api/"))
    tools = len([it for it in os.listdir(f"{ROOT}/tools") if it != "__pycache__"])
    if lines > README_LINES:
        yield f"README.md has {lines} lines, more than {README_LINES}"
    if words > WORDS:
        yield f"README.md and docs, without docs/api, have {words} words, more than {WORDS}"
    if tools > TOOLS:
        yield f"tools has {tools} entries, more than {TOOLS}"
    for page in ["README.md", "CONTRIBUTING.md", *pages]:
        limit = API_PAGE_BYTES if page.startswith("docs/api/") else PAGE_BYTES
        size = os.path.getsize(f"{ROOT}/{page}")
        if size > limit:
            yield f"{page} has {size} bytes, more than {limit}"
