"""Writes the API as Markdown: a page for each crate, and an index."""
import os
import re

from sources.items import ROOT

from .entries import all_pages, code, meaning
from .topics import CRATES

FOLDER = f"{ROOT}/docs/api"

HOW_TO_READ = """A clause is shown with its label. It holds after the call; one that begins with `requires` has to hold before it, and a starred one is
about memory and loans. Below a trait that a type implements are its ghost members, and the clauses that its calls have beside those of
the trait. In a clause:

- `result` is what the call returns. `x.old` and `x.new` are what a `&mut` argument `x` refers to before and after the call, and `x.now`
  is what a `&` argument refers to.
- `P.key`, `A.entry` and names like these are ghost members, which are listed with their traits.
- Below the clauses, each word that they use and this repository defines has its meaning, with a link to its definition. The other words
  are of the standard library: `rt lemma WORD` finds them."""


class Page:
    """The lines of a page. Links to entries are written with their keys, and get their targets when all pages are known."""

    def __init__(self, name):
        self.name, self.lines, self.slugs, self.anchors = name, [], {}, {}

    def add(self, *lines):
        self.lines.extend([*lines, ""])

    def heading(self, level, text, name, key=None):
        """Adds a heading, and stores the anchor that Markdown renderers make for it."""
        self.add(f"{'#' * level} {text}")
        slug = re.sub(r"[^\w\s-]", "", name.lower()).replace(" ", "-")
        count = self.slugs.get(slug, 0)
        self.slugs[slug] = count + 1
        self.anchors[key or name] = f"{slug}-{count}" if count else slug

    def text(self, targets):
        """Returns the text of the page. `targets` has the page and the anchor of each key."""

        def target(match):
            page, anchor = targets[match[1]]
            return f"#{anchor}" if page == self.name else f"{page}.md#{anchor}"

        text = re.sub("\0(.*?)\0", target, "\n".join(self.lines))
        return re.sub(r"\n{3,}", "\n\n", text).rstrip() + "\n"


def source_of(item):
    """Returns the target of a link to the source of an item or a word."""
    # Items in the first lines of a file need no anchor.
    return f"../../{item.path}" + (f"#L{item.line}" if item.line > 12 else "")


def links_to(items):
    return ", ".join(f"[{code(name)}](\0{it.key}\0)" for it, name in items)


def add_entry(page, entry, level):
    page.heading(level, f"[{code(entry.name)}]({source_of(entry.item)})", entry.name, entry.key)
    for kind, content in entry.blocks:
        if kind == "text":
            page.add(content)
        elif kind == "code":
            page.add(f"```{content[0]}\n{content[1]}\n```")
        elif kind == "clauses":
            page.add(*content)
        elif kind == "words":
            page.add("Words:", "", *(f"- [{code(name)}]({source_of(word)}): {meaning(word)}" for name, word in content))
        elif kind == "list":
            page.add(f"{content[0]}:", "", *content[1])
        elif kind == "calls":
            page.add("Calls: " + links_to(content))
        elif kind == "alias":
            page.add(f"The fields or variants are those of {links_to(content)}.")


def calls_by_topic(crate_page):
    """Returns a line for each owner and topic of a crate's calls, with links."""
    lines = []
    for owner, topics in crate_page.calls:
        start = code(owner) if owner else "Functions"
        if len(topics) > 1:
            lines.append(f"- {start}")
            lines += [f"  - {topic}: {short_links(some)}" for topic, some in topics]
        else:
            lines.append(f"- {start}: {short_links(topics[0][1])}")
    for module, some in crate_page.laws_by_module():
        lines.append(f"- Laws{f' of {code(module)}' if module else ''}: {short_links(some)}")
    return lines


def short_links(entries):
    return links_to([(it, it.item.name) for it in entries])


def crate_page_of(crate_page):
    page = Page(crate_page.name)
    page.heading(1, crate_page.name, crate_page.name)
    page.add(crate_page.about)
    page.add("[All crates, and how to read a contract](README.md).")
    page.add(*calls_by_topic(crate_page))
    for title, entries in ("Types", crate_page.types), ("Traits", crate_page.traits):
        if entries:
            page.add(f"{title}: {links_to([(it, it.name) for it in entries])}")
    if crate_page.elsewhere:
        page.add("Exported here, too: " + links_to([(it, path) for path, it in crate_page.elsewhere]))
    for owner, topics in crate_page.calls:
        page.heading(2, f"Calls of {code(owner)}" if owner else "Functions", f"Calls of {owner}" if owner else "Functions")
        for topic, some in topics:
            if topic:
                page.heading(3, topic, topic, f"{owner} {topic}")
            for it in some:
                add_entry(page, it, 4 if topic else 3)
    laws = [(f"Laws of {module}" if module else "Laws", some) for module, some in crate_page.laws_by_module()]
    for title, entries in [("Types", crate_page.types), ("Traits", crate_page.traits), *laws]:
        if entries:
            page.heading(2, title, title)
            for it in entries:
                add_entry(page, it, 3)
    return page


def index_page(crate_pages):
    page = Page("README")
    page.heading(1, "API", "API")
    page.add("What users can call, crate by crate, with its contract. `tools/write_api` writes these pages from the sources; each heading links to its source. `tools/write_api --html FOLDER` writes them as a site with a search.")
    page.add("|Crate|What it has|", "|---|---|", *(f"|[{name}]({name}.md)|{about}|" for name, about in CRATES.items()))
    page.heading(2, "How to read a contract", "How to read a contract")
    page.add(HOW_TO_READ)
    page.heading(2, "All calls", "All calls")
    for it in crate_pages:
        page.heading(3, f"[{it.name}]({it.name}.md)", it.name, f"calls of {it.name}")
        page.add(*calls_by_topic(it))
    return page


def markdown_pages():
    """Returns the texts of all pages by their paths below docs/api."""
    crate_pages = all_pages()
    pages = [index_page(crate_pages), *map(crate_page_of, crate_pages)]
    targets = {key: (page.name, anchor) for page in pages for key, anchor in page.anchors.items()}
    return {f"{page.name}.md": page.text(targets) for page in pages}


def outdated_pages():
    """Returns the names of the pages that are missing, not current, or not written any more."""
    pages, current = markdown_pages(), {}
    for name in os.listdir(FOLDER) if os.path.isdir(FOLDER) else []:
        with open(f"{FOLDER}/{name}", encoding="utf-8") as file:
            current[name] = file.read()
    return sorted(name for name in pages.keys() | current.keys() if pages.get(name) != current.get(name))


def write_pages():
    pages = markdown_pages()
    os.makedirs(FOLDER, exist_ok=True)
    for name in set(os.listdir(FOLDER)) - pages.keys():
        os.remove(f"{FOLDER}/{name}")
    for name, text in pages.items():
        with open(f"{FOLDER}/{name}", "w", encoding="utf-8") as file:
            file.write(text)
