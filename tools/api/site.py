"""Writes the API as a site: a page for each crate, an index, the definitions of words, and a search. Nothing is loaded from elsewhere."""
import html
import json
import os
import re

from .entries import all_pages, as_markdown, definition_text, meaning
from .pages import HOW_TO_READ
from .topics import CRATES

STYLE = """:root { color-scheme: light dark; --text: #1c1e21; --muted: #5b626b; --back: #ffffff; --box: #f4f5f7; --line: #d9dce1; --link: #0b57a4; }
@media (prefers-color-scheme: dark) {
  :root { --text: #dfe2e6; --muted: #9aa2ad; --back: #16181b; --box: #202428; --line: #363c43; --link: #7db7f5; }
}
* { box-sizing: border-box; }
html { scroll-padding-top: 4rem; }
body { margin: 0; background: var(--back); color: var(--text); font: 16px/1.5 system-ui, sans-serif; }
a { color: var(--link); text-decoration: none; }
a:hover { text-decoration: underline; }
header { position: sticky; top: 0; z-index: 1; display: flex; gap: 1rem; align-items: center; padding: .6rem 1.2rem; background: var(--back); border-bottom: 1px solid var(--line); }
header input { flex: 1; max-width: 34rem; padding: .4rem .7rem; font: inherit; color: inherit; background: var(--box); border: 1px solid var(--line); border-radius: 6px; }
.columns { display: grid; grid-template-columns: 17rem minmax(0, 1fr); }
nav { position: sticky; top: 3.6rem; height: calc(100vh - 3.6rem); overflow: auto; padding: 1rem 1.2rem; border-right: 1px solid var(--line); font-size: .88rem; }
nav ul { list-style: none; margin: 0; padding: 0; }
nav h2 { margin: 1.1rem 0 .2rem; padding: 0; border: 0; font-size: .8rem; color: var(--muted); }
nav li { overflow: hidden; text-overflow: ellipsis; white-space: nowrap; }
main { max-width: 60rem; padding: 1rem 2rem 6rem; }
h1 { font-size: 1.7rem; margin: .6rem 0; }
h2 { font-size: 1.3rem; margin: 2.4rem 0 .6rem; padding-bottom: .2rem; border-bottom: 1px solid var(--line); }
h3 { font-size: 1.05rem; margin: 1.8rem 0 .4rem; color: var(--muted); }
h4 { font-size: 1rem; margin: 0; }
code, pre { font-family: ui-monospace, "DejaVu Sans Mono", monospace; font-size: .88em; }
code { overflow-wrap: anywhere; }
pre { margin: .6rem 0; padding: .7rem .9rem; background: var(--box); border-radius: 6px; overflow-x: auto; }
pre code { overflow-wrap: normal; font-size: .92em; }
article { margin: 1.3rem 0; padding: .8rem 1rem; border: 1px solid var(--line); border-radius: 8px; }
article:target { border-color: var(--link); }
article .source { float: right; font-size: .78rem; color: var(--muted); }
p, ul { margin: .5rem 0; }
ul ul { margin: 0; }
details { margin: .4rem 0; }
summary { cursor: pointer; color: var(--muted); font-size: .92rem; }
table { border-collapse: collapse; width: 100%; }
td { padding: .35rem .6rem .35rem 0; border-bottom: 1px solid var(--line); vertical-align: top; }
#found { display: none; position: absolute; top: 100%; left: 0; right: 0; max-height: 75vh; overflow: auto; padding: .6rem 1.2rem; background: var(--back); border-bottom: 1px solid var(--line); }
#found a { display: block; padding: .3rem 0; color: inherit; }
#found small { color: var(--muted); }
@media (max-width: 50rem) { .columns { display: block; } nav { display: none; } main { padding: 1rem; } article .source { float: none; display: block; } }
"""

SEARCH = """const entries = %s;
const input = document.getElementById("search"), found = document.getElementById("found");
// Names that begin with the text come first, then names that contain it, then first sentences.
function rank([name, sentence], text) {
  const last = name.split("::").pop().toLowerCase();
  if (last.startsWith(text)) return last === text ? 0 : 1;
  if (name.toLowerCase().includes(text)) return 2;
  return text.split(" ").every(it => (name + " " + sentence).toLowerCase().includes(it)) ? 3 : 9;
}
function show() {
  const text = input.value.trim().toLowerCase();
  found.replaceChildren();
  const some = text ? entries.map(it => [rank(it, text), it]).filter(it => it[0] < 9).sort((a, b) => a[0] - b[0]).slice(0, 40) : [];
  for (const [, [name, sentence, target]] of some) {
    const link = document.createElement("a"), title = document.createElement("code"), small = document.createElement("small");
    link.href = target; title.textContent = name; small.textContent = " " + sentence;
    link.append(title, small); found.append(link);
  }
  found.style.display = text ? "block" : "none";
  if (text && !some.length) found.textContent = "Nothing has this name or first sentence.";
}
input.addEventListener("input", show);
found.addEventListener("click", () => { input.value = ""; show(); });
document.addEventListener("keydown", event => {
  if (event.key === "/" && event.target !== input) { event.preventDefault(); input.focus(); }
  if (event.key === "Escape") { input.value = ""; show(); }
  if (event.key === "Enter" && event.target === input && found.firstElementChild) found.firstElementChild.click();
});
input.value = decodeURIComponent(location.search.slice(1));
show();
"""

PAGE = """<!doctype html>
<html lang="en">
<head>
<meta charset="utf-8">
<meta name="viewport" content="width=device-width, initial-scale=1">
<title>{title}</title>
<link rel="stylesheet" href="style.css">
</head>
<body>
<header><a href="index.html"><b>API</b></a><input id="search" type="search" placeholder="Search names and first sentences ( / )" aria-label="Search"><div id="found"></div></header>
<div class="columns">
<nav>{contents}</nav>
<main>
{main}
</main>
</div>
<script src="search.js"></script>
</body>
</html>
"""


def plain(text):
    """Returns Markdown text without its marks."""
    return re.sub(r"\\([<*\\])", r"\1", text.replace("`", ""))


def inline(text):
    """Returns HTML for code, bold text and links in a line of Markdown."""
    codes = []

    def hidden(match):
        codes.append(html.escape(match[0].strip("`").strip(), quote=False))
        return f"\1{len(codes) - 1}\2"

    text = html.escape(re.sub(r"``.+?``|`[^`]+`", hidden, text), quote=False)
    text = re.sub(r"\*\*(.+?)\*\*", r"<b>\1</b>", text)
    text = re.sub(r"\[([^\]]+)\]\(([^)]+)\)", r'<a href="\2">\1</a>', text)
    text = re.sub(r"\\([*\\]|&lt;)", r"\1", text)
    return re.sub("\1(\\d+)\2", lambda it: f"<code>{codes[int(it[1])]}</code>", text)


def markdown(text):
    """Returns HTML for paragraphs, lists and code blocks in Markdown."""
    out, paragraph, depth, is_code = [], [], 0, False

    def end_paragraph():
        if paragraph:
            out.append(f"<p>{inline(' '.join(paragraph))}</p>")
            paragraph.clear()

    for line in text.split("\n"):
        if line.startswith("```"):
            end_paragraph()
            is_code = not is_code
            out.append("<pre><code>" if is_code else "</code></pre>")
        elif is_code:
            out.append(html.escape(line, quote=False))
        elif item := re.match(r"( *)- (.*)", line):
            end_paragraph()
            level = len(item[1]) // 2 + 1
            out.append("<ul>" * (level - depth) + "</ul>" * (depth - level) + f"<li>{inline(item[2])}")
            depth = level
        elif depth and line.startswith("  "):
            out.append(inline(line.strip()))
        else:
            out.append("</ul>" * depth)
            depth = 0
            if line.strip():
                paragraph.append(line.strip())
            else:
                end_paragraph()
    end_paragraph()
    return "\n".join(filter(None, [*out, "</ul>" * depth])).replace("<pre><code>\n", "<pre><code>")


class Site:
    """The pages of the site by file name, the definitions of words, and the rows of the search."""

    def __init__(self):
        self.words, self.rows, self.targets = {}, [], {}

    def link(self, text, key):
        return f'<a href="{self.targets.get(key, "#")}">{html.escape(text)}</a>'

    def resolved(self, text):
        return re.sub("\0(.*?)\0", lambda it: self.targets.get(it[1], "#"), text)

    def words_list(self, content):
        lines = []
        for name, word in content:
            self.words[word.key] = word
            lines.append(f'<li><a href="words.html#{anchor_of(word)}"><code>{html.escape(name)}</code></a>: {inline(meaning(word))}</li>')
        return f"<ul>{''.join(lines)}</ul>"

    def article(self, entry):
        parts = [f'<article id="{entry.name}"><span class="source">{entry.item.path}:{entry.item.line}</span><h4><code>{html.escape(entry.name)}</code></h4>']
        folded = []
        for kind, content in entry.blocks:
            if kind == "text":
                parts.append(markdown(self.resolved(content)))
            elif kind == "code" and content[0] == "rust":
                parts.append(f"<pre><code>{html.escape(content[1])}</code></pre>")
            elif kind == "code":
                folded.append(f"<pre><code>{html.escape(content[1])}</code></pre>")
            elif kind == "clauses":
                folded.append(markdown(self.resolved("\n".join(content))))
            elif kind == "words":
                folded.append(f"<p>Words:</p>{self.words_list(content)}")
            elif kind == "list":
                folded.append(f"<p>{content[0]}:</p>" + markdown(self.resolved("\n".join(content[1]))))
            elif kind in ("calls", "alias"):
                title = "Calls" if kind == "calls" else "Its fields or variants are those of"
                parts.append(f"<p>{title}: " + ", ".join(self.link(name, it.key) for it, name in content) + "</p>")
        count = sum(len(content) for kind, content in entry.blocks if kind == "clauses")
        title = f"{count} clause{'s' if count != 1 else ''}" if count else "Contract"
        if folded:
            # The details follow the signature, before the doc comment.
            parts.insert(2, f"<details><summary>{title}</summary>{''.join(folded)}</details>")
        return "\n".join([*parts, "</article>"])

    def crate_page(self, page):
        main, contents = [f"<h1>{page.name}</h1>", f"<p>{inline(page.about)}</p>"], []
        for owner, topics in page.calls:
            title = f"Calls of <code>{html.escape(owner)}</code>" if owner else "Functions"
            main.append(f"<h2>{title}</h2>")
            for topic, some in topics:
                main += [f"<h3>{topic}</h3>"] if topic else []
                main += [self.article(it) for it in some]
                contents.append(self.contents(f"{owner or 'Functions'}{f': {topic}' if topic else ''}", some))
        laws = [(f"Laws of {module}" if module else "Laws", some) for module, some in page.laws_by_module()]
        for title, some in [("Types", page.types), ("Traits", page.traits), *laws]:
            if some:
                main += [f"<h2>{title}</h2>", *(self.article(it) for it in some)]
                contents.append(self.contents(title, some))
        if page.elsewhere:
            main.append("<p>Exported here, too: " + ", ".join(self.link(path, it.key) for path, it in page.elsewhere) + "</p>")
        return PAGE.format(title=page.name, contents="".join(contents), main="\n".join(main))

    def contents(self, title, entries):
        rows = "".join(f'<li><a href="#{it.name}">{html.escape(it.name.rpartition("::")[2])}</a></li>' for it in entries)
        return f"<h2>{html.escape(title)}</h2><ul>{rows}</ul>"

    def index(self):
        rows = "".join(f'<tr><td><a href="{name}.html">{name}</a></td><td>{inline(about)}</td></tr>' for name, about in CRATES.items())
        main = f"<h1>API</h1><p>What users can call, crate by crate, with its contract.</p><table>{rows}</table><h2>How to read a contract</h2>{markdown(HOW_TO_READ)}"
        contents = "<h2>Crates</h2><ul>" + "".join(f'<li><a href="{name}.html">{name}</a></li>' for name in [*CRATES, "words"]) + "</ul>"
        return PAGE.format(title="API", contents=contents, main=main)

    def words_page(self):
        # Definitions use words in turn.
        todo = list(self.words.values())
        while todo:
            for word in todo.pop().words_used().values():
                if word.key not in self.words:
                    self.words[word.key] = word
                    todo.append(word)
        main = ["<h1>Words</h1><p>The definitions that clauses name, and those that these name in turn.</p>"]
        for word in sorted(self.words.values(), key=lambda it: (it.name.lower(), it.name, it.path)):
            used = ", ".join(f'<a href="#{anchor_of(it)}"><code>{html.escape(name)}</code></a>' for name, it in word.words_used().items())
            comment = f"<p>{inline(as_markdown(word.comment))}</p>" if word.comment else ""
            main.append(
                f'<article id="{anchor_of(word)}"><span class="source">{word.path}:{word.line}</span><h4><code>{html.escape(word.name)}</code></h4>{comment}'
                f"<details open><summary>Definition</summary><pre><code>{html.escape(definition_text(word))}</code></pre>{f'<p>Words: {used}</p>' if used else ''}</details></article>"
            )
            self.rows.append([word.name, plain(meaning(word)), f"words.html#{anchor_of(word)}"])
        crates = "<h2>Crates</h2><ul>" + "".join(f'<li><a href="{name}.html">{name}</a></li>' for name in CRATES) + "</ul>"
        return PAGE.format(title="Words", contents=crates, main="\n".join(main))


def anchor_of(word):
    return word.path.removeprefix("crates/").removesuffix(".antt").replace("/specs/", "-") + "-" + word.name


def write_site(folder):
    site, pages = Site(), all_pages()
    for page in pages:
        for it in page.entries():
            site.targets[it.key] = f"{page.name}.html#{it.name}"
            site.rows.append([it.name, plain(it.summary), site.targets[it.key]])
    files = {f"{page.name}.html": site.crate_page(page) for page in pages}
    files |= {"index.html": site.index(), "words.html": site.words_page(), "style.css": STYLE}
    files["search.js"] = SEARCH % json.dumps(site.rows, ensure_ascii=False)
    os.makedirs(folder, exist_ok=True)
    for name, text in files.items():
        with open(f"{folder}/{name}", "w", encoding="utf-8") as file:
            file.write(text)
