"""Web pages of the documents: the part of Markdown that they use, and no more.

That is headings, paragraphs, lists in one another, tables, blocks of code, spans of code, bold and italic words, and links. A span of
code that names a document is a link to its page.
"""

import html
import re

STYLE = """body{max-width:60rem;margin:1rem auto;padding:0 1rem;font:16px/1.5 sans-serif;color:#222}
pre{background:#f4f4f4;padding:.7rem;overflow-x:auto}code{font-family:monospace;font-size:92%}
table{border-collapse:collapse;margin:1rem 0}td,th{border:1px solid #bbb;padding:.25rem .5rem;text-align:left;vertical-align:top}
nav{font-size:90%}"""
ITEM = re.compile(r"( *)(?:[-*]|(\d+)\.) +(.*)")
FENCE = re.compile(r"^ *```(.*)$")
HEADING = re.compile(r"^(#{1,6}) +(.*)")


class Spans:
    """What stands within a line."""

    def __init__(self, documents):
        self.documents = documents

    def code(self, text):
        name = re.fullmatch(r"(?:docs/)?([A-Z]+)\.md", text)
        shown = f"<code>{html.escape(text)}</code>"
        return f'<a href="{name[1]}.html">{shown}</a>' if name and name[1] in self.documents else shown

    def plain(self, text):
        shown = re.sub(r"&lt;br/?&gt;", "<br>", html.escape(text, quote=False))
        shown = re.sub(r"\[([^\]]+)\]\(((?:https?://|#)[^)\s]+)\)", r'<a href="\2">\1</a>', shown)
        shown = re.sub(r"\*\*(\S(?:.*?\S)?)\*\*", r"<b>\1</b>", shown)
        return re.sub(r"(?<!\w)\*(\S(?:[^*]*?\S)?)\*(?!\w)", r"<i>\1</i>", shown)

    def of(self, text):
        """A text whose code stands between backquotes."""
        parts = re.split(r"`([^`]+)`", text)
        codes = [self.code(it) for it in parts[1::2]]
        # (a sign takes the place of each code, so that bold words may have code among them)
        return re.sub("\x00(\\d+)\x00", lambda it: codes[int(it[1])],
                      self.plain("".join(it if at % 2 == 0 else f"\x00{at // 2}\x00" for at, it in enumerate(parts))))


class Page:
    """A document on its way to a page: lines that are left, and the text so far."""

    def __init__(self, text, documents):
        self.lines, self.spans, self.made = text.splitlines(), Spans(documents), []

    def block(self):
        """Takes the next block of lines."""
        line = self.lines[0]
        heading = HEADING.match(line)
        if not line.strip():
            self.lines.pop(0)
        elif FENCE.match(line):
            self.made.append(self.code())
        elif heading:
            self.lines.pop(0)
            self.made.append(self.heading(len(heading[1]), heading[2]))
        elif line.startswith("|"):
            self.made.append(self.table())
        elif ITEM.match(line):
            self.made.append(self.items(self.taken(lambda it: it.strip())))
        else:
            words = self.taken(lambda it: it.strip() and not FENCE.match(it) and not HEADING.match(it) and not ITEM.match(it) and it[0] != "|")
            self.made.append(f"<p>{self.spans.of(chr(10).join(words))}</p>")

    def taken(self, holds):
        """The lines up to the first of which something does not hold; at least one."""
        count = 1
        while count < len(self.lines) and holds(self.lines[count]):
            count += 1
        found, self.lines = self.lines[:count], self.lines[count:]
        return found

    def heading(self, level, text):
        place = re.sub(r"[^\w\- ]", "", text.lower()).replace(" ", "-")
        return f'<h{level} id="{html.escape(place)}">{self.spans.of(text)}</h{level}>'

    def code(self):
        """A block of code. Its lines lie as deep as its first one."""
        first = self.lines.pop(0)
        margin, written = len(first) - len(first.lstrip()), []
        while self.lines and not FENCE.match(self.lines[0]):
            line = self.lines.pop(0)
            written.append(line[margin:] if not line[:margin].strip() else line)
        self.lines[:1] = []
        return f"<pre><code>{html.escape(chr(10).join(written))}\n</code></pre>"

    def table(self):
        rows = [re.split(r"(?<!\\)\|", it.strip().strip("|")) for it in self.taken(lambda it: it.startswith("|"))]
        made = ["<table>"]
        for at, row in enumerate(rows):
            if not all(re.fullmatch(r" *:?-+:? *", cell) for cell in row):
                kind = "td" if at else "th"
                made.append("<tr>" + "".join(f"<{kind}>{self.spans.of(cell.strip())}</{kind}>" for cell in row) + "</tr>")
        return "\n".join([*made, "</table>"])

    def items(self, lines):
        """A list, with the lists in it: each item has the lines behind it that are indented further than its own."""
        first = ITEM.match(lines[0])
        kind, made = ("ol" if first[2] else "ul"), []
        while lines:
            head = ITEM.match(lines.pop(0))
            text, inner = [head[3]], []
            while lines and not (ITEM.match(lines[0]) and len(ITEM.match(lines[0])[1]) <= len(first[1])):
                (inner if inner or ITEM.match(lines[0]) else text).append(lines.pop(0))
            below = self.items(inner) if inner else ""
            made.append(f"<li>{self.spans.of(chr(10).join(it.strip() for it in text))}{below}</li>")
        start = f' start="{first[2]}"' if first[2] and first[2] != "1" else ""
        return f"<{kind}{start}>\n" + "\n".join(made) + f"\n</{kind}>"


def page_of(name, text, documents):
    """The page of a document, with links to the others."""
    page = Page(text, documents)
    while page.lines:
        page.block()
    title = html.escape(next((it[2:] for it in text.splitlines() if it.startswith("# ")), name))
    others = " ".join(f'<a href="{it}.html">{it}</a>' for it in documents)
    head = f'<!DOCTYPE html>\n<html lang="en"><head><meta charset="utf-8"><title>{title}</title>\n<style>{STYLE}</style></head>'
    return f"{head}\n<body>\n<nav>{others}</nav>\n" + "\n".join(page.made) + "\n</body></html>\n"
