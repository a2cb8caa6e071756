"""Reports as pages of HTML and as Markdown, read back into the cells that they show."""
import re
from html import unescape
from html.parser import HTMLParser


class Page(HTMLParser):
    """The paragraphs of a page, and the lines of its table, each with its cells as text. A cell of which one version alone has the text is a
    pair of its mark, `del` or `ins`, and the text. A tag that the program does not write is a fault."""

    TAGS = {"html", "head", "meta", "title", "style", "body", "p", "table", "thead", "tbody", "tr", "th", "td", "del", "ins"}

    def __init__(self, text):
        super().__init__()
        self.paragraphs, self.lines, self.within = [], [], []
        self.feed(text)
        self.close()

    def handle_starttag(self, tag, attributes):
        if tag not in self.TAGS or not {name for name, _ in attributes} <= {"lang", "charset", "name", "content", "class", "colspan"}:
            raise ValueError(f"a tag {tag} with {attributes}")
        self.within.append(tag)
        if tag == "tr":
            self.lines.append([])
        elif tag in ("td", "th"):
            self.lines[-1].append("")
        elif tag == "p":
            self.paragraphs.append("")
        elif tag in ("del", "ins"):
            self.lines[-1][-1] = (tag, "")
        elif tag == "meta":
            self.within.pop()

    def handle_endtag(self, tag):
        if not self.within or self.within.pop() != tag:
            raise ValueError(f"an end of {tag} that is not open")

    def handle_data(self, text):
        place = self.within[-1] if self.within else ""
        if place in ("td", "th"):
            self.lines[-1][-1] += text
        elif place in ("del", "ins"):
            self.lines[-1][-1] = (place, self.lines[-1][-1][1] + text)
        elif place == "p":
            self.paragraphs[-1] += text
        elif text.strip() and place not in ("title", "style"):
            raise ValueError(f"a text {text!r} in {place}")


class QuickPage(Page):
    """The same of a page of a hundred thousand lines, which the parser of the library would take long for: a tag stands between < and >, and
    most lines are a row of the table."""

    TOKEN = re.compile(r"<(/?)([a-z]+)(?: ([^<>]*))?>|([^<>]+)")
    NAME = re.compile(r'([a-z]+)="[^"]*"')
    ROW = re.compile(r'<tr(?: class="[a-z]+")?>(?:<(t[dh])>(?:<(del|ins)>[^<>]+</\2>|[^<>]*)</\1>)+</tr>')
    CELL = re.compile(r"<t[dh]>(?:<(del|ins)>([^<>]*)</(?:del|ins)>|([^<>]*))</t[dh]>")

    def feed(self, text):
        if not text.startswith("<!DOCTYPE html>\n"):
            raise ValueError("no page of HTML")
        lines = text.split("\n")
        for line in lines[1:-1]:
            if self.within[-1:] == ["tbody"] and self.ROW.fullmatch(line):
                plain = unescape if "&" in line else str
                self.lines.append([(mark, plain(marked)) if mark else plain(bare) for mark, marked, bare in self.CELL.findall(line)])
            else:
                self.feed_tags(line + "\n")
        self.feed_tags(lines[-1])

    def feed_tags(self, text):
        end = 0
        for found in self.TOKEN.finditer(text):
            closing, tag, attributes, between = found.groups()
            if found.start() != end:
                raise ValueError(f"a mark that is one: {text[end:][:100]!r}")
            end = found.end()
            if between:
                self.handle_data(unescape(between) if "&" in between else between)
            elif closing:
                self.handle_endtag(tag)
            else:
                self.handle_starttag(tag, [(it, "") for it in self.NAME.findall(attributes or "")])
        if end != len(text):
            raise ValueError(f"a mark that is one: {text[end:][:100]!r}")

    def close(self):
        pass


class Markdown:
    """The items of the list of a page of Markdown, the lines of its table, each with its cells as text, and the lines after it. A cell of
    two versions, the old one struck through and the new one in bold, is a pair. A mark that stands there bare is a fault."""

    CELLS = re.compile(r"([^\\|]*(?:\\.[^\\|]*)*)\|", re.S)
    BESIDE = re.compile(r"[^\\|]+|\\.", re.S)
    PAIR = re.compile(r" ~~([^\\~*]*(?:\\.[^\\~*]*)*)~~ \*\*([^\\~*]*(?:\\.[^\\~*]*)*)\*\* ", re.S)
    ESCAPED = re.compile(r"\\([!-/:-@\[-`{-~])")
    MARK = re.compile(r"[\\`*_~|<>&\[\]()#!@]")

    def __init__(self, text):
        self.items, self.lines, self.paragraphs = [], [], []
        for line in text.split("\n"):
            if line.startswith("|"):
                self.lines.append([self.read(it) for it in self.CELLS.findall(line, 1)])
                if not line.endswith("|") or "\\" in line and self.BESIDE.sub("", line)[-1:] != "|":
                    raise ValueError(f"a line with no end: {line!r}")
            elif line.startswith("- "):
                self.items.append(self.plain(line[2:]))
            elif line:
                self.paragraphs.append(self.plain(line))
        if len(self.lines) > 1 and any(it != "---" for it in self.lines.pop(1)):
            raise ValueError("no line below the names of the columns")

    def read(self, cell):
        pair = self.PAIR.fullmatch(cell) if cell.startswith(" ~~") else None
        if pair:
            return tuple(map(self.plain, pair.groups()))
        # One space stands on each side of a cell, and none where there is none but its end.
        return self.plain(cell[1:-1] if cell.startswith(" ") and len(cell) > 1 else cell.strip())

    @classmethod
    def plain(cls, text):
        """A text without the backslashes before its marks, of which each has one."""
        if not cls.MARK.search(text):
            return text
        bare = cls.ESCAPED.sub("", text)
        if cls.MARK.search(bare):
            raise ValueError(f"a mark that is one: {text!r}")
        return cls.ESCAPED.sub(r"\1", text)
