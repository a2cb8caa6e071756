"""What a report says in each of its forms."""
from collections import Counter

from model.cells import as_json, lined_up, named, pairs, shown, width
from model.pages import Markdown, Page, QuickPage

FORMS = ["table", "json", "markdown", "html"]


def counts_of(told, rows):
    """How many rows of so many old ones were added, removed and changed, and how many not."""
    count = lambda word: sum(it[0] == word for it in told)
    added, removed, changed = map(count, ("added", "removed", "changed"))
    return {"added": added, "removed": removed, "changed": changed, "same": rows - removed - changed}


class Reports:
    """Checks of a round, of reports."""

    def expect_report(self, words, form, report, limit=None, has_colour=False, is_summary=False):
        """A report of rows that changed, each a word, a key, and the cells before and after."""
        key, rest, told = report["key"], report["rest"], report["told"]
        limit = 0 if is_summary else limit
        rows = told if limit is None else told[:limit]
        is_all, most = self.some_layout(form, is_summary)
        more = [] if is_summary or len(rows) == len(told) else [f"and {len(told) - len(rows)} more"]
        counts = "{added} added, {removed} removed, {changed} changed, {same} the same".format(**report["counts"])
        words = [*words, *["--summary"] * is_summary, *([] if is_summary or limit is None else ["--limit", str(limit)])]
        words += ["--color", "always"] * has_colour + ([] if form == "table" else ["--format", form])
        words += ["--all-columns"] * is_all + ([] if most is None else ["--width", str(most)])
        answer = self.ask(*words)
        if answer[0] != report["status"] or answer[2]:
            self.stop(" ".join(words), f"status {answer[0]}, not {report['status']}, {answer[2]}")
        text = answer[1].decode()
        heading = ["", *map(shown, key), *map(shown, rest)]
        if form == "table" and is_summary:
            grid = self.lines_of_columns(report)
            want = "".join(f"{it}\n" for it in report["said"]) + lined_up(grid) + f"{counts}\n"
            return self.same(" ".join(words), text, want)
        places = self.places_shown(len(rest), rows, report["is_same"], is_all)
        wide = rows if len(places) == len(rest) else [(*it[:2], *([cells[at] for at in places] for cells in it[2:])) for it in rows]
        names = [shown(rest[at]) for at in places]
        same_wide = lambda at, a, b: report["is_same"](places[at], a, b)
        more += self.left_out(len(rest) - len(places)) if rows and form in ("table", "html") else []
        if form == "table":
            grid = [["", *map(shown, key), *names]] * bool(rows) + [self.line_of_both(*it, same_wide) for it in wide]
            lines = self.in_blocks(grid, 1 + len(key), most, has_colour)
            want = "".join(f"{it}\n" for it in report["said"]) + lines + "".join(f"{it}\n" for it in [*more, counts])
            return self.same(" ".join(words), text, want)
        if form == "json":
            found, want = self.objects_of(text), self.objects(report, rows, is_summary)
            return self.same(" ".join(words), found, want)
        if form == "markdown":
            page = Markdown(text)
            want = report["said"], [heading] * bool(rows) + [self.line_of_both(*it, report["is_same"], tuple) for it in rows], [*more, counts]
            return self.same(" ".join(words), (page.items, page.lines, page.paragraphs), want)
        page, empty = self.page_of(text), [""] * len(key)
        want = [["", *map(shown, key), *["old", "new"] * bool(names)], ["", *empty, *names, *names]] * bool(rows)
        want = want[:2] + [self.line_side_by_side(*it, same_wide) for it in wide]
        self.same(" ".join(words), (page.paragraphs, page.lines), ([*report["said"], *more, counts], want))

    def some_layout(self, form, is_summary):
        """Whether all columns are to be shown, and how wide a table may be, if that is bounded."""
        is_all = not is_summary and self.rng.random() < 0.4
        most = None if form != "table" or self.is_whole or self.rng.random() < 0.5 else self.rng.choice([0, 1, 10, 20, 30, 40, 60, 80, 10**9, self.rng.randrange(120)])
        return is_all, most

    @staticmethod
    def places_shown(count, rows, is_same, is_all):
        """The places of the columns that are shown: all of them, unless each row changed; then those in which one did."""
        if is_all or any(word != "changed" for word, *_ in rows):
            return [*range(count)]
        return [at for at in range(count) if any(not is_same(at, row[at], other[at]) for _, _, row, other in rows)]

    @staticmethod
    def left_out(count):
        """What is said of so many columns that are not shown."""
        columns = "1 column is" if count == 1 else f"{count} columns are"
        return [f"{columns} the same here, and not shown without --all-columns"] * bool(count)

    @staticmethod
    def in_blocks(grid, lead, most, has_colour):
        """Lines in blocks of columns, of which the first ones stand in each, no wider than is said, but for one column beside these."""
        if not most or not grid:
            return lined_up(grid, has_colour)
        widths, blocks = [max(map(width, cells)) for cells in zip(*grid)], [[]]
        for at in range(lead, len(widths)):
            there = [*range(lead), *blocks[-1], at]
            if blocks[-1] and sum(widths[it] for it in there) + 2 * (len(there) - 1) > most:
                blocks.append([])
            blocks[-1].append(at)
        return "\n".join(lined_up([line[:lead] + [line[at] for at in block] for line in grid], has_colour) for block in blocks)

    def page_of(self, text):
        return QuickPage(text) if self.is_whole else Page(text)

    @staticmethod
    def line_of_both(word, under, row, other, is_same, joined=" -> ".join):
        cells = [shown(b) if is_same(at, a, b) else joined((named(a), named(b))) for at, (a, b) in enumerate(zip(row, other))]
        return [word, *map(shown, under), *cells]

    @staticmethod
    def line_side_by_side(word, under, row, other, is_same):
        side = lambda tag, cells, others: [shown(a) if is_same(at, a, b) else (tag, named(a)) for at, (a, b) in enumerate(zip(cells, others))]
        none = [""] * len(row)
        return [word, *map(shown, under), *(none if word == "added" else side("del", row, other)), *(none if word == "removed" else side("ins", other, row))]

    @staticmethod
    def lines_of_columns(report):
        """The lines of a summary: one for each change that is told of a column, of which the first has its name."""
        lines = []
        for name, count, changes in Reports.columns_that_changed(report):
            told = [[str(times), f"{named(a)} -> {named(b)}"] for (a, b), times in changes]
            lines += [[named(name), str(count), *told[0]], *(["", "", *it] for it in told[1:])]
        return [["column", "rows", "times", "change"]] * bool(lines) + lines

    @staticmethod
    def columns_that_changed(report):
        """The columns in which rows changed: the name of each, how many rows did, and its three commonest changes, with how often each is there."""
        rows = [it[2:] for it in report["told"] if it[0] == "changed"]
        found = []
        for place, name in enumerate(report["rest"]):
            changes = Counter((row[place], other[place]) for row, other in rows if not report["is_same"](place, row[place], other[place]))
            if changes:
                found.append((name, sum(changes.values()), sorted(changes.items(), key=lambda it: (-it[1], it[0]))[:3]))
        return found

    @staticmethod
    def objects(report, rows, is_summary):
        lone = [("added", report["lone"][0]), ("removed", report["lone"][1])]
        if is_summary:
            change = lambda a, b, times: [("old", as_json(a)), ("new", as_json(b)), ("rows", times)]
            column = lambda name, count, changes: [("column", as_json(name)), ("rows", count), ("changes", [change(*it, times) for it, times in changes])]
            return [*(column(*it) for it in Reports.columns_that_changed(report)), [*report["counts"].items(), ("columns", lone)]]
        objects = [[("columns", lone)]] if any(report["lone"]) else []
        for word, under, row, other in rows:
            sides = [("old", pairs(report["rest"], row))] * (word != "added") + [("new", pairs(report["rest"], other))] * (word != "removed")
            names = [as_json(name) for at, (name, a, b) in enumerate(zip(report["rest"], row, other)) if not report["is_same"](at, a, b)]
            objects.append([("change", word), ("key", pairs(report["key"], under)), *[("changed", names)] * (word == "changed"), *sides])
        return objects

    def expect_stopped(self, words, form, said, key, rest, versions, why):
        """A report of rows that a command has no table for, each a word for the version, a key, and its rows or none."""
        words = [*words, *([] if form == "table" else ["--format", form])]
        answer = self.ask(*words)
        if answer[0] != 1 or answer[2]:
            self.stop(" ".join(words), f"status {answer[0]}, not 1, {answer[2]}")
        text, heading = answer[1].decode(), ["", *map(shown, key), *map(shown, rest)]
        if form == "json":
            line = lambda word, under, row: [("why", why[word]), ("version", word), ("key", pairs(key, under)), ("row", None if row is None else pairs(rest, row))]
            want = [line(word, under, row) for word, under, rows in versions for row in (rows or [None])]
            return self.same(" ".join(words), self.objects_of(text), want)
        lines = [heading]
        for word, under, rows in versions:
            none = [[word, *map(shown, under), "(no row)"]] if form == "table" else [[f"{word}, no row", *map(shown, under)]]
            lines += none if rows is None else [[word, *map(shown, under), *map(shown, row)] for row in rows]
        if form == "table":
            return self.same(" ".join(words), text, "".join(f"{it}\n" for it in said) + lined_up(lines))
        page = Markdown(text) if form == "markdown" else self.page_of(text)
        found = page.items if form == "markdown" else page.paragraphs
        self.same(" ".join(words), (found, page.lines), (said, lines))
