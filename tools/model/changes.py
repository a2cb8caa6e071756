"""What `diff` and `apply` are to say of tables."""
from collections import Counter

from model.cells import as_json, named
from model.reports import FORMS, counts_of
from model.sameness import hows_of, is_same
from model.tables import Table, as_record


class Changes:
    """Checks of a round, of changes."""

    def check_changes(self, forms=FORMS):
        key = self.columns_of(self.base, self.ours)[1]
        # A file with no row has the columns of the other. Rows of a group are in the order of their cells as they are written.
        before, after = self.base.columns or self.ours.columns, self.ours.columns or self.base.columns
        columns = [*dict.fromkeys([*after, *before])]
        rest = [it for it in columns if it not in key]
        old, new = (self.arranged(key, rest, it.groups(key, rest), self.base, self.ours) for it in (self.base, self.ours))
        changed = [it for it in self.in_order(key, {*old, *new}, self.base, self.ours) if sorted(old.get(it, [])) != sorted(new.get(it, []))]
        line = lambda columns, under, row: self.line(columns, (key, under), (rest, row))
        rows = []
        for it in changed:
            rows += [["-", *line(columns, it, row)] for row in old.get(it, [])] + [["+", *line(columns, it, row)] for row in new.get(it, [])]
        status = int(bool(changed) or self.said_of_columns()[1])
        answer = self.ask("diff", "base", "ours", "--format", "csv")
        fate = lambda it: "-" if it not in after else "+" if it not in before else "=" if it.startswith(("-", "+", "=")) else ""
        self.marked = ["change", *(fate(it) + it for it in columns)]
        self.expect("diff", answer, status, self.marked, rows)
        # The order of the changes is that of their own file, which lacks the rows that stayed.
        self.changes = Table(columns, [dict(zip(columns, row[1:])) for row in rows])
        self.signs = [row[0] for row in rows]
        self.put("changes", answer[1].decode("latin-1"))
        if not self.has_header and not rows:
            self.changes.columns = []
        # Where there is no header, no column goes.
        made = after if self.has_header else self.changes.columns or self.base.columns
        order = self.in_order(key, {*new}, self.base, self.changes)
        new = self.arranged(key, rest, new, self.base, *self.signed())
        self.expect("apply", self.ask("apply", "base", "changes"), 0, made, [line(made, it, row) for it in order for row in new[it]], "base")
        if rows and self.columns_of(self.ours)[1] == key:
            self.check_misfits([*made, *(it for it in columns if it not in made)], forms)

    def signed(self):
        """The rows of changes that go, and those that come."""
        rows = [[row for row, sign in zip(self.changes.rows, self.signs) if sign == it] for it in "-+"]
        return [Table(self.changes.columns, it) for it in rows]

    def check_misfits(self, columns, forms):
        """Changes made to the table that they led to."""
        key = self.columns_of(self.ours, self.changes)[1]
        rest = [it for it in columns if it not in key]
        tables = [self.ours.under(columns), *self.signed()]
        has, goes, comes = (self.arranged(key, rest, it.groups(key, rest), *tables) for it in tables)
        versions = []
        for it in self.in_order(key, {*goes, *comes}, self.ours, self.changes):
            if sorted(has.get(it, [])) != sorted(goes.get(it, [])):
                versions += [("table", it, has.get(it)), ("expected", it, goes.get(it))]
        for form in self.some_of(forms) if versions else []:
            self.expect_stopped(["apply", "ours", "changes"], form, [], key, rest, versions, {"table": "misfit", "expected": "misfit"})

    def check_part(self):
        """Changes of some columns alone, and the table that they make, whose other cells stay as they are."""
        key, others = self.columns_of(self.base, self.ours)[1:]
        if self.repeats or not self.has_header or not others or not set(key) <= {*self.base.columns} & {*self.ours.columns}:
            return
        only = self.rng.sample(others, self.rng.randint(1, min(3, len(others))))
        before, after = self.base.columns, self.ours.columns
        part = [it for it in dict.fromkeys([*after, *before]) if it in only]
        old, new = (self.found_under(key, part, it) for it in (self.base, self.ours))
        changed = [it for it in self.in_order(key, {*old, *new}, self.base, self.ours) if old.get(it) != new.get(it)]
        rows = [[sign, *it, *version[it]] for it in changed for sign, version in (("-", old), ("+", new)) if it in version]
        status = int(bool(changed) or any((it in before) != (it in after) for it in part))
        answer = self.ask("diff", "base", "ours", "--format", "csv", "--only", as_record(only))
        fate = lambda it: "-" if it not in after else "+" if it not in before else "=" if it.startswith(("-", "+", "=")) else ""
        self.expect("diff --only", answer, status, ["change", *(fate(it) + it for it in [*key, *part])], rows)
        self.put("part", answer[1].decode("latin-1"))
        named = [*key, *part]
        stay = [it for it in (named if {*before} <= {*named} else [*before, *(it for it in named if it not in before)]) if it in after or it not in part]
        whole = {tuple(row[name] for name in key): row for row in self.base.rows}
        made = []
        for it in self.in_order(key, {*new}, self.base, Table(named, [dict(zip(named, row[1:])) for row in rows])):
            cells = {**whole.get(it, {}), **dict(zip(key, it))} | (dict(zip(part, new[it])) if old.get(it) != new[it] else {})
            made.append([cells.get(name, "") for name in stay])
        self.expect("apply of some columns", self.ask("apply", "base", "part"), 0, stay, made, "base")

    @staticmethod
    def found_under(key, columns, table):
        """The cells of these columns by key."""
        return {tuple(row[name] for name in key): tuple(row.get(name, "") for name in columns) for row in table.rows}

    def said_of_columns(self):
        """What is said of the columns of the base and of ours, and whether one of them has one alone."""
        old, new = self.base.columns, self.ours.columns
        if not old or not new:
            return [], False
        said = [f"column {named(it)} added" for it in new if it not in old] + [f"column {named(it)} removed" for it in old if it not in new]
        is_turned = [it for it in old if it in new] != [it for it in new if it in old]
        return said + ["columns in another order"] * is_turned, bool(said)

    def check_report(self, sameness=None):
        """The report of what changed, in each form, perhaps in part, and with cells compared as they stand or not."""
        columns, key, rest = self.columns_of(self.base, self.ours)
        hows, compared = hows_of(self.rng, sameness, rest)
        same = lambda at, cell, other: is_same(cell, other, hows[at])
        told = self.told(key, rest, same)
        said, has_lone = self.said_of_columns()
        old, new = self.base.columns, self.ours.columns
        lone = [[as_json(it) for it in a if it not in b] if a and b else [] for a, b in ((new, old), (old, new))]
        report = {"key": key, "rest": rest, "told": told, "said": said, "lone": lone, "is_same": same}
        report |= {"counts": counts_of(told, len(self.base.rows)), "status": int(has_lone or bool(told))}
        words = ["diff", "base", "ours", *compared]
        self.expect_report(words, "table", report, has_colour=self.rng.random() < 0.3)
        for form in self.some_of(FORMS):
            self.expect_report(words, form, report)
            if form in ("table", "json"):
                self.expect_report(words, form, report, is_summary=True)
            if form != "json":
                self.expect_report(words, form, report, limit=self.some_limit(len(told), form))

    def some_limit(self, count, form):
        """How many rows to show of so many. Of many rows a table has most, as text, and a page some more than a thousand, as it is read long."""
        if self.is_whole:
            return count - count // 100 if form == "table" else min(count - count // 20, 1100)
        return self.rng.choice([0, 1, 2, 3, max(0, count - 1), count, 10**9])

    def told(self, key, rest, same):
        """The rows that changed: what became of each, its key, and its cells before and after."""
        old, new = (self.arranged(key, rest, it.groups(key, rest), self.base, self.ours) for it in (self.base, self.ours))
        told = []
        for it in self.in_order(key, {*old, *new}, self.base, self.ours):
            gone, come = self.lone(old.get(it, []), new.get(it, [])), self.lone(new.get(it, []), old.get(it, []))
            if len(gone) == len(come) == 1:
                if not all(map(same, range(len(rest)), gone[0], come[0])):
                    told.append(("changed", it, *gone, *come))
            else:
                told += [("removed", it, row, row) for row in gone] + [("added", it, row, row) for row in come]
        return told

    @staticmethod
    def lone(rows, others):
        """The rows that the others lack, each as often as it stands here alone."""
        found, spare = [], Counter(others)
        for row in rows:
            spare[row] -= 1
            if spare[row] < 0:
                found.append(row)
        return found
