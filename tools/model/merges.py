"""What `merge` is to say of three versions of a table."""
from model.cells import named
from model.reports import FORMS
from model.sameness import hows_of, is_same

MARKS = ("<<<<<<< ours", "||||||| base", "=======", ">>>>>>> theirs")


def are_same(rows, others, hows):
    """Whether two versions of a key, of one row at most, are there and the same."""
    return bool(rows and others) and all(is_same(*it) for it in zip(rows[0], others[0], hows))


def merged_cell(base, ours, theirs, how):
    """What one side made of a cell, or None where both did, and not alike. What is ours stays where both have the same."""
    if base == ours:
        return theirs
    if is_same(ours, theirs, how) or is_same(base, theirs, how):
        return ours
    return theirs if is_same(base, ours, how) else None


def loses(rest, gone, rows):
    """Whether one of these rows has a cell in a column that goes."""
    return any(dict(zip(rest, row))[name] for row in rows or [] for name in gone)


def said_of_lost(rest, gone, lost):
    """What is said above rows that would lose cells: the columns of these."""
    names = [name for name in rest if name in gone and any(loses(rest, [name], rows) for _, _, rows in lost)]
    return [f"column {named(name)} goes, and has cells in these rows" for name in names]


class Merges:
    """Checks of a round, of merges."""

    def check_merge(self, by_cell=False, sameness=None):
        """The merged table, or the rows in conflict in each form, or the table with these between marks, or as a side has them. Rows are
        merged whole or by cell, and cells compared as they stand or not."""
        columns, key, _ = self.columns_of(self.base, self.ours, self.theirs)
        written = self.merged_columns(self.base.columns, self.ours.columns, self.theirs.columns)
        gone = [it for it in columns if it not in written]
        rest = [it for it in [*written, *gone] if it not in key]
        sides = self.ours, self.theirs
        versions = [self.arranged(key, rest, it.groups(key, rest), *sides) for it in (self.base, *sides)]
        hows, compared = hows_of(self.rng, sameness, rest)
        rows, unresolved, lost = [], [], []
        for it in self.in_merged_order(key, {*versions[0], *versions[1], *versions[2]}, *sides):
            three = [rows.get(it) for rows in versions]
            is_merged, found = self.merged(three, by_cell, hows)
            rows.append((it, is_merged, found))
            if not is_merged:
                unresolved += [(word, it, version) for word, version in zip(("base", "ours", "theirs"), found)]
            elif loses(rest, gone, found):
                lost.append(("merged", it, found))
        words = ["merge", "base", "ours", "theirs", *["--by-cell"] * by_cell, *compared]
        self.check_preferred(words, written, gone, key, rest, rows)
        if unresolved or lost:
            said = said_of_lost(rest, gone, lost)
            why = {"base": "conflict", "ours": "conflict", "theirs": "conflict", "merged": "lost"}
            for form in self.some_of(FORMS[:2] if by_cell and self.is_large else FORMS):
                self.expect_stopped(words, form, said, key, rest, [*unresolved, *lost], why)
            if gone or not unresolved:
                return self.expect_stopped([*words, "--conflicts", "marks"], "table", said, key, rest, [*unresolved, *lost], why)
            lines = self.marked_lines(written, key, rest, rows)
            return self.expect("merge with marks", self.ask(*words, "--conflicts", "marks"), 1, written, lines, "ours", MARKS)
        lines = [self.line(written, (key, it), (rest, row)) for it, _, found in rows for row in found or []]
        self.expect("merge", self.ask(*words, *self.rng.choice([[], ["--conflicts", "marks"]])), 0, written, lines, "ours")

    def check_preferred(self, words, written, gone, key, rest, rows):
        """The merged table, with each row in conflict as a side has it, or with none where the side has none; or the rows with cells that are
        lost."""
        side, place = self.rng.choice([("ours", 1), ("theirs", 2)])
        words = [*words, f"--prefer={side}"]
        settled = [(it, found if is_merged else found[place]) for it, is_merged, found in rows]
        lost = [("merged", it, found) for it, found in settled if loses(rest, gone, found)]
        if lost:
            form = self.rng.choice(FORMS)
            return self.expect_stopped(words, form, said_of_lost(rest, gone, lost), key, rest, lost, {"merged": "lost"})
        lines = [self.line(written, (key, it), (rest, row)) for it, found in settled for row in found or []]
        self.expect(f"merge that prefers {side}", self.ask(*words), 0, written, lines, "ours")

    def marked_lines(self, written, key, rest, rows):
        """The lines of a table in which rows in conflict stand between marks, with a text for a mark."""
        lines = []
        for it, is_merged, found in rows:
            of = lambda version: [self.line(written, (key, it), (rest, row)) for row in version or []]
            if is_merged:
                lines += of(found)
            else:
                base, ours, theirs = found
                lines += [MARKS[0], *of(ours), MARKS[1], *of(base), MARKS[2], *of(theirs), MARKS[3]]
        return lines

    @staticmethod
    def merged(three, by_cell, hows):
        """Whether a key is merged, and the rows that it has then, or those of each version."""
        base, ours, theirs = three
        keys = [it and sorted(it) for it in three]
        if keys[0] == keys[1] or keys[0] == keys[2] or keys[1] == keys[2]:
            return True, theirs if keys[0] == keys[1] else ours
        is_one_each = all(it and len(it) == 1 for it in three)
        plain = [merged_cell(*it, None) for it in zip(base[0], ours[0], theirs[0])] if is_one_each else []
        if by_cell and is_one_each and None not in plain:
            return True, [tuple(plain)]
        is_plain = hows == [None] * len(hows)
        if not is_plain and (are_same(ours, theirs, hows) or are_same(base, theirs, hows)):
            return True, ours
        if not is_plain and are_same(base, ours, hows):
            return True, theirs
        if by_cell and is_one_each:
            cells = [merged_cell(*it) for it in zip(base[0], ours[0], theirs[0], hows)]
            if None not in cells:
                return True, [tuple(cells)]
            return False, [[tuple(own if it is None else it for it, own in zip(cells, row[0]))] for row in three]
        return False, three
