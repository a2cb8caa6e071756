"""What `join`, `lookup` and `overlay` are to say of tables, and what tables are that are written in other ways."""
from model.cells import KINDS, NAMES, apart, in_list, pairs
from model.tables import Table, as_record, told_apart, written


class Joins:
    """Checks of a round, of joins and of reading."""

    def check_join(self, kind, *names):
        key = self.columns_of(self.base, self.ours)[1]
        # A file with no row has the columns of the other.
        headers = self.base.columns or self.ours.columns, self.ours.columns or self.base.columns
        sides = [[name for name in it if name not in key] for it in headers]
        left, right = self.base.groups(key, sides[0]), self.ours.groups(key, sides[1])
        keys = {"outer": {*left, *right}, "left": {*left}, "right": {*right}, "anti": {*left} - {*right}}.get(kind, {*left} & {*right})
        order = self.in_order(key, keys, self.base, self.ours)
        left, right = self.arranged(key, sides[0], left, self.base), self.arranged(key, sides[1], right, self.ours)
        prefix, side = names or (self.rng.choice([None, None, ("l_", "r_"), ("", "r."), ("", "")]), self.rng.choice([None, None, "from", "id"]))
        words = ["join", "base", "ours", "--kind", kind] + [f"--prefix={','.join(prefix or [])}"] * bool(prefix) + [f"--side={side}"] * bool(side)
        if not self.is_whole or kind == "outer":
            self.expect_objects(words, 0, self.joined_objects(key, sides, order, left, right, kind))
        if kind in ("semi", "anti"):
            answer = self.ask(*words)
            rows = [self.line(headers[0], (key, it), (sides[0], row)) for it in order for row in left[it]]
            return self.expect(kind, answer, 0, headers[0], rows)
        told = [[word * (name in other) + name for name in own] for word, own, other in zip(prefix or ("left.", "right."), sides, sides[::-1])]
        header = [side or "side"] * (kind == "outer") + key + told[0] + told[1]
        twice = next((it for place, it in enumerate(header) if it in header[:place]), None)
        if self.has_header and twice is not None:
            option = "--side" if kind == "outer" and twice == header[0] else "--prefix"
            return self.expect_fault(words, "ours", f"the join has two columns {in_list(twice)}: give another by {option}")
        answer, rows = self.ask(*words), []
        for it in order:
            place = "both" if it in left and it in right else "left" if it in left else "right"
            for one in left.get(it, [("",) * len(sides[0])]):
                for other in right.get(it, [("",) * len(sides[1])]):
                    rows.append([place] * (kind == "outer") + [*it, *one, *other])
        self.expect(kind, answer, 0, header, rows)

    @staticmethod
    def joined_objects(key, sides, order, left, right, kind):
        """The rows of a join as objects. Of tables whose size is what is looked at, one join is: what writes a row as JSON knows no kind."""
        objects, none = [], [None]
        for it in order:
            for one in left.get(it, none):
                for other in none if kind in ("semi", "anti") else right.get(it, none):
                    cells = [(name, pairs(*of)) for name, *of in (("left", sides[0], one), ("right", sides[1], other)) if of[1] is not None]
                    objects.append([("key", pairs(key, it)), *cells])
        return objects

    def check_reading(self):
        """The base with short rows, notes, lines at the top and names that stand twice is the table that it is."""
        rng, columns = self.rng, self.base.columns
        key = self.named or columns[:1]
        names = list(columns)
        for place in range(1, len(names)):
            others = [it for it in names[:place] if it not in key]
            if self.has_header and others and names[place] not in key and rng.random() < 0.4:
                names[place] = rng.choice(others)
        is_ragged, comment = rng.random() < 0.5, rng.choice([it for it in [None, None, "#", "%", "x"] if it != self.delimiter])
        skipped = rng.choice([0, 0, 1, 3])
        lines = [names] * self.has_header + self.base.lines(False)
        for place in range(1, len(lines)) if is_ragged else []:
            cells = list(lines[place])
            while len(cells) > 1 and not cells[-1] and rng.random() < 0.7:
                cells.pop()
            lines[place] = cells + [""] * rng.choice([0, 0, 0, len(columns) + 1 - len(cells)])
        text, _ = written(lines, self.delimiter, rng, comment, skipped)
        self.put("dirty", text)
        self.put("nothing", "")
        options = self.options + ["--ragged"] * is_ragged + ["--comment", comment] * bool(comment) + [f"--skip={skipped}"]
        answer = self.ask("join", "dirty", "nothing", "--kind", "anti", options=options)
        if not lines:
            return self.expect_text("reading", answer, 0, "")
        rest = [it for it in columns if it not in key]
        groups = self.arranged(key, rest, self.base.groups(key, rest), self.base)
        rows = [self.line(columns, (key, it), (rest, row)) for it in self.in_order(key, {*groups}, self.base) for row in groups[it]]
        self.expect("reading", answer, 0, told_apart(names), rows)

    def check_empty(self):
        """A file with no row has the columns of the other."""
        key = self.columns_of(self.ours)[1]
        columns, rest = self.ours.columns, [it for it in self.ours.columns if it not in key]
        self.put("nothing", self.rng.choice(["", "\n\r\n", "\xef\xbb\xbf"]))
        groups = self.arranged(key, rest, self.ours.groups(key, rest), self.ours)
        order = self.in_order(key, {*groups}, self.ours)
        rows = [self.line(columns, (key, it), (rest, row)) for it in order for row in groups[it]]
        # The first column of ours may be none in which keys are unique.
        if not columns or not self.repeats and len(rows) > len(groups):
            return
        sign = self.rng.choice("+-")
        files = ["nothing", "ours"] if sign == "+" else ["ours", "nothing"]
        answer = self.ask("diff", *files, "--format", "csv")
        marked = ["change", *("=" * it.startswith(("-", "+", "=")) + it for it in columns)]
        self.expect("diff with nothing", answer, int(bool(rows)), marked, [[sign, *row] for row in rows])
        answer = self.ask("join", "ours", "nothing", "--kind", "left", "--prefix=<,>")
        told = [f"{side}{name}" for side in "<>" for name in rest]
        beside = [[*it, *row, *[""] * len(rest)] for it in order for row in groups[it]]
        self.expect("join with nothing", answer, 0, key + told, beside)

    def has_keys(self, key, *tables):
        """Whether each table that has columns has those of the key, and each of its keys once, unless they may repeat."""
        if not all(set(key) <= set(it.columns) for it in tables if it.columns):
            return False
        return self.repeats or all(len(it.in_place(key, [])) == len(it.rows) for it in tables)

    def options_under(self, record, *lost):
        """The options, without some, and with another key."""
        place = self.options.index("--key") if "--key" in self.options else len(self.options)
        options = self.options[:place] + self.options[place + 2 :]
        return [it for it in options if it not in lost] + ["--key", record]

    def other_names(self, table, key):
        """Names that the key may have in a table, of which the first is another one."""
        free = [it for it in NAMES if it not in table.columns and not it.startswith(("=", "-"))]
        return [self.rng.choice(free or key[:1]), *key[1:]]

    def check_lookup(self, kind=None):
        """Each row of the base in its order, with the row of ours that has its key, which may have another name there."""
        kind, key = kind or self.rng.choice(["left", "inner", "anti"]), self.columns_of(self.base, self.ours)[1]
        columns, there = self.base.columns or self.ours.columns, self.ours.columns or self.base.columns
        found = {it: rows[0] for it, rows in self.ours.in_place(key, [it for it in there if it not in key]).items()}
        if len(found) < len(self.ours.rows) or not key or not set(key) <= {*columns} & {*there}:
            return
        right, names = "ours", key
        if self.has_header and not key[0].startswith("-"):
            right, names = "found", self.other_names(self.ours, key)
            told = dict(zip(key, names))
            rename = lambda row: {told.get(it, it): cell for it, cell in row.items()}
            self.write(found=Table([told.get(it, it) for it in self.ours.columns], [rename(it) for it in self.ours.rows]))
        rest = [it for it in there if it not in key] if kind != "anti" else []
        header = [f"left.{it}" if it in rest and it not in key else it for it in columns]
        header += [f"right.{it}" if it in columns else it for it in rest]
        words, options = ["lookup", "base", right, "--kind", kind], self.options_under(as_record(key, names), "--group", "--keep-order")
        if not self.is_whole or kind == "left":
            self.check_lookup_json(words, options, kind, key, columns, found)
        twice = next((it for place, it in enumerate(header) if it in header[:place]), None)
        if self.has_header and twice is not None:
            why = f"the join has two columns {in_list(twice)}: give another by --prefix"
            return self.expect_fault(words, right, why, options=options)
        rows = []
        for row in self.base.rows:
            under, cells = tuple(row[it] for it in key), [row[it] for it in columns]
            if kind == "left" or (under in found) == (kind == "inner"):
                rows.append(cells + list(found.get(under, [""] * len(rest)) if rest else []))
        self.expect("lookup", self.ask(*words, options=options), 0, header, rows)

    def check_lookup_json(self, words, options, kind, key, columns, found):
        """The same as JSON."""
        left, right = ([it for it in of if it not in key] for of in (columns, self.ours.columns or self.base.columns))
        objects = []
        for row in self.base.rows:
            under = tuple(row[it] for it in key)
            if kind == "left" or (under in found) == (kind == "inner"):
                sides = [("left", pairs(left, [row[it] for it in left]))]
                if under in found:
                    sides.append(("right", pairs(right, found[under])))
                objects.append([("key", pairs(key, under)), *sides])
        self.expect_objects(words, 0, objects, options)

    def check_overlay(self, *files, by_cell=None):
        """Two tables or three, each over those before it, by row or by cell."""
        files = files or self.rng.sample(["base", "ours", "theirs"], self.rng.randint(2, 3))
        tables = [getattr(self, it) for it in files]
        columns, key, rest = self.columns_of(*tables)
        if not self.has_keys(key, *tables):
            return
        by_cell, laid = not self.repeats and (self.rng.random() < 0.5 if by_cell is None else by_cell), {}
        for table in tables:
            for under, rows in table.groups(key, rest).items():
                below = laid.get(under)
                laid[under] = [tuple(cell or old for cell, old in zip(rows[0], below[0]))] if by_cell and below else rows
        laid = self.arranged(key, rest, laid, *tables)
        rows = [self.line(columns, (key, it), (rest, row)) for it in self.in_order(key, {*laid}, *tables) for row in laid[it]]
        self.expect("overlay", self.ask("overlay", *files, *["--cells"] * by_cell), 0, columns, rows, files[0])

    def check_two_names(self):
        """A table whose key has other names gives what it gives under the names of the others."""
        key = self.columns_of(self.base, self.ours)[1]
        # A second name that begins with an = cannot be given.
        if not self.has_header or key[0].startswith(("-", "=")) or not self.has_keys(key, self.base, self.ours):
            return
        words = self.rng.choice([["diff", "base", "ours", "--format", "csv"], ["diff", "base", "ours"], self.join_of("base", "ours")])
        side, place = (self.ours, 2) if words[0] == "join" else (self.base, 1)
        told = dict(zip(key, self.other_names(side, key)))
        rename = lambda row: {told.get(it, it): cell for it, cell in row.items()}
        self.write(found=Table([told.get(it, it) for it in side.columns], [rename(it) for it in side.rows]))
        others = [*told.values()]
        record = as_record(key, others) if words[0] == "join" else as_record(others, key)
        whole = self.ask(*words, options=self.options_under(as_record(key)))
        parts = self.ask(*words[:place], "found", *words[place + 1 :], options=self.options_under(record))
        if whole != parts:
            self.stop(" ".join(words) + f" under {record}", f"status {parts[0]}, not {whole[0]}, {parts[2]}", *apart(parts[1], whole[1]))

    def check_only(self):
        """Compared by some of their columns, tables give what they give with these alone."""
        _, key, rest = self.columns_of(self.base, self.ours)
        if not self.has_header or not rest or not self.has_keys(key, self.base, self.ours):
            return
        only = self.rng.sample(rest, self.rng.randint(1, len(rest)))
        lost = [it for it in rest if it not in only]
        picked = ["--ignore", as_record(lost)] if lost and self.rng.random() < 0.5 else ["--only", as_record(only)]
        view = self.rng.choice([[], ["--summary"], ["--limit", "2"], ["--quiet"], ["--format", "json"]])
        few = lambda table: table.under([it for it in table.columns if it in key or it in only])
        self.write(few=few(self.base), few_too=few(self.ours))
        whole, parts = self.ask("diff", "few", "few_too", *view), self.ask("diff", "base", "ours", *picked, *view)
        if whole != parts:
            self.stop(f"diff with {picked} {view}", f"status {parts[0]}, not {whole[0]}, {parts[2]}", *apart(parts[1], whole[1]))

    def some_view(self):
        """Options that say what of two tables is compared, and how."""
        rest = self.columns_of(self.base, self.ours)[2]
        views = [["--numbers"], ["--numbers", "--tolerance", "1"]]
        if self.has_header and rest:
            views += [["--only", as_record([rest[0]])], ["--ignore", as_record(rest[1:]), "--numbers"] if rest[1:] else []]
        return self.rng.choice([[], *views])

    def check_sorted(self):
        """Tables whose keys rise, read part by part, give what they give as a whole."""
        key = self.columns_of(self.base, self.ours)[1]
        rise = lambda table: Table(table.columns, sorted(table.rows, key=lambda row: [row[it] for it in key]))
        self.write(first=rise(self.base), next=rise(self.ours))
        options = [it for it in self.options if it != "--keep-order"]
        join = ["join", "first", "next", "--kind", self.rng.choice(KINDS)]
        changed = self.ask("diff", "first", "next", "--summary", options=options)[1].splitlines(True)[-1]
        rows = f"rows: {len(self.base.rows)} in LEFT, {len(self.ours.rows)} in RIGHT\n".encode()
        for words, counts in ((["diff", "first", "next"], changed), (join, rows)):
            for form in ("csv", "json"):
                view = self.some_view() if words[0] == "diff" and form == "json" else []
                whole = self.ask(*words, "--format", form, *view, options=options)
                parts = self.ask_again(*words, "--format", form, *view, options=[*options, "--sorted"])
                # Counts are those of what is compared.
                counts = self.ask("diff", "first", "next", "--summary", *view, options=options)[1].splitlines(True)[-1] if view else counts
                is_same = self.rows_of(whole) == self.rows_of(parts) if form == "csv" else whole[1] == parts[1]
                said = b"" if whole[2] else counts
                # The first cell of a part that would say what a text is stands in quotes, also where the part is not the first.
                if whole[0] != parts[0] or whole[2] + said != parts[2] or not is_same:
                    self.stop(" ".join([*words, form]), f"status {parts[0]}, not {whole[0]}, {parts[2]}", *apart(parts[1], whole[1]))
