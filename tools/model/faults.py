"""What `keyed` is to say of what is wrong in a file or on the command line."""
from model.cells import LINE_END, in_list, shown_file
from model.tables import Table, as_record, written


class Faults:
    """Checks of a round, of faults."""

    def check_fault(self):
        faults = [self.bad_words, self.bad_row, self.bad_quotes, self.repeated_key, self.bad_header, self.bad_sign, self.falling_key]
        self.rng.choice(faults)()

    def expect_fault(self, words, file, why, options=None, may_print=False):
        """One line that names the file, and status 2."""
        status, printed, said = self.ask(*words, options=options)
        file = "-" if file and file == self.stdin else str(self.folder / file) if self.is_file(file) else file
        want = f"keyed: {file}: {why}\n".encode() if file else f"keyed: {why}\n".encode()
        if status != 2 or said != want or printed and not may_print:
            self.stop(" ".join(words), f"status {status}, printed {printed[:80]}", f"said {said}", f"want {want}")

    @staticmethod
    def join_of(left, right):
        """A join in which no two columns have one name."""
        return ["join", left, right, "--prefix=<,>", "--side=<<"]

    def commands(self, file):
        """The commands that read a table of these names and this one: their words, and the files in the order in which they are read."""
        place = self.rng.choice([["diff", file, "ours"], ["diff", "base", file], self.join_of(file, "ours"), self.join_of("base", file)])
        other = self.rng.choice([["merge", file, "ours", "theirs"], ["merge", "base", file, "theirs"], ["merge", "base", "ours", file]])
        return self.rng.choice([place, other, ["apply", file, "changes"]])

    def bad_words(self):
        """A command line that makes no request."""
        lost = self.rng.choice([["diff", "base"], ["merge", "base", "ours"], ["join", "base", "ours", "--kind", "cross"], ["base"], []])
        status, printed, said = self.ask(*lost)
        if status != 2 or printed or not said.startswith(b"error: ") or LINE_END.split(said.decode())[-1]:
            self.stop(f"the words {lost}", f"status {status}, printed {printed}, said {said}")
        delimiter = self.rng.choice([";;", '"', "\n", "\r", "\xc3\xa9", ""])
        why = "not one byte that may stand between cells"
        self.expect_fault(["diff", "base", "ours", f"--delimiter={delimiter}"], "--delimiter", why, options=[])
        self.expect_fault(["merge", "-", "ours", "-"], "", "- may name only one file")
        file = self.rng.choice(["nowhere", "no\nwhere", "no\x1bwhere"])
        words = self.commands(file)
        self.expect_fault(words, shown_file(file), "No such file or directory (os error 2)")

    def bad_row(self):
        """A row with a cell too many, or too few."""
        name = self.rng.choice(["base", "ours", "theirs"])
        lines = getattr(self, name).lines(self.has_header)
        if len(lines) < 2:
            return
        place, count = self.rng.randint(1, len(lines) - 1), len(lines[0])
        lines[place] = lines[place][:-1] if count > 1 and self.rng.random() < 0.5 else [*lines[place], "more"]
        text, starts = written(lines, self.delimiter, self.rng)
        self.put("bad", text)
        words = self.rng.choice([["diff", "bad", "bad too"], self.join_of("bad", "bad too"), ["apply", "bad", "bad too"]])
        self.put("bad too", text)
        is_short = len(lines[place]) < count
        remedy = " (--ragged takes a short row)" if is_short else " (--comment and --skip pass lines over, --delimiter parts cells)"
        cells = "1 cell" if len(lines[place]) == 1 else f"{len(lines[place])} cells"
        columns = "is 1 column" if count == 1 else f"are {count} columns"
        self.expect_fault(words, "bad", f"line {starts[place]}: {cells}, and there {columns}{remedy}")

    def bad_quotes(self):
        """A row with a quote that is never closed, or with text after a closing one."""
        text, _ = written(self.base.lines(self.has_header), self.delimiter, self.rng)
        line = 1 + len(LINE_END.findall(text))
        wrong, why = self.rng.choice(
            [
                ('"a\n""b\n' + self.delimiter, "a quote is opened and never closed"),
                ('"', "a quote is opened and never closed"),
                ('"a" ', "text stands behind a closing quote"),
                ('a"' + self.delimiter + '"a""\n"b"\nc', "text stands behind a closing quote"),
            ]
        )
        self.put("bad", text + wrong)
        self.expect_fault(self.commands("bad"), "bad", f"line {line}: {why} (--lenient takes it as it is)")

    def repeated_key(self):
        """A row whose key another has."""
        lines, key = self.base.lines(self.has_header), self.columns_of(self.base)[1]
        if self.repeats or not self.base.rows:
            return
        places = [self.base.columns.index(it) for it in key]
        lines.insert(self.rng.randint(self.has_header, len(lines)), self.rng.choice(lines[self.has_header :]))
        lines.insert(self.rng.randint(self.has_header, len(lines)), self.rng.choice(lines[self.has_header :]))
        text, starts = written(lines, self.delimiter, self.rng)
        found = {}
        for line, start in [*zip(lines, starts)][self.has_header :]:
            found.setdefault(tuple(line[it] for it in places), []).append(start)
        under = min(it for it in found if len(found[it]) > 1)
        first, second = found[under][:2]
        self.put("bad", text)
        words = self.rng.choice([["diff", "bad", "base"], self.join_of("base", "bad"), ["apply", "bad", "changes"], ["merge", "base", "bad", "base"]])
        key = ",".join(map(in_list, under))
        why = f"line {second}: duplicate key {key}, first on line {first}: give more columns by --key, or --group"
        self.expect_fault(words, "bad", why)

    def bad_header(self):
        """A header that lacks a column of the key, one with two columns of a name, or none."""
        if not self.has_header:
            return
        lost = ["--key", "nowhere", *[it for it in self.options if it not in ["--key", as_record(self.named or [])]]]
        words = self.rng.choice([["diff", "ours", "base"], self.join_of("ours", "base"), ["apply", "ours", "changes"], ["merge", "base", "ours", "theirs"]])
        there, count = ", ".join(map(in_list, self.ours.columns[:10])), len(self.ours.columns)
        verb = "there is" if count == 1 else "there are" if count <= 10 else "the first ten are"
        line = self.first_lines["ours"]
        self.expect_fault(words, "ours", f"line {line}: no column nowhere (named by --key, --rename or the first file); {verb} {there}", options=lost)
        name = self.rng.choice(self.columns_of(self.base)[1])
        lines = Table([*self.base.columns, name], self.base.rows).lines(True)
        self.put("bad", self.delimiter.join('"' + it.replace('"', '""') + '"' for it in lines[0]) + "\n")
        words = self.rng.choice([["diff", "bad", "ours"], self.join_of("bad", "ours"), ["apply", "bad", "changes"], ["merge", "bad", "ours", "theirs"]])
        why = f"line 1: two columns {in_list(name)}, of which the key is to be one: give others by --key"
        self.expect_fault(words, "bad", why)

    def bad_sign(self):
        """A change with no sign."""
        if not self.signs:
            return
        place = self.rng.randrange(len(self.signs))
        signs = [*self.signs[:place], self.rng.choice(["", "*", "--", "+ ", "change"]), *self.signs[place + 1 :]]
        lines = [self.marked] * self.has_header
        lines += [[sign, *line] for sign, line in zip(signs, self.changes.lines(False))]
        text, starts = written(lines, self.delimiter, self.rng)
        self.put("bad", text)
        self.expect_fault(["apply", "base", "bad"], "bad", f"line {starts[self.has_header + place]}: the first cell is neither - nor +")

    def falling_key(self):
        """A key that is not greater than the one before it, in a table that is read as its keys rise."""
        key = self.columns_of(self.base)[1]
        rows = sorted(self.base.rows, key=lambda row: [row[it] for it in key])
        if self.repeats or not rows:
            return
        place = self.rng.randrange(len(rows))
        rows.insert(place + 1, rows[self.rng.randint(0, place)])
        text, starts = written(Table(self.base.columns, rows).lines(self.has_header), self.delimiter, self.rng)
        self.put("bad", text)
        words = self.rng.choice([["diff", "bad", "none", "--format", "csv", "--sorted"], [*self.join_of("bad", "none"), "--sorted"]])
        self.write(none=Table([*self.base.columns], []))
        options = [it for it in self.options if it != "--keep-order"]
        why = f"line {starts[self.has_header + place + 1]}: the key is not greater than the one before it"
        self.expect_fault(words, "bad", why, options=options, may_print=True)
