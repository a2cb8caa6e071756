"""Random tables for a mixture of options, and what `keyed` says of them beside what is wanted."""
import csv
import io
import json
import re
import subprocess
import sys
from collections import Counter
from operator import le

from model.cells import CELLS, MARK, NAMES, NUMBERS, QUOTED, apart
from model.tables import Table, as_record, line_ends, style_of, written

# A cell may have any length.
csv.field_size_limit(1 << 30)
# One for all lines, of which there are millions.
OBJECTS = json.JSONDecoder(object_pairs_hook=list)


class Round:
    """One mixture of options, and tables for it."""

    def __init__(self, program, rng, folder):
        self.begin(program, rng, folder)
        self.has_header, self.is_large = rng.random() < 0.7, rng.random() < 0.03
        most = 4 if self.is_large else len(NAMES)
        columns = rng.sample(NAMES, rng.randint(1, most)) if self.has_header else [str(it + 1) for it in range(rng.randint(1, most))]
        self.delimiter = rng.choice([",", ",", ";", "\t", "|"])
        self.repeats, self.keeps_order = rng.random() < 0.3, rng.random() < 0.3
        self.options, self.named = ["--delimiter", self.delimiter], None
        if rng.random() < 0.7:
            named = rng.sample(columns, rng.randint(1, min(2, len(columns))))
            if not any("," in name for name in named) and named != [""] and not named[0].startswith("-"):
                self.named = named
                self.options += ["--key", as_record(named)]
        self.options += ["--group"] * self.repeats + ["--keep-order"] * self.keeps_order + ["--no-header"] * (not self.has_header)
        key, pool = self.named or columns[:1], rng.sample(CELLS, rng.randint(1, 8))
        # What cells are that stand beside a key: of all shapes, numbers, or few numbers in many ways, so that versions differ and are the same.
        self.cells = rng.choice([NUMBERS, NUMBERS[1:8], NUMBERS[1:14]]) if rng.random() < 0.3 else CELLS
        self.base = self.table(columns, key, pool)
        self.ours, self.theirs = (self.own_columns(self.changed(columns, key, pool), key) for _ in range(2))
        self.write(base=self.base, ours=self.ours, theirs=self.theirs)

    def begin(self, program, rng, folder, style=None):
        self.program, self.rng, self.folder, self.stdin = program, rng, folder, None
        # On which line of each file its first row begins, the form of all files, and whether all forms of reports are looked at.
        self.first_lines, self.style, self.is_whole = {}, style, style is not None

    def write(self, **tables):
        for name, table in tables.items():
            text, starts = written(table.lines(self.has_header), self.delimiter, self.rng, style=self.style)
            self.put(name, text)
            self.first_lines[name] = next(iter(starts), 1)
            if not self.has_header and not table.rows:
                table.columns = []

    def put(self, name, text):
        (self.folder / name).write_bytes(text.encode("latin-1"))

    def table(self, columns, key, pool):
        rows, seen = [], set()
        for number in range(self.rng.randint(1000, 2500) if self.is_large else self.rng.randint(0, 8)):
            under = tuple(self.rng.choice(pool) for _ in key)
            if self.is_large:
                under = (str(self.rng.randint(0, 9999)), *under[1:])
            if self.repeats or under not in seen:
                seen.add(under)
                rows.append({**{name: self.rng.choice(self.cells) for name in columns}, **dict(zip(key, under))})
            if self.repeats and rows and self.rng.random() < 0.2:
                # The same row again, which has a place of its own.
                rows.append(dict(self.rng.choice(rows)))
        return Table(columns, rows)

    def changed(self, columns, key, pool):
        """Most rows of the base, some of them with another cell, and rows of its own, in any order."""
        rows = [dict(row) for row in self.base.rows if self.rng.random() < 0.8]
        for row in rows:
            others = [name for name in columns if name not in key]
            if others and self.rng.random() < (0.01 if self.is_large else 0.3):
                row[self.rng.choice(others)] = self.rng.choice(self.cells)
        there = {tuple(row[name] for name in key) for row in self.base.rows}
        for row in self.table(columns, key, pool).rows:
            if self.repeats or tuple(row[name] for name in key) not in there:
                rows.append(row)
        self.rng.shuffle(rows)
        return Table(columns, rows)

    def own_columns(self, table, key):
        """A table with its columns in another order, perhaps without some, and with some that no other has, or as it is."""
        if self.rng.random() < 0.5:
            return table
        kept = [name for name in table.columns if name in key or self.rng.random() < 0.7]
        if self.has_header:
            kept += [name for name in self.rng.sample(NAMES, 2) if name not in table.columns]
            self.rng.shuffle(kept)
        else:
            most = max(map(int, key))
            kept = [str(it + 1) for it in range(max(most, len(table.columns) + self.rng.randint(-1, 1)))]
        made = table.under(kept)
        for row in made.rows:
            for name in kept:
                if name not in table.columns and self.rng.random() < 0.1:
                    row[name] = self.rng.choice(CELLS)
        return made

    def columns_of(self, *tables):
        """The columns of all, the key, and the other columns."""
        columns = [*dict.fromkeys(name for table in tables for name in table.columns)]
        key = self.named or columns[:1]
        return columns, key, [name for name in columns if name not in key]

    def arranged(self, key, rest, groups, *tables):
        """The rows of groups as they come out: in the order of their cells, or in that of these tables."""
        if not self.keeps_order:
            return groups
        there = [table.in_place(key, rest) for table in tables]
        made = {}
        for under, rows in groups.items():
            wanted, put, made[under] = Counter(rows), Counter(), []
            for table in there:
                seen = Counter()
                for row in table.get(under, []):
                    seen[row] += 1
                    if put[row] < min(seen[row], wanted[row]):
                        put[row] += 1
                        made[under].append(row)
            if len(made[under]) < len(rows):
                made[under] = rows
        return made

    @staticmethod
    def merged_columns(base, ours, theirs):
        """The columns of a merged table: those that no side dropped, as they stand in the side that moved them."""
        ours, theirs = ours or base, theirs or base
        is_same_order = lambda columns: [it for it in base if it in columns] == [it for it in columns if it in base]
        is_theirs = ours == base or is_same_order(ours) and not is_same_order(theirs)
        first, other = (theirs, ours) if is_theirs else (ours, theirs)
        return [it for it in first if it in other or it not in base] + [it for it in other if it not in [*first, *base]]

    def in_order(self, key, keys, *tables):
        """Keys as they come out: in their own order, or in that of these tables."""
        if not self.keeps_order:
            return sorted(keys)
        read = [tuple(row[name] for name in key) for table in tables for row in table.rows]
        return [it for it in dict.fromkeys(read) if it in keys]

    def in_merged_order(self, key, keys, ours, theirs):
        """Those of a merge: in the order of ours, with each new one after the one that it follows in theirs, or first."""
        if not self.keeps_order:
            return sorted(keys)
        ours, theirs = ([*dict.fromkeys(tuple(row[name] for name in key) for row in table.rows)] for table in (ours, theirs))
        there, behind, last = {*ours}, {}, None
        for it in theirs:
            if it in there:
                last = it
            else:
                behind.setdefault(last, []).append(it)
        placed = [it for one in [None, *ours] for it in [one, *behind.get(one, [])]][1:]
        return [it for it in placed if it in keys]

    def ask(self, *words, options=None):
        """The status of a run, what it printed and what it said, perhaps with the standard input in the place of a file."""
        files = [it for it in words if self.is_file(it)]
        self.stdin = self.rng.choice(files) if files and self.rng.random() < 0.3 else None
        if words.count(self.stdin) > 1:
            self.stdin = None
        return self.ask_again(*words, options=options)

    def is_file(self, word):
        """Whether a word is a file of this round. No name of one is as long as that of a column may be."""
        return len(word) < 100 and (self.folder / word).is_file()

    def ask_again(self, *words, options=None):
        """The same, with the standard input in the place of the file that it had last, or of none. Now and then the answer goes into a file."""
        options = self.options if options is None else options
        target = self.some_target(words) if self.rng.random() < 0.1 else None
        files = [it for it in words if self.is_file(it)]
        said = ["-" if it == self.stdin else str(self.folder / it) if it in files else it for it in words]
        given = (self.folder / self.stdin).read_bytes() if self.stdin else b""
        if not target:
            return self.run([*said, *options], given)
        before = target.read_bytes() if target.exists() else None
        status, printed, complaint = self.run([*said, *options, "-o", str(target)], given)
        after = target.read_bytes() if target.exists() else None
        is_report = bool(printed) and status == 1 and words[0] in ("apply", "merge")
        if before is not None:
            target.write_bytes(before)
        elif after is not None:
            target.unlink()
        # A report of rows for which there is no table goes to the standard output, and the file stays.
        if (status == 2 or is_report) and after != before or [*self.folder.glob(".*keyed-*")]:
            self.stop(" ".join(words) + f" into {target}", f"status {status}: the file is not as it was, or a draft is left")
        if status == 2 or is_report:
            return status, printed, complaint
        is_lost = after is None or printed or status == 1 and (words[0] == "apply" or words[0] == "merge" and "marks" not in words)
        if is_lost:
            self.stop(" ".join(words) + f" into {target}", f"status {status}, printed {printed[:80]}, the file {after and after[:80]}")
        return status, after, complaint

    def some_target(self, words):
        """A file that the answer of a command goes into: a new one, one that is there, or one that it reads."""
        if words[:1] not in {(it,) for it in ("diff", "apply", "merge", "join", "lookup", "overlay")} or {"-q", "--quiet", "--no-heading"} & {*words}:
            return None
        read = [self.folder / it for it in words[1:] if self.is_file(it) and it != self.stdin]
        target = self.rng.choice([self.folder / "out", *read])
        if target.name == "out" and self.rng.random() < 0.5:
            target.write_bytes(b"as it was")
        elif target.name == "out":
            target.unlink(missing_ok=True)
        return target

    def run(self, words, given):
        found = subprocess.run([self.program, *(it.encode("latin-1") for it in words)], input=given, capture_output=True, timeout=300)
        return found.returncode, found.stdout, found.stderr

    def rows_of(self, answer):
        """The rows that were printed as CSV."""
        return self.rows_in(answer[1].decode("latin-1"))

    def rows_in(self, text):
        """The rows of a text, in which blank lines are none."""
        return [it for it in csv.reader(io.StringIO(text, newline=""), delimiter=self.delimiter) if it]

    def expect(self, what, answer, status, columns, rows, like=None, marks=()):
        """The header, where there is one, and rows as CSV, written as a file is, or plainly. A row that is a text is a mark."""
        text = answer[1].decode("latin-1")
        source = (self.folder / like).read_bytes().decode("latin-1") if like else ""
        has_mark, end, has_quotes = style_of(source, self.delimiter) if like else (False, "\n", False)
        body = text[len(MARK) :] if has_mark else text
        found = self.rows_in(body)
        want = [columns] * self.has_header + [it.split(self.delimiter) if isinstance(it, str) else it for it in rows]
        if text.startswith(MARK) != has_mark or not self.is_written_as(source, end, has_quotes, body, marks):
            self.stop(what, f"not written as {like}: {text[:200]!r}")
        # A mark is a line of its own, in no quotes, whatever the style is.
        bare_marks = [it for it in marks if len(re.findall(f"(?m)^{re.escape(it)}\r?$", body)) != rows.count(it)]
        if answer[0] != status or found != want or answer[2] or bare_marks:
            self.stop(what, f"status {answer[0]}, not {status}, {answer[2]}, {bare_marks}", *apart(found, want))

    def is_written_as(self, source, end, has_quotes, body, marks):
        """Whether each row of a text, each mark and each blank line is written in a style, or stands so in the text that it is of. A row that
        is changed there has cells in no quotes where the row that it was had them so."""
        between = re.escape(self.delimiter)
        cell = f'(?:{QUOTED}|[^"{between}\r\n]*)'
        a_row = re.compile(f"({cell}(?:{between}{cell})*)(\r\n|\r|\n|$)")
        are_bare = lambda line: tuple(it[:1] != '"' for it in re.findall(f"(?:^|{between})({cell})", line))
        # A return that ends a line alone is written as a line feed.
        fed, were_bare = re.sub("\r(?!\n)", "\n", source), None
        for row in a_row.finditer(body):
            line, stop = row.groups()
            bare = are_bare(line) if has_quotes else ()
            # The search in the whole text comes last: in a table of many rows it is long.
            if not row[0] or stop == end and (line in marks or not any(bare)) or row[0] in source or row[0] in fed:
                continue
            if stop != end:
                return False
            were_bare = were_bare or {are_bare(it[1]) for it in a_row.finditer(fed.removeprefix(MARK))}
            if not any(len(it) == len(bare) and all(map(le, bare, it)) for it in were_bare):
                return False
        return True

    def expect_objects(self, words, status, objects, options=None):
        """An object of JSON a line."""
        answer = self.ask(*words, "--format", "json", options=options)
        found = self.objects_of(answer[1].decode())
        if answer[0] != status or found != objects or answer[2]:
            self.stop(" ".join(words) + " as JSON", f"status {answer[0]}, {answer[2]}", *apart(found, objects))

    @staticmethod
    def objects_of(text):
        """The objects of JSON on the lines of a text."""
        lines = text.split("\n")
        return [*map(OBJECTS.decode, lines[:-1])] + ["no line end"] * bool(lines[-1])

    def same(self, what, found, want):
        if found != want:
            self.stop(what, *apart(found, want))

    def some_of(self, forms):
        """Those of the forms that this round looks at: one, or all of tables whose size is what is looked at."""
        return forms if self.is_whole else [self.rng.choice(forms)]

    def expect_text(self, what, answer, status, text):
        if answer != (status, text.encode(), b""):
            self.stop(what, f"status {answer[0]}, not {status}, {answer[2]}", *apart(answer[1].decode(), text))

    def stop(self, what, *lines):
        lines = [it if len(it) < 5000 else it[:5000] + " .." for it in map(str, lines)]
        print(f"{what[:1000]} with {self.options}, - for {self.stdin}, of {self.folder}", *lines, sep="\n    ")
        sys.exit(1)

    @staticmethod
    def line(columns, key, rest):
        cells = {**dict(zip(*key)), **dict(zip(*rest))}
        return [cells[name] for name in columns]
