"""What options are to do that change nothing of what a command says: how files are written, and where the answer goes."""
import re
import subprocess

from model.cells import MARK
from model.tables import line_ends, style_of, written

DELIMITERS = [",", ";", "\t", "|", ":", "\x01"]
MANY_LINES = 9


class Options:
    """Checks of a round, of options."""

    def some_command(self):
        """The words of a command with an answer, of files that have each key once, unless they may repeat."""
        key = self.columns_of(self.base, self.ours)[1]
        two = [["diff", "base", "ours", "--format", "csv"], ["diff", "base", "ours"], self.join_of("base", "ours"), ["overlay", "base", "ours"]]
        two += [["apply", "base", "changes"], ["apply", "ours", "changes"]]
        if not self.repeats and not self.keeps_order and self.has_keys(key, self.base, self.ours):
            two.append(["lookup", "base", "ours", "--prefix=<,>"])
        return self.rng.choice([*two, ["merge", "base", "ours", "theirs"], ["merge", "base", "ours", "theirs", "--by-cell", "--conflicts", "marks"]])

    def alike(self, words, whole, others, options, found):
        if found != whole:
            what = " ".join(map(str, [*words, "as", *others, *options]))
            self.stop(what, f"status {found[0]}, not {whole[0]}, {found[2]}, not {whole[2]}", *apart_of(found[1], whole[1]))

    def with_files(self, words, names):
        return [names.get(it, it) for it in words]

    def check_delimiters(self):
        """The second file with a delimiter of its own, by an option or by its name, gives what it gives with that of the first."""
        words = self.some_command()
        if words[0] in ("merge", "overlay"):
            return self.check_delimiter_by_name(words)
        if not self.has_keys(self.columns_of(self.base, self.ours)[1], self.base, self.ours):
            return
        whole = self.ask(*words)
        if whole[0] == 2:
            return
        other = self.rng.choice([it for it in DELIMITERS if it != self.delimiter])
        second = words[2]
        lines = [self.marked] * self.has_header + [[sign, *line] for sign, line in zip(self.signs, self.changes.lines(False))]
        lines = lines if second == "changes" else self.ours.lines(self.has_header)
        name = "other.tsv" if other == "\t" and self.rng.random() < 0.5 else "other"
        self.put(name, written(lines, other, self.rng)[0])
        options = self.options[2:] + ["--left-delimiter", self.delimiter]
        options += [] if name == "other.tsv" else ["--right-delimiter", "tab" if other == "\t" else other]
        if name == "other.tsv":
            self.stdin = None
        words = self.with_files(words, {second: name})
        self.stdin = None
        self.alike(words, whole, [name], options, self.ask_again(*words, options=options))
        (self.folder / name).unlink()

    def check_delimiter_by_name(self, words):
        """One of several files with tabs, as its name says, among others with commas."""
        whole = self.ask(*words)
        if self.delimiter != "," or whole[0] == 2:
            return
        name = self.rng.choice([it for it in words[2:] if it in ("ours", "theirs")])
        ending = self.rng.choice([".tsv", ".tab"])
        self.put(name + ending, written(getattr(self, name).lines(self.has_header), "\t", self.rng, style=self.style_like(name))[0])
        self.stdin = None
        words = self.with_files(words, {name: name + ending})
        # What is written has the commas of the first file, and the style of the one that it had it from.
        found = self.ask_again(*words, options=self.options[2:])
        if (found[0], found[2]) != (whole[0], whole[2]) or self.rows_of(found) != self.rows_of(whole):
            self.alike(words, whole, [name + ending], self.options[2:], found)
        (self.folder / (name + ending)).unlink()

    def style_like(self, name):
        """The form of a file, as far as what is written has it: where ours is the file, its rows are written so."""
        has_mark, end, has_quotes = style_of((self.folder / name).read_bytes().decode("latin-1"), self.delimiter)
        return has_quotes, end, False, has_mark

    def check_lines_above(self):
        """Files with lines at their top, each with an end of its own, and with notes give what they give without them."""
        words = self.some_command()
        whole = self.ask(*words)
        if whole[0] == 2:
            return
        skipped, names = self.rng.choice([1, 2, MANY_LINES]), {}
        for name in {*words} & {"base", "ours", "theirs", "changes"}:
            text = (self.folder / name).read_bytes().decode("latin-1")
            body = text.removeprefix(MARK)
            if not body.strip("\r\n"):
                # With no row, the end of the lines at the top would be that of the last line.
                return
            # The first line of a file says how its lines end, also where it is passed over.
            ends = [self.rng.choice(["\n", "\r\n", "\r"]) for _ in range(skipped)]
            ends[0] = "\r\n" if line_ends(body)[:1] == ["\r\n"] else self.rng.choice(["\n", "\r"])
            note = self.rng.choice(["", '%% a "note\n', "%\r\n", "%\r"])
            if body.startswith(("\r", "\n")):
                # Blank lines before the header are written again: no note parts them, and no return before a line feed is one end with it.
                note, ends[-1] = "", "\r\n" if ends[-1] == "\r\n" else "\n"
            top = "".join(self.rng.choice(["a title", '"', 'a "quote', "a\0b", '""', self.delimiter]) + it for it in ends)
            mark = MARK * text.startswith(MARK)
            names[name] = f"{name} below"
            self.put(names[name], mark + top + note + body)
        options = [*self.options, "--skip", str(skipped), "--comment", "%"]
        words = self.with_files(words, names)
        self.stdin = None
        found = self.ask_again(*words, options=options)
        self.alike(words, whole, [f"{skipped} lines above"], options, found)

    def check_heading(self):
        """Without the names of columns CSV is that of the rows, and a report is what it is with them."""
        words = self.some_command()
        if words[0] == "diff" and "csv" not in words:
            return
        whole = self.ask(*words)
        found = self.ask_again(*words, "--no-heading")
        if whole[0] == 2 or whole[0] == 1 and words[0] == "apply" or whole[0] == 1 and words[0] == "merge" and not self.is_marked(whole):
            return self.alike(words, whole, ["--no-heading"], [], found)
        # A mark stands before the first row: it goes with the names, and the cells of a row after them may begin as it does.
        mark = MARK.encode("latin-1")
        bare = lambda answer: self.rows_of((0, answer[1].removeprefix(mark)))
        wanted, found_rows = bare(whole)[self.has_header :], self.rows_of(found) if self.has_header else bare(found)
        if (found[0], found[2]) != (whole[0], whole[2]) or found_rows != wanted:
            self.stop(" ".join(words) + " --no-heading", f"status {found[0]}, not {whole[0]}, {found[2]}", *apart_of(found_rows, wanted))

    @staticmethod
    def is_marked(answer):
        return b"<<<<<<< ours" in answer[1]

    def check_quiet(self):
        """A quiet command has the status alone."""
        words = self.some_command()
        if words[0] in ("diff", "apply", "merge"):
            whole = self.ask(*words)
            self.alike(words, (whole[0], b"", whole[2]), ["-q"], [], self.ask_again(*words, "-q"))

    def check_lenient(self):
        """A quote that quotes no cell of its line is a byte: cells are what an expression finds from one delimiter to the next."""
        other = re.escape(self.delimiter)
        cell = re.compile(f'"((?:[^"]|"")*)"(?={other}|$)|([^{other}]*)')
        pieces = ["a", "", '"', 'a"b', '"open', '"a"b', '"q""q"', f'"x{self.delimiter}y"', '" "', '"a" ', '""', '"""', '"a""', f'"{self.delimiter}', 'a""']
        lines, rows, end = [self.delimiter.join("knm")], [], self.rng.choice(["\n", "\r\n", "\r"])
        for number in range(self.rng.randint(0, 8)):
            line, cells, place = self.delimiter.join([str(number), self.rng.choice(pieces), self.rng.choice(pieces)]), [], 0
            while place <= len(line):
                found = cell.match(line, place)
                cells.append(found[2] if found[1] is None else found[1].replace('""', '"'))
                place = found.end() + 1
            if len(cells) == 3:
                lines.append(line)
                rows.append(cells)
        self.put("lenient", MARK * (self.rng.random() < 0.2) + end.join(lines) + end * (self.rng.random() < 0.8))
        self.put("nothing", "")
        self.stdin = None
        found = self.ask_again("join", "lenient", "nothing", "--kind", "anti", options=["--delimiter", self.delimiter, "--lenient"])
        if (found[0], found[2]) != (0, b"") or self.rows_of(found) != [[*"knm"], *rows]:
            self.stop("--lenient", f"status {found[0]}, {found[2]}", *apart_of(self.rows_of(found), [[*"knm"], *rows]))

    def check_marks_of_git(self):
        """Rows in conflict stand between marks where git has them, whose merge of lines knows no tables: those that changed are apart."""
        end, count = self.rng.choice(["\n", "\r\n"]), self.rng.randint(1, 12)
        texts = [["id,name" + end] for _ in range(3)]
        for number in range(count):
            same = [f"{number}{it},same{end}" for it in "abc"]
            base, ours, theirs = ([f"{number}d,{it}{end}"] for it in ("base", "ours", "theirs"))
            fate = self.rng.choice(["both", "ours", "theirs", "alike", "gone of ours", "gone of theirs", "added", "new of ours", "new of theirs", "two"])
            three = {
                "both": (base, ours, theirs),
                "ours": (base, ours, base),
                "theirs": (base, base, theirs),
                "alike": (base, ours, ours),
                "gone of ours": (base, [], theirs),
                "gone of theirs": (base, ours, []),
                "added": ([], ours, theirs),
                "new of ours": ([], ours, []),
                "new of theirs": ([], [], theirs),
                "two": (base, ["x" + ours[0], *ours], theirs),
            }[fate]
            # A row that ours adds beside one in conflict is another hunk of lines: git has both between its marks.
            three = (base, ours, theirs) if fate == "two" else three
            for text, rows in zip(texts, three):
                text += [*same, *rows]
        names = ["git base", "git ours", "git theirs"]
        for name, text in zip(names, texts):
            self.put(name, "".join(text))
        base, ours, theirs = (self.folder / it for it in names)
        words = ["git", "merge-file", "-p", "--diff3", "-L", "ours", "-L", "base", "-L", "theirs", ours, base, theirs]
        ran = subprocess.run(words, capture_output=True, timeout=60)
        words = ["merge", *names, "--conflicts", "marks", *self.rng.choice([[], ["--by-cell"]])]
        self.stdin = None
        found = self.ask_again(*words, options=["--keep-order"])
        self.alike(words, (int(ran.returncode > 0), ran.stdout, b""), ["git merge-file"], [], found)


def apart_of(found, want):
    place = next((it for it, pair in enumerate(zip(found, want)) if pair[0] != pair[1]), min(len(found), len(want)))
    begin = max(0, place - 20)
    return f"printed .. {found[begin:][:200]!r}", f"want    .. {want[begin:][:200]!r}, from place {begin} on"
