"""Tables by the names of their columns, and what a text of CSV is in each of its forms."""
import csv
import io
import re
from decimal import MAX_EMAX, MIN_EMIN, Context, Decimal, localcontext
from functools import lru_cache

from model.cells import LINE_END, MARK, QUOTED

# From so many rows on a table keeps what was found of it.
MANY = 10_000


def as_record(names, others=None):
    """The names as one record of CSV, as --key takes them, with those that they have in the other tables."""
    text, cells = io.StringIO(), [it.replace("=", "==") for it in names]
    if others:
        others = [it.replace("=", "==") for it in others]
        cells = [it if it == other else f"{it}={other}" for it, other in zip(cells, others)]
    csv.writer(text, lineterminator="", quoting=csv.QUOTE_ALL).writerow(cells)
    return text.getvalue()


class Table:
    """Rows by the names of their columns."""

    def __init__(self, columns, rows):
        self.columns, self.rows = columns, rows
        # What was found of many rows, which stay as they are once they are asked for.
        self.found = {}

    def under(self, columns):
        return Table(columns, [{name: row.get(name, "") for name in columns} for row in self.rows])

    def lines(self, has_header):
        return [self.columns] * has_header + [[row[name] for name in self.columns] for row in self.rows]

    def in_place(self, key, rest):
        """The rows by key, as they stand in the table; a cell of a column that is not there is empty."""
        if len(self.rows) < MANY:
            return self.read_in_place(key, rest)
        asked = "in place", *key, None, *rest
        if asked not in self.found:
            self.found[asked] = self.read_in_place(key, rest)
        return self.found[asked]

    def read_in_place(self, key, rest):
        found = {}
        for row in self.rows:
            found.setdefault(tuple([row[name] for name in key]), []).append(tuple([row.get(name, "") for name in rest]))
        return found

    def groups(self, key, rest):
        """The same, those under a key in the order of their cells."""
        made = lambda: {it: sorted(rows) for it, rows in self.in_place(key, rest).items()}
        if len(self.rows) < MANY:
            return made()
        asked = "groups", *key, None, *rest
        if asked not in self.found:
            self.found[asked] = made()
        return self.found[asked]


def told_apart(names):
    """Names of columns, of which those that stand there already have the next number that makes no other name."""
    told, last = [], {}
    for name in names:
        number = last.get(name, 0) + 1
        while number > 1 and f"{name}.{number}" in names:
            number += 1
        last[name] = number
        told.append(name if number == 1 else f"{name}.{number}")
    return told


def some_style(rng):
    """A form of CSV: whether each cell is in quotes, how lines end, whether blank ones stand between them, and whether a byte order mark
    stands before all."""
    return rng.random() < 0.3, rng.choice(["\n", "\n", "\r\n", "\r"]), rng.random() < 0.2, rng.random() < 0.1


def written(lines, delimiter, rng, comment=None, skipped=0, style=None):
    """Lines of cells as CSV in one of its forms, perhaps with notes between them and so many lines before them, and on which line of the
    text each begins."""
    quotes_all, end, blanks, has_mark = style or some_style(rng)
    special = {'"', "\r", "\n", delimiter, comment}

    def cell(text, is_alone):
        # What would say at the beginning of a text what it is stands in quotes, wherever it is.
        if quotes_all or special & set(text) or is_alone and not text or text.startswith(("\xef\xbb\xbf", "\xff\xfe")):
            return '"' + text.replace('"', '""') + '"'
        return text

    top = "".join(rng.choice(["", "a title", 'a "quote', "a\0b", delimiter * 3]) + end for _ in range(skipped))
    parts, starts = [MARK * has_mark, top], []
    line = 1 + len(LINE_END.findall(top))
    for cells in lines:
        blank = end * rng.randint(1, 3) if blanks and rng.random() < 0.3 else ""
        if comment and rng.random() < 0.3:
            blank += comment + rng.choice(["", " a note", '"', delimiter, comment]) + end
        text = delimiter.join(cell(it, len(cells) == 1) for it in cells) + end
        line += len(LINE_END.findall(blank))
        starts.append(line)
        line += len(LINE_END.findall(text))
        parts += [blank, text]
    if comment and rng.random() < 0.3:
        parts.append(comment + " the last")
    return "".join(parts), starts


def line_ends(text):
    """The ends of lines outside quotes."""
    return [it for it in re.findall(f"{QUOTED}|(\r\n|\r|\n)", text) if it]


def style_of(text, delimiter):
    """Whether a text of CSV has a byte order mark, how it ends lines, CR LF or else LF, and whether the cells of its first row are in quotes."""
    rows = text.removeprefix(MARK)
    end = "\r\n" if line_ends(rows)[:1] == ["\r\n"] else "\n"
    quotes = re.match(f"{QUOTED}(?:{re.escape(delimiter)}{QUOTED})*(?:[\r\n]|$)", rows.lstrip("\r\n"))
    return text.startswith(MARK), end, quotes is not None


NUMBER = re.compile(r"([+-]?)([0-9]*)(?:\.([0-9]*))?(?:[eE]([+-]?[0-9]{1,4}))?")


@lru_cache(1 << 16)
def as_number(cell):
    """The number that a cell is, or None."""
    found = NUMBER.fullmatch(cell)
    if not found or not (found[2] or found[3]):
        return None
    return Decimal(cell)


def are_near(number, other, tolerance):
    """Whether two numbers have no more than so much between them."""
    if number is None or other is None:
        return False
    # Exact sums of all that has a power of four digits.
    with localcontext(Context(prec=50_000, Emax=MAX_EMAX, Emin=MIN_EMIN)):
        return abs(number - other) <= Decimal(tolerance)
