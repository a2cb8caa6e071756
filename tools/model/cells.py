"""Cells and names as `keyed` shows them to a person and writes them as JSON. A text of the tables is of characters that are one byte each."""
import re
import unicodedata
from functools import lru_cache

CELLS = ["", "a", "b", "aa", "0", "10", "2", " x ", "x,y", 'q"q', '"', "line\nend", "cr\rx", "\r\n", "\xe9", "\xff\xfe", "\xc3\xa9"]
CELLS += ["(no row)", "a -> b", "-> b", "a ->", '""', "a ", '"a "', "\\n", "\\"]
CELLS += ["\xef\xbb\xbfx", "-", "+", ";", "|", "\t", "\0", "change", "side", "#", "\\", "\x1b[31m", "\x7f", "\xc2\x85", "e\xcc\x81"]
# A right-to-left mark and override, a wide character, an emoji, and a character that is cut off.
CELLS += ["\xe2\x80\x8f", "\xe2\x80\xae", "\xe6\x97\xa5", "\xf0\x9f\x98\x80", "\xf0\x9f\x98"]
# One value in many ways, values that are near to others, long ones, and what is no number.
NUMBERS = ["", "1", "1.0", "+1", "01", "1.", "1e0", "10E-1", "0", "-0", "0.00", "-1", "-1.0", ".5", "0.50", "5e-1", "0.6", "1.05", "1.5", "1.5000001"]
NUMBERS += ["1e9999", "10e9998", "1e10000", "1e-9999", "12345678901234567890.1", "12345678901234567890.10", "12345678901234567890.2", " 1", "1,5", "NaN", "a"]
NAMES = ["id", "\xef\xbb\xbfmark", "name", "second key", "", "-", "-minus", "+plus", "=", "left.id", "side", '"quoted"', "with, comma", "caf\xc3\xa9", "two\nlines", "\x1b[0m", "\xe6\x97\xa5"]
KINDS = ["outer", "inner", "left", "right", "semi", "anti"]
MARKS = "\u061c\u200e\u200f\u2028\u2029\u202a\u202b\u202c\u202d\u202e\u2066\u2067\u2068\u2069"
COLOURS = {"removed": "31", "added": "32", "changed": "33"}
LINE_END = re.compile("\r\n|\r|\n")
MARK = "\xef\xbb\xbf"
QUOTED = '"[^"]*(?:""[^"]*)*"'


def escaped(c):
    """A character on the line of a terminal."""
    if 0xDC80 <= ord(c) <= 0xDCFF:
        return f"\\x{ord(c) - 0xDC00:02x}"
    named = {"\0": "\\0", "\t": "\\t", "\n": "\\n", "\r": "\\r"}
    return named.get(c) or (f"\\u{{{ord(c):x}}}" if unicodedata.category(c) == "Cc" or c in MARKS else c)


def shown_file(name):
    """The name of a file as a message has it."""
    return "".join(map(escaped, name.encode("latin-1").decode("utf-8", "surrogateescape")))


def prints_as_other(c):
    """Whether a character prints as nothing, or as a space, and is none."""
    return c != " " and unicodedata.category(c) in ("Cf", "Zs")


def quoted(cell):
    """A cell in quotes, with escapes of what would not be seen."""
    text = cell.encode("latin-1").decode("utf-8", "surrogateescape")
    is_composed = unicodedata.is_normalized("NFC", text)

    @lru_cache
    def char(c):
        if c in '"\\':
            return "\\" + c
        is_hidden = prints_as_other(c) or not is_composed and ord(c) > 127 and not 0xDC80 <= ord(c) <= 0xDCFF
        return f"\\u{{{ord(c):x}}}" if is_hidden else escaped(c)

    return '"' + "".join(map(char, text)) + '"'


@lru_cache(1 << 18)
def shown(cell):
    """A cell as a person reads it: in quotes where it would look like another one."""
    text = cell.encode("latin-1").decode("utf-8", "surrogateescape")
    is_odd = text[:1] in ('"', " ") and text or text[-1:] == " " or text == "(no row)" or "->" in text
    if not is_odd and text.isascii() and text.isprintable():
        return text
    if not is_odd and unicodedata.is_normalized("NFC", text) and all(escaped(c) == c and not prints_as_other(c) for c in text):
        return text
    return quoted(cell)


@lru_cache(1 << 18)
def as_json(cell):
    """A cell as JSON has it: each byte that is no UTF-8 as a character of its own, and so those of such a character."""
    if cell.isascii():
        return cell
    text = cell.encode("latin-1").decode("utf-8", "surrogateescape")
    of_bytes = lambda c: "".join(chr(0x10FF00 + it) for it in c.encode("utf-8", "surrogateescape"))
    return "".join(of_bytes(c) if 0xDC80 <= ord(c) <= 0xDCFF or ord(c) >= 0x10FF00 else c for c in text)


def pairs(names, cells):
    """The members of an object of JSON."""
    return list(zip(map(as_json, names), map(as_json, cells)))


def named(cell):
    """A cell among other text on a line: an empty one is a pair of quotes."""
    return shown(cell) or '""'


def in_list(cell):
    """The same in a list with commas: one with a comma is in quotes."""
    return quoted(cell) if "," in cell else named(cell)


@lru_cache(1 << 18)
def width(text):
    if text.isascii():
        return len(text)
    wide = sum(unicodedata.east_asian_width(c) in "WF" for c in text)
    # A byte order mark takes no width, and no more does a character that combines.
    return len(text) + wide - sum(unicodedata.combining(c) > 0 or c == "\ufeff" for c in text)


def lined_up(lines, has_colour=False):
    """Lines of cells, the first a word, with two spaces between columns, and none at an end."""
    widths = [max(width(line[place]) for line in lines if place < len(line)) for place in range(max(map(len, lines), default=0))]

    def text(line):
        cells = "".join(cell + " " * (most - width(cell) + 2) for cell, most in zip(line, widths)).rstrip(" ")
        begin, end = (f"\x1b[{COLOURS[line[0]]}m", "\x1b[0m") if has_colour and line[0] in COLOURS else ("", "")
        return begin + cells + end + "\n"

    return "".join(map(text, lines))


def apart(found, want):
    """Where an answer begins to be another one than is wanted."""
    place = next((it for it, pair in enumerate(zip(found, want)) if pair[0] != pair[1]), min(len(found), len(want)))
    begin = max(0, place - 3)
    return f"printed .. {found[begin:][:100]!r}", f"want    .. {want[begin:][:100]!r}, from place {begin} on"
