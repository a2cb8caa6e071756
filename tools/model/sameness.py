"""Which cells are the same, as the options of a command line have it."""
from model.tables import are_near, as_number, as_record

BLANKS = " \t\n\x0c\r"


def is_text(cell):
    """Whether a cell is UTF-8."""
    return not any("\ud800" <= it <= "\udfff" for it in cell)


def is_same(cell, other, how):
    """Whether two cells of a column are the same: as they stand, or how the column is compared."""
    if how is None or cell == other:
        return cell == other
    tolerance, trims, folds = how
    a, b = (it.strip(BLANKS) if trims else it for it in (cell, other))
    if a == b or folds and is_text(a) and is_text(b) and a.casefold() == b.casefold():
        return True
    return tolerance is not None and are_near(as_number(cell.strip(BLANKS)), as_number(other.strip(BLANKS)), tolerance)


def some_sameness(rng):
    """Some tolerance or none, whether columns have their own, and whether white space and case are compared."""
    tolerance = rng.choice([None, "0", "0", "0.1", "1", "1e-3", "+.50", "10000"])
    return tolerance, rng.random() < 0.4, rng.random() < 0.3, rng.random() < 0.3


def hows_of(rng, sameness, rest):
    """How each column beside the key is compared, and the words of a command line that say so."""
    if sameness is None:
        return [None] * len(rest), []
    tolerance, has_own, trims, folds = sameness
    words = ["--trim"] * trims + ["--ignore-case"] * folds + ["--numbers"] * (tolerance is not None)
    own = {it: rng.choice(["0", "0.5", "100"]) for it in rest if rng.random() < 0.5} if has_own and tolerance is not None else {}
    if own:
        items = [as_record([it]) for it in own]
        # A quote at the end of a name stands after its number.
        named = [f'{it[:-1]}={own[name]}"' if it.endswith('"') else f"{it}={own[name]}" for it, name in zip(items, own)]
        words += ["--tolerance", ",".join([*named, tolerance] if tolerance != "0" else named)]
    elif tolerance not in (None, "0"):
        words += ["--tolerance", tolerance]
    return [(own.get(it, tolerance), trims, folds) for it in rest] if words else [None] * len(rest), words
