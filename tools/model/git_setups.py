"""What `keyed git-setup` tells git: the cases of `tools/try_git`."""
from model.repository import BASE, holds, merged, same

PRICES = "seen,sku,price\n1,a,2\n1,b,3\n1,c,4\n"
FRUIT = "id,name\n1,pear\n2,fig\n3,sloe\n"
STOCK = "shelf,sku,count\nleft,a,1\nleft,b,2\nright,a,3\n"


def read_by_a_shell(repository):
    """Delimiters that mean something to a shell, set up and used."""
    for delimiter in (";", "|", "$", "&", "'", "*", "tab", "#"):
        repository.set_up("--delimiter", delimiter, "--key", "id")
        byte = {"tab": "\t"}.get(delimiter, delimiter)
        base = BASE.replace(",", byte)
        repository.commit(base)
        repository.write(base.replace("fig", "figs"))
        holds(repository.git("diff"), "changed  2   fig -> figs\n", "0 added, 0 removed, 1 changed, 2 the same\n")
        repository.commit(base.replace("fig", "figs"))
        repository.git("checkout", "--quiet", "-b", f"theirs-{ord(byte)}", "HEAD~1")
        repository.commit(base.replace("sloe", "sloes"))
        repository.git("checkout", "--quiet", "main")
        repository.git("merge", "--quiet", "--no-edit", f"theirs-{ord(byte)}")
        same(repository.read(), base.replace("fig", "figs").replace("sloe", "sloes"))


def set_up_twice(repository):
    """Nothing stands twice, and no line is joined to one that does not end."""
    lines = ["*.csv diff=keyed merge=keyed", "*.tsv diff=keyed merge=keyed"]
    same(repository.read(".gitattributes").splitlines(), lines)
    repository.set_up()
    same(repository.read(".gitattributes").splitlines(), lines)
    repository.write("*.txt text", ".gitattributes")
    repository.set_up("--key", "id")
    repository.set_up("--key", "id")
    same(repository.read(".gitattributes").splitlines(), ["*.txt text", *lines])
    same(repository.git("config", "--get-all", "diff.keyed.command"), "keyed git-diff --key id --\n")
    same(repository.git("config", "--get-all", "merge.keyed.driver"), "keyed git-merge --key id -- %O %A %B %P\n")
    same(repository.git("config", "--get-all", "merge.keyed.recursive"), "binary\n")


def set_up_for_patterns(repository):
    """Paths of a pattern with options of their own, which win over those of all tables, whichever are told first. Again, nothing changes."""
    others = [("--key", "shelf,sku", "stock/*.csv", "the stock.csv"), ("--key", "name")]
    for options in others:
        repository.set_up(*options)
    of = lambda pattern, driver: f"{pattern} diff={driver} merge={driver}"
    lines = [of(*it) for it in (("*.csv", "keyed"), ("*.tsv", "keyed"), ("prices*.csv", "keyed-prices*.csv"), ("stock/*.csv", "keyed-stock/*.csv"))]
    lines.append(of('"the stock.csv"', "keyed-the%20stock.csv"))
    same(repository.read(".gitattributes").splitlines(), lines)
    told = [repository.read(it) for it in (".gitattributes", ".git/config")]
    for options in (repository.options, *others):
        repository.set_up(*options)
    same([repository.read(it) for it in (".gitattributes", ".git/config")], told)
    (repository.folder / "stock").mkdir()
    tables = {"t.csv": FRUIT, "prices1.csv": PRICES, "stock/t.csv": STOCK, "the stock.csv": STOCK}
    for path, table in tables.items():
        repository.commit(table, path)
    repository.write(FRUIT.replace("2,fig", "5,fig"))
    repository.write(PRICES.replace("1,a,2", "7,a,2.0").replace("b,3", "b,5"), "prices1.csv")
    for path in ("stock/t.csv", "the stock.csv"):
        repository.write(STOCK.replace("b,2", "b,4"), path)
    of_stock = "         shelf  sku  count\nchanged  left   b    2 -> 4\n0 added, 0 removed, 1 changed, 2 the same\n"
    of_prices = "         sku  price\nchanged  b    3 -> 5\n0 added, 0 removed, 1 changed, 2 the same\n"
    of_all = "         name  id\nchanged  fig   2 -> 5\n0 added, 0 removed, 1 changed, 2 the same\n"
    shown = {"prices1.csv": of_prices, "stock/t.csv": of_stock, "t.csv": of_all, "the stock.csv": of_stock}
    same(repository.git("diff"), "".join(f"keyed diff {path}\n{text}" for path, text in shown.items()))
    # Of the paths of a pattern that is told of again, the options are others.
    repository.set_up("--key", "price", "prices*.csv")
    same(repository.read(".gitattributes").splitlines(), lines)
    same(repository.git("config", "--get-all", "diff.keyed-prices*.csv.command"), "keyed git-diff --key price --\n")
    same(repository.git("config", "--get-all", "merge.keyed-prices*.csv.driver"), "keyed git-merge --key price -- %O %A %B %P\n")
    same(repository.git("config", "--get-all", "merge.keyed-prices*.csv.recursive"), "binary\n")


def merged_by_number(repository):
    """A number that ours writes in another way, and theirs changes."""
    merged(repository, PRICES, PRICES.replace("a,2", "a,2.0").replace("1,c", "8,c"), PRICES.replace("a,2", "a,6"),
           "seen,sku,price\n1,a,6\n1,b,3\n8,c,4\n", "prices1.csv")


def patterns_that_a_shell_reads(repository):
    """Patterns with bytes that mean something to a shell or to git, each of the path that it names."""
    names = {"a b.csv": "a b.csv", "'$x`y`.csv": "'$x`y`.csv", '"quoted".csv': '"quoted".csv', "#c.csv": "#c.csv", "-n.csv": "-n.csv",
             "\\*&;|.csv": "*&;|.csv", "tab\tin.csv": "tab\tin.csv", "100%20.csv": "100%20.csv", "ä.csv": "ä.csv", "(x).csv": "(x).csv"}
    for _ in range(2):
        repository.set_up("--key", "name", "--", *names)
        repository.set_up("--key", "id")
    same(len(repository.read(".gitattributes").splitlines()), len(names) + 3)
    for path in names.values():
        repository.commit(FRUIT, path)
        repository.write(FRUIT.replace("2,fig", "5,fig"), path)
        holds(repository.git("diff"), "         name  id\nchanged  fig   2 -> 5\n0 added, 0 removed, 1 changed, 2 the same\n")


# What git is asked, the options that git-setup is given, and the case.
CASES = [
    ("git-setup: twice", (), set_up_twice),
    ("git-setup: paths with a key of their own", ("--key", "sku", "--numbers", "--ignore", "seen", "prices*.csv"), set_up_for_patterns),
    ("git-setup: patterns that a shell reads", ("--key", "id", "t.csv"), patterns_that_a_shell_reads),
    ("merge: paths with numbers by value", ("prices*.csv", "--key", "sku", "--numbers", "--ignore", "seen"), merged_by_number),
    ("git-setup: delimiters that a shell reads", (), read_by_a_shell),
]
