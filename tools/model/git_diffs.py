"""What `git diff` shows of tables, as `keyed git-setup` sets it up: the cases of `tools/try_git`."""
import os
import re

from model.repository import BASE, holds, same


def an_edit(repository):
    repository.commit(BASE)
    repository.write(BASE.replace("fig,3", "fig,5"))
    shown = repository.git("diff")
    holds(shown, "t.csv", "changed  2   3 -> 5\n", "0 added, 0 removed, 1 changed, 2 the same\n")


def a_table_added(repository):
    repository.commit("", "other")
    repository.write(BASE)
    repository.git("add", "--all")
    holds(repository.git("diff", "--cached"), "t.csv", "added  1   pear  2\n", "3 added, 0 removed, 0 changed, 0 the same\n")


def a_table_removed(repository):
    repository.commit(BASE)
    repository.git("rm", "--quiet", "t.csv")
    holds(repository.git("diff", "--cached"), "t.csv", "removed  3   sloe  4\n", "0 added, 3 removed, 0 changed, 0 the same\n")


def a_table_renamed(repository):
    repository.commit(BASE)
    repository.git("mv", "t.csv", "u.csv")
    repository.write(BASE.replace("fig,3", "fig,5"), "u.csv")
    repository.git("add", "--all")
    shown = repository.git("diff", "--cached", "--find-renames=30%")
    holds(shown, "t.csv -> u.csv", "changed  2   3 -> 5\n")


def a_table_of_tabs(repository):
    """A file that is renamed from .csv to .tsv: each version has the delimiter of its own name."""
    lines = "".join(f"{n}\n" for n in range(100))
    repository.commit("id\n" + lines + '"a\tb"\n')
    repository.git("mv", "t.csv", "u.tsv")
    repository.write("id\n" + lines + '"a\tb"\nc,d\n', "u.tsv")
    repository.git("add", "--all")
    shown = repository.git("diff", "--cached")
    holds(shown, "t.csv -> u.tsv", "added  c,d\n", "1 added, 0 removed, 0 changed, 101 the same\n")


def lines_of(text):
    """The hunks of a comparison of lines, without what stands before them."""
    return [it for it in re.sub(r"(?m)^@@ (.*?) @@.*$", r"@@ \1 @@", text[text.index("\n@@") + 1 :]).split("\n")]


def no_table_beside_git(repository):
    """A ragged file is compared line by line as git does, also where hundreds of lines differ."""
    text = "id,name\n" + "".join(f"{n},name {n}\n" for n in range(3000))
    repository.commit(text)
    ragged = re.sub(r"(?m)^(\d+7),.*$", r"\1,new,more", text).replace("500,name 500\n", "").replace("900,", "900,\n900,")
    repository.write(ragged)
    found, wanted = repository.git("diff"), repository.git("diff", "--no-ext-diff")
    holds(found, "keyed diff t.csv\nno table: ", "--- a/t.csv\n+++ b/t.csv\n")
    same(lines_of(found), lines_of(wanted))


def no_table_renamed(repository):
    """The same of a file that was renamed: each version has its own name."""
    text = "id,name\n" + "".join(f"{n},name {n}\n" for n in range(3000))
    repository.commit(text)
    repository.git("mv", "t.csv", "u.csv")
    repository.write(text.replace("2999,name 2999", "2999").replace("2,", "2,,"), "u.csv")
    repository.git("add", "--all")
    found, wanted = (repository.git("diff", "--cached", "--find-renames=10%", *it) for it in ([], ["--no-ext-diff"]))
    holds(found, "t.csv -> u.csv\nno table: ", "--- a/t.csv\n+++ b/u.csv\n")
    same(lines_of(found), lines_of(wanted))


def two_tables(repository):
    repository.commit(BASE)
    repository.commit(BASE, "u.csv")
    repository.write(BASE.replace("fig,3", "fig,5"))
    repository.write(BASE.replace("pear", "plum"), "u.csv")
    holds(repository.git("diff"), "t.csv", "2   3 -> 5", "u.csv", "pear -> plum")


def a_conflict_shown(repository):
    repository.sides(BASE, BASE.replace("fig,3", "fig,5"), BASE.replace("fig,3", "fig,6"))
    repository.git("merge", "theirs", status=1)
    holds(repository.git("diff"), "t.csv")


def both_changed(repository, path):
    """A table of this name and one after it, both changed."""
    repository.commit(BASE, path)
    repository.commit(BASE, "t.csv")
    repository.write(BASE.replace("fig,3", "fig,5"), path)
    repository.write(BASE.replace("fig,3", "fig,6"), "t.csv")


def named_as_an_option(repository):
    both_changed(repository, "-d.csv")
    holds(repository.git("diff"), "keyed diff -d.csv\n", "2   3 -> 5", "keyed diff t.csv\n", "2   3 -> 6")


def named_by_other_bytes(repository):
    both_changed(repository, os.fsdecode(b"b\xff.csv"))
    said = "keyed diff b\\xff.csv\nnot compared: its name is not UTF-8 (git diff --no-ext-diff compares its lines)\n"
    holds(repository.git("diff"), said, "keyed diff t.csv\n", "2   3 -> 6")
    repository.git("add", "--all")
    holds(repository.git("diff", "--cached"), said, "2   3 -> 6")
    holds(repository.git("diff", "--cached", "--no-ext-diff"), "-2,fig,3\n+2,fig,5\n")


def in_a_folder_of_other_bytes(repository):
    """What git has stored is given in files of plain names, in whatever folder the table stands."""
    folder = os.fsdecode(b"b\xff")
    (repository.folder / folder).mkdir()
    both_changed(repository, folder + "/u.csv")
    holds(repository.git("diff"), "keyed diff b\\xff/u.csv\nnot compared: ", "2   3 -> 6")
    repository.commit(BASE, "t.csv")
    repository.write(BASE, folder + "/u.csv")
    holds(repository.git("diff", "HEAD~1", "HEAD"), "keyed diff b\\xff/u.csv\n", "2   3 -> 5")


def no_table_shown(repository):
    repository.commit(BASE)
    repository.write(BASE.replace("2,fig", '2,"fig'))
    shown = repository.git("diff")
    holds(shown, "t.csv", "no table: ", "quote", "--- a/t.csv\n+++ b/t.csv\n", " 1,pear,2\n-2,fig,3\n+2,\"fig,3\n 3,sloe,4\n")
    repository.write('"\0\n')
    holds(repository.git("diff"), "t.csv", "no table: ", "Binary files differ\n")


def a_column_that_no_version_has(repository):
    repository.commit(BASE)
    repository.write(BASE.replace("fig,3", "fig,5"))
    found = repository.git("diff")
    holds(found, "keyed diff t.csv\nno table: ", "neither table has a column seen\n")
    same(lines_of(found), lines_of(repository.git("diff", "--no-ext-diff")))


def named_twice(repository):
    """A key of two names, both of which stand in one version: that is no table."""
    repository.commit("item,id\n1,a\n2,b\n")
    repository.write("item,id\n1,a\n2,c\n")
    found = repository.git("diff")
    holds(found, "keyed diff t.csv\nno table: ", "line 1: ")
    same(lines_of(found), lines_of(repository.git("diff", "--no-ext-diff")))


# What git is asked, the options that git-setup is given, and the case.
CASES = [
    ("diff: an edit", (), an_edit),
    ("diff: a table added", (), a_table_added),
    ("diff: a table removed", (), a_table_removed),
    ("diff: a table renamed", (), a_table_renamed),
    ("diff: a table renamed from .csv to .tsv", (), a_table_of_tabs),
    ("diff: a ragged file, beside git", (), no_table_beside_git),
    ("diff: a ragged file that was renamed, beside git", (), no_table_renamed),
    ("diff: two tables", (), two_tables),
    ("diff: a table in conflict", (), a_conflict_shown),
    ("diff: a file that is no table", (), no_table_shown),
    ("diff: a column is left out that no version has", ("--ignore", "seen"), a_column_that_no_version_has),
    ("diff: a key of two names that both stand there", ("--key", "item=id"), named_twice),
    ("diff: a name that begins as an option does", ("--key", "id"), named_as_an_option),
    ("diff: a name that is not UTF-8", (), named_by_other_bytes),
    ("diff: a folder whose name is not UTF-8", (), in_a_folder_of_other_bytes),
]
