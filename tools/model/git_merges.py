"""What git merges of tables, and what stays in conflict, as `keyed git-setup` sets it up: the cases of `tools/try_git`."""
import os
import re
import time

from model.repository import BASE, Failed, conflict, holds, merged, same

ROWS = 100_000
LIMIT = 3.0


def rows_of_both(repository):
    merged(repository, BASE, BASE.replace("pear,2", "pear,7") + "5,kaki,1\n", BASE.replace("3,sloe,4\n", "4,plum,6\n"),
           "id,name,price\n1,pear,7\n2,fig,3\n4,plum,6\n5,kaki,1\n")


def a_row_in_its_place(repository):
    merged(repository, BASE, BASE.replace("pear,2", "pear,7"), BASE.replace("2,fig,3\n", "9,kaki,1\n2,fig,3\n"),
           "id,name,price\n1,pear,7\n9,kaki,1\n2,fig,3\n3,sloe,4\n")


def cells_of_one_row(repository):
    merged(repository, BASE, BASE.replace("fig,3", "figs,3"), BASE.replace("fig,3", "fig,5"), BASE.replace("fig,3", "figs,5"))


def a_column_added(repository):
    merged(repository, BASE, BASE.replace("fig,3", "fig,5"), "id,name,size,price\n1,pear,S,2\n2,fig,M,3\n3,sloe,L,4\n",
           "id,name,size,price\n1,pear,S,2\n2,fig,M,5\n3,sloe,L,4\n")


def a_column_dropped(repository):
    merged(repository, BASE, "id,price\n1,2\n2,3\n3,4\n", BASE.replace("fig,3", "fig,5"), "id,price\n1,2\n2,5\n3,4\n")


def cells_in_conflict(repository):
    conflict(repository, BASE, BASE.replace("fig,3", "fig,5").replace("pear", "plum"), BASE.replace("fig,3", "fig,6").replace("sloe,4", "sloe,9"),
             "id,name,price\n1,plum,2\n<<<<<<< ours\n2,fig,5\n||||||| base\n2,fig,3\n=======\n2,fig,6\n>>>>>>> theirs\n3,sloe,9\n")


def a_row_removed_and_changed(repository):
    conflict(repository, BASE, BASE.replace("2,fig,3\n", ""), BASE.replace("fig,3", "fig,6"),
             "id,name,price\n1,pear,2\n<<<<<<< ours\n||||||| base\n2,fig,3\n=======\n2,fig,6\n>>>>>>> theirs\n3,sloe,4\n")


def a_rebase(repository):
    repository.commit(BASE)
    repository.git("checkout", "--quiet", "-b", "theirs")
    repository.commit(BASE.replace("pear", "plum"))
    repository.git("checkout", "--quiet", "main")
    text = BASE
    for number in range(5):
        text = text.replace(f"pear,{2 + number}\n", f"pear,{3 + number}\n") + f"{9 + number},kaki,{number}\n"
        repository.commit(text)
    repository.git("rebase", "--quiet", "theirs")
    same(repository.read(), text.replace("pear", "plum"))
    same(repository.git("rev-list", "--count", "theirs..main").strip(), "5")


def add_and_add(repository):
    merged(repository, None, "id,name\n1,pear\n2,fig\n", "id,name\n2,fig\n3,sloe\n", "id,name\n1,pear\n2,fig\n3,sloe\n")


def no_table(repository):
    ours = BASE + '4,"open\n'
    repository.sides(BASE, ours, BASE.replace("fig,3", "fig,5"))
    ran = repository.run(["git", "merge", "theirs"])
    holds(ran.stdout + ran.stderr, "keyed: t.csv (ours): line 5: a quote is opened")
    same(ran.returncode != 0, True)
    same(repository.read(), ours)


def no_table_of_theirs(repository):
    repository.sides(BASE, BASE.replace("fig,3", "fig,5"), BASE.replace("2,fig", '2,"fig'))
    ran = repository.run(["git", "merge", "theirs"])
    holds(ran.stdout + ran.stderr, "keyed: t.csv (theirs): line 3: a quote is opened")
    same(repository.read(), BASE.replace("fig,3", "fig,5"))


def merged_as_an_option(repository):
    merged(repository, BASE, BASE.replace("fig,3", "fig,5"), BASE.replace("pear", "plum"),
           BASE.replace("fig,3", "fig,5").replace("pear", "plum"), "--key.csv")


def merged_by_other_bytes(repository):
    merged(repository, BASE, BASE.replace("fig,3", "fig,5"), BASE.replace("pear", "plum"),
           BASE.replace("fig,3", "fig,5").replace("pear", "plum"), os.fsdecode(b"b\xff.csv"))


def criss_cross(repository):
    """Two branches that have merged each other, with a conflict that both settled: git merges the two bases first."""
    repository.sides(BASE, BASE.replace("pear,2", "pear,5"), BASE.replace("pear,2", "pear,6"))
    repository.git("branch", "of-ours", "main")
    repository.git("branch", "of-theirs", "theirs")
    settled = BASE.replace("pear,2", "pear,7")
    for branch, other in (("main", "of-theirs"), ("theirs", "of-ours")):
        repository.git("checkout", "--quiet", branch)
        repository.git("merge", other, status=1)
        holds(repository.read(), "<<<<<<< ours\n")
        repository.commit(settled)
    repository.commit(settled.replace("fig", "figs"))
    repository.git("checkout", "--quiet", "main")
    repository.commit(settled.replace("sloe", "sloes"))
    same(len(repository.git("merge-base", "--all", "main", "theirs").split()), 2)
    repository.git("merge", "--quiet", "--no-edit", "theirs")
    same(repository.read(), settled.replace("fig", "figs").replace("sloe", "sloes"))


def criss_cross_in_conflict(repository):
    """The same where the branches settled it each in its own way: what is in conflict stands between marks."""
    repository.sides(BASE, BASE.replace("pear,2", "pear,5"), BASE.replace("pear,2", "pear,6"))
    repository.git("branch", "of-ours", "main")
    repository.git("branch", "of-theirs", "theirs")
    for branch, other, price in (("main", "of-theirs", 7), ("theirs", "of-ours", 8)):
        repository.git("checkout", "--quiet", branch)
        repository.git("merge", other, status=1)
        repository.commit(BASE.replace("pear,2", f"pear,{price}"))
    repository.git("checkout", "--quiet", "main")
    repository.git("merge", "theirs", status=1)
    same(repository.read(),
         "id,name,price\n<<<<<<< ours\n1,pear,7\n||||||| base\n1,pear,2\n=======\n1,pear,8\n>>>>>>> theirs\n2,fig,3\n3,sloe,4\n")


def a_column_of_each(repository):
    merged(repository, BASE, "id,name\n1,pear\n2,fig\n3,sloe\n", BASE.replace("price", "size,price").replace(",2\n", ",S,2\n").replace(",3\n", ",M,3\n").replace(",4\n", ",L,4\n"),
           "id,name,size\n1,pear,S\n2,fig,M\n3,sloe,L\n")


def many_rows(repository):
    def table(changed, text):
        return "id,name,price\n" + "".join(f"{n:06},name {n},{text if n % 1000 == changed else n}\n" for n in range(ROWS))

    theirs = re.sub(r"^(\d+003),.*\n", r"\g<0>\1 more,new,0\n", table(2, "theirs"), flags=re.M)
    repository.sides(table(-1, ""), table(1, "ours"), theirs)
    begun = time.monotonic()
    repository.git("merge", "--quiet", "--no-edit", "theirs")
    taken = time.monotonic() - begun
    wanted = re.sub(r"^(\d+001,.*,)\d+$", r"\1ours", theirs, flags=re.M)
    same(repository.read() == wanted, True)
    print(f"{ROWS} rows were merged in {taken:.1f} s")
    if taken > LIMIT and not os.environ.get("TRY_GIT_SLOW"):
        raise Failed(f"it took {taken:.1f} s")


def one_line_changed(repository):
    text = "id,name\n2,fig\n1,\"pear, old\"\n3,sloe\n"
    repository.sides(text, text.replace("fig", "figs"), text.replace("sloe", "sloes"))
    repository.git("merge", "--quiet", "--no-edit", "theirs")
    holds(repository.git("diff", "--no-ext-diff", "--numstat", "HEAD~1", "HEAD"), "1\t1\tt.csv")


def cr_lf(repository):
    base = BASE.replace("\n", "\r\n")
    merged(repository, base, base.replace("pear,2", "pear,7"), base.replace("3,sloe", "9,kaki,1\r\n3,sloe"),
           "id,name,price\r\n1,pear,7\r\n2,fig,3\r\n9,kaki,1\r\n3,sloe,4\r\n")


def cr_lf_in_conflict(repository):
    base = BASE.replace("\n", "\r\n")
    conflict(repository, base, base.replace("fig,3", "fig,5"), base.replace("fig,3", "fig,6"),
             "id,name,price\r\n1,pear,2\r\n<<<<<<< ours\r\n2,fig,5\r\n||||||| base\r\n2,fig,3\r\n=======\r\n2,fig,6\r\n>>>>>>> theirs\r\n3,sloe,4\r\n")


def as_ours_is_written(repository):
    base = '\ufeff"id","name"\r\n"2","fig"\r\n"1","pear, old"\r\n"3","sloe"'
    repository.sides(base, base.replace("fig", "figs"), base.replace("sloe", "sloes"))
    repository.git("merge", "--quiet", "--no-edit", "theirs")
    same(repository.read(), base.replace("fig", "figs").replace("sloe", "sloes"))
    holds(repository.git("diff", "--no-ext-diff", "--numstat", "HEAD~1", "HEAD"), "1\t1\tt.csv")


def a_key_of_two(repository):
    base = "day,id,count\nmon,1,2\ntue,1,3\n"
    merged(repository, base, base.replace("mon,1,2", "mon,1,4"), base.replace("tue,1,3", "tue,1,5"), "day,id,count\nmon,1,4\ntue,1,5\n")


def a_name_twice(repository):
    """A header that has a name twice stays as it is."""
    base = "id,a,a\n1,p,q\n2,r,s\n"
    merged(repository, base, base.replace("p,q", "P,q"), base.replace("r,s", "r,S"), "id,a,a\n1,P,q\n2,r,S\n")


# What git is asked, the options that git-setup is given, and the case.
CASES = [
    ("merge: rows of both sides", (), rows_of_both),
    ("merge: a row that theirs adds, in its place", (), a_row_in_its_place),
    ("merge: cells of one row", (), cells_of_one_row),
    ("merge: a column that theirs adds", (), a_column_added),
    ("merge: a column that ours drops", (), a_column_dropped),
    ("merge: a column that theirs adds and one that ours drops", (), a_column_of_each),
    ("merge: a key of two columns", ("--key", "day,id"), a_key_of_two),
    ("merge: a header that has a name twice", (), a_name_twice),
    ("merge: one line a row", (), one_line_changed),
    ("merge: CR LF", (), cr_lf),
    ("conflict: CR LF", (), cr_lf_in_conflict),
    ("merge: a byte order mark, CR LF, quotes, no last line end", (), as_ours_is_written),
    ("conflict: cells, settled by hand", (), cells_in_conflict),
    ("conflict: a row removed and changed", (), a_row_removed_and_changed),
    ("rebase: five commits", (), a_rebase),
    ("merge: add and add", (), add_and_add),
    ("merge: a file of ours that is no table", (), no_table),
    ("merge: a file of theirs that is no table", (), no_table_of_theirs),
    ("merge: a name that begins as an option does", (), merged_as_an_option),
    ("merge: a name that is not UTF-8", (), merged_by_other_bytes),
    ("merge: branches that merged each other", (), criss_cross),
    ("conflict: branches that merged each other", (), criss_cross_in_conflict),
    (f"merge: {ROWS} rows in {LIMIT:.0f} s", (), many_rows),
]
