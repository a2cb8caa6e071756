"""Repositories of git in a folder, whose home and configuration are there too, and what is to come of merges in them."""
import os
import subprocess

# A table that cases begin with.
BASE = "id,name,price\n1,pear,2\n2,fig,3\n3,sloe,4\n"


class Repository:
    """A repository in a folder of its own, on the branch `main`."""

    def __init__(self, room, name, options=()):
        self.folder = room / name
        self.folder.mkdir()
        (room / "home").mkdir(exist_ok=True)
        self.environment = {
            "HOME": str(room / "home"),
            "PATH": f"{room / 'bin'}:{os.environ['PATH']}",
            "GIT_CONFIG_NOSYSTEM": "1",
            "GIT_PAGER": "cat",
            "LC_ALL": "C.UTF-8",
            **{f"GIT_{who}_{what}": value for who in ("AUTHOR", "COMMITTER") for what, value in (("NAME", "a"), ("EMAIL", "a@b"))},
        }
        self.git("init", "--quiet", "--initial-branch=main")
        self.options = options
        self.set_up(*options)

    def set_up(self, *options):
        """Tells git of the program, as a user does."""
        setup = self.run(["keyed", "git-setup", *options])
        assert setup.returncode == 0, setup.stderr
        done = self.run(["sh", "-e"], given=setup.stdout)
        assert (done.returncode, done.stdout, done.stderr) == (0, "", ""), done

    def run(self, words, given=""):
        return subprocess.run(words, cwd=self.folder, env=self.environment, input=given, text=True, errors="backslashreplace", capture_output=True)

    def git(self, *words, status=0):
        """What git prints, which has to end with this status."""
        ran = self.run(["git", *words])
        if ran.returncode != status:
            raise Failed(f"git {' '.join(words)}: status {ran.returncode}, {ran.stdout}{ran.stderr}")
        return ran.stdout

    def write(self, text, path="t.csv"):
        (self.folder / path).write_bytes(text.encode())

    def read(self, path="t.csv"):
        return (self.folder / path).read_bytes().decode()

    def commit(self, text, path="t.csv"):
        self.write(text, path)
        self.git("add", "--all")
        self.git("commit", "--quiet", "--message", "a table")

    def sides(self, base, ours, theirs, path="t.csv"):
        """A base, and a branch `theirs` beside `main`, which has ours. A version that is None has no table."""
        self.commit(base if base is not None else "", path if base is not None else "other")
        self.git("checkout", "--quiet", "-b", "theirs")
        self.commit(theirs, path)
        self.git("checkout", "--quiet", "main")
        self.commit(ours, path)


class Failed(Exception):
    pass


def same(found, wanted):
    if found != wanted:
        raise Failed(f"found {found!r}, not {wanted!r}")


def holds(text, *parts):
    for part in parts:
        if part not in text:
            raise Failed(f"{text!r} has no {part!r}")


def merged(repository, base, ours, theirs, wanted, path="t.csv"):
    """A merge with no conflict, which leaves nothing beside the table."""
    repository.sides(base, ours, theirs, path)
    repository.git("merge", "--quiet", "--no-edit", "theirs")
    same(repository.read(path), wanted)
    same(repository.git("status", "--porcelain"), "")


def conflict(repository, base, ours, theirs, wanted):
    """A merge with conflicts, and then one by hand, which is committed."""
    repository.sides(base, ours, theirs)
    repository.git("merge", "theirs", status=1)
    same(repository.read(), wanted)
    same(repository.git("status", "--porcelain").split()[1::2], ["t.csv"])
    repository.commit(theirs)
    same(repository.git("show", "HEAD:t.csv"), theirs.replace("\r\n", "\n"))
    same(repository.git("status", "--porcelain"), "")
