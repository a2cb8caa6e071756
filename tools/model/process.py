"""A run of `keyed` as a process of its own, and what comes of it beside what is wanted."""
import os
import shutil
import subprocess
import sys
import tempfile
from pathlib import Path

OLD, NEW = b"id,name\n1,a\n2,b\n", b"id,name\n1,a\n2,c\n"
CHANGES = b"change,id,name\n-,2,b\n+,2,c\n"
ADDED = b"change,id,name\n+,1,a\n+,2,c\n"
ENDINGS = (".csv", ".tsv", ".tab")
CSV = ["--format", "csv"]
NOBODY = 65534
# The program, which a script sets.
PROGRAM = [None]


def run(folder, words, closed=(), given=b"", before=()):
    """The status of a run, what it wrote and what it said, with some of the numbers 0 to 2 closed, by a command that runs it."""

    def close():
        for number in closed:
            os.close(number)

    # A stream that is closed is not given: nothing is read from it, and nothing comes back.
    streams = {"stdin": subprocess.PIPE, "stdout": subprocess.PIPE, "stderr": subprocess.PIPE}
    ran = subprocess.Popen([*before, *PROGRAM, *words], cwd=folder, preexec_fn=close, **streams)
    try:
        written, said = ran.communicate(given, timeout=60)
    except BrokenPipeError:
        written, said = ran.stdout.read(), ran.stderr.read()
        ran.wait()
    return ran.returncode, written, said


def expect(folder, words, wanted, **how):
    same(f"{words} with {how}", run(folder, words, **how), wanted)


def same(what, found, wanted):
    if found != wanted:
        sys.exit(f"{what}:\n    found {found}\n    want  {wanted}")


def begin(tool, needed):
    """A folder with both tables, and a copy of the program beside it, which may be run by everyone."""
    for program, package in needed.items():
        if not shutil.which(program):
            sys.exit(f"{tool}: there is no {program}: install the package {package}")
    room = tempfile.TemporaryDirectory()
    # Where this runs as root, some runs are nobody's, who may come here too.
    os.chmod(room.name, 0o755)
    PROGRAM[0] = shutil.copy(sys.argv[1], Path(room.name) / "keyed")
    place = Path(room.name) / "files"
    place.mkdir()
    (place / "old").write_bytes(OLD)
    (place / "new").write_bytes(NEW)
    return room, place
