"""Tables of millions of rows, which each command is asked about once: one that gives up past some size is seen there. What is wanted is put
together from pieces of a thousand rows, without a model."""
import shutil
import subprocess
import sys
import time
from pathlib import Path

from model.cells import lined_up

BLOCK = 1000


def of_blocks(head, piece, blocks, falls=False):
    """A text with a piece for each block, in which a @ stands for its number; the last block first where the text falls."""
    numbers = range(blocks)
    return (head + "".join(piece.replace("@", f"{it:05}") for it in (reversed(numbers) if falls else numbers))).encode()


def piece(line, left_out=()):
    """The rows of a block, by number."""
    return "".join(line(n) for n in range(BLOCK) if n not in left_out)


def amount(text):
    """How many rows a text has, and a number that is that of no others in whatever order: the sum of what Python makes of each."""
    rows = text.splitlines()
    return len(rows), sum(map(hash, rows))


class Long:
    """Commands on long tables in a folder."""

    def __init__(self, program, folder):
        self.program, self.folder = program, folder

    def expect(self, words, status, printed, said=b""):
        begun = time.monotonic()
        ran = subprocess.run([self.program, *words], cwd=self.folder, capture_output=True)
        if (ran.returncode, ran.stderr) != (status, said) or ran.stdout != printed:
            place = next((it for it, pair in enumerate(zip(ran.stdout, printed)) if pair[0] != pair[1]), min(len(ran.stdout), len(printed)))
            found = f"printed .. {ran.stdout[place:][:100]!r}, want .. {printed[place:][:100]!r}, from place {place} on"
            sys.exit(f"{' '.join(words)} on long tables: status {ran.returncode}, not {status}, {ran.stderr[:300]}, {found}")
        print(f"    {' '.join(words)}: {time.monotonic() - begun:.1f} s", flush=True)

    def check(self, count):
        blocks, head = -(-count // BLOCK), "id,v\n"
        rows, gone, come = blocks * BLOCK, blocks, blocks
        # Ours changes one row of a block, drops one and adds one; theirs changes another one.
        base = lambda n: f"@{n:03},{n % 7}\n"
        ours = lambda n: f"@{n:03},{'x' if n == 1 else n % 7}\n" + f"@{n:03}+,new\n" * (n == 998)
        theirs = lambda n: f"@{n:03},{'y' if n == 3 else n % 7}\n"
        merged = lambda n: ours(n).replace("@003,3", "@003,y")
        text = lambda line, left_out=(), falls=False: of_blocks(head, piece(line, left_out), blocks, falls)
        (self.folder / "base").write_bytes(text(base))
        (self.folder / "ours").write_bytes(text(ours, {2}, True))
        (self.folder / "risen").write_bytes(text(ours, {2}))
        (self.folder / "theirs").write_bytes(text(theirs))
        changed = of_blocks("change,id,v\n", "-,@001,1\n+,@001,x\n-,@002,2\n+,@998+,new\n", blocks)
        (self.folder / "changes").write_bytes(changed)
        counts = f"{come} added, {gone} removed, {blocks} changed, {rows - 2 * blocks} the same\n".encode()
        both = lambda n: f"@{n:03},{n % 7},{ours(n).split(',')[1].split()[0]}\n" * (n != 2)
        outer = lambda n: (f"both,{both(n)}" if n != 2 else "left,@002,2,\n") + "right,@998+,,new\n" * (n == 998)
        sides = lambda head, line: of_blocks(head, piece(line), blocks)
        self.expect(["diff", "base", "ours", "--format", "csv"], 1, changed)
        columns = lined_up([["column", "rows", "times", "change"], ["v", str(blocks), str(blocks), "1 -> x"]])
        self.expect(["diff", "base", "ours", "--summary"], 1, columns.encode() + counts)
        self.expect(["diff", "base", "risen", "--sorted", "--format", "csv"], 1, changed, counts)
        self.expect(["apply", "base", "changes"], 0, text(ours, {2}))
        self.expect(["merge", "base", "ours", "theirs"], 0, text(merged, {2}))
        self.expect(["merge", "base", "ours", "theirs", "--by-cell", "--conflicts", "marks"], 0, text(merged, {2}))
        self.expect(["join", "base", "ours", "--side", "in"], 0, sides("in,id,left.v,right.v\n", outer))
        said = f"rows: {rows} in LEFT, {rows} in RIGHT\n".encode()
        self.expect(["join", "base", "risen", "--kind", "inner", "--sorted"], 0, sides("id,left.v,right.v\n", both), said)
        looked_up = lambda n: both(n) if n != 2 else "@002,2,\n"
        self.expect(["lookup", "base", "ours"], 0, sides("id,left.v,right.v\n", looked_up))
        self.expect(["overlay", "theirs", "risen", "--keep-order"], 0, self.overlaid(text, ours, head, blocks))
        self.expect(["merge", "base", "ours", "theirs", "--keep-order"], 0, text(merged, {2}, True))
        self.check_json(ours, blocks)
        self.check_cut(base, ours, head, blocks)

    def check_json(self, ours, blocks):
        """The same joins as JSON, a line each, and the changes."""
        right = lambda n: f',"right":{{"v":"{ours(n).split(",")[1].split()[0]}"}}' if n != 2 else ""
        line = lambda n: f'{{"key":{{"id":"@{n:03}"}},"left":{{"v":"{n % 7}"}}{right(n)}}}\n'
        self.expect(["join", "base", "ours", "--kind", "inner", "--format", "json"], 0, of_blocks("", piece(line, {2}), blocks))
        self.expect(["lookup", "base", "ours", "--format", "json"], 0, of_blocks("", piece(line), blocks))
        changes = '{"change":"changed","key":{"id":"@001"},"changed":["v"],"old":{"v":"1"},"new":{"v":"x"}}\n'
        changes += '{"change":"removed","key":{"id":"@002"},"old":{"v":"2"}}\n{"change":"added","key":{"id":"@998+"},"new":{"v":"new"}}\n'
        self.expect(["diff", "base", "ours", "--format", "json"], 1, of_blocks("", changes, blocks))

    @staticmethod
    def overlaid(text, ours, head, blocks):
        """Theirs below ours, in its order, and after it the rows that only ours has."""
        below = piece(lambda n: (ours(n).split("\n")[0] + "\n") if n != 2 else "@002,2\n")
        return of_blocks(head, below, blocks) + of_blocks("", "@998+,new\n", blocks)

    def check_cut(self, base, ours, head, blocks):
        """Parts of both tables, which are the tables, one after the other."""
        # A row is reckoned with 240 bytes, its key and an end of nine, and twice its other cell and an end.
        memory = 2 * blocks * BLOCK * (240 + 9 + 2 * 2) // 3
        sides = {side: amount(of_blocks("", piece(line, left_out), blocks)) for side, line, left_out in (("left", base, ()), ("right", ours, {2}))}
        for into, where, count in (("parts", ["--parts", "5"], 5), ("by memory", ["--memory", str(memory)], 4)):
            self.expect(["cut", "base", "ours", "--into", into, *where], 0, b"")
            for side, (rows, told) in sides.items():
                parts = [it.read_bytes() for it in sorted((self.folder / into).glob(f"{side}.*.csv"))]
                found = amount(b"".join(it.removeprefix(head.encode()) for it in parts))
                if len(parts) != count or found != (rows, told):
                    sys.exit(f"cut of long tables: {len(parts)} parts of {side} with {found[0]} rows in all")
            shutil.rmtree(self.folder / into)


def check_long(program, place, count):
    folder = place / "long"
    folder.mkdir()
    Long(shutil.which(program) if "/" not in program else str(Path(program).resolve()), folder).check(count)
    shutil.rmtree(folder)
