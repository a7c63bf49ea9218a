"""pauses.py: rows that come with pauses: after each the state is saved, and others can have it while the next is waited for."""
import select
import subprocess

from feed import sample
from station import CALM, EIGHT_LOSS, LOSS, PATIENCE, Kept, KeptEight, is_taken, start, waits

ROWS = [sample(status=(1 << number, 0, 0), at0=0x1E00 + number) for number in range(6)]


class Feeding:
    """A command that waits for rows on a pipe."""

    def __init__(self, kept, name, *before):
        self.kept = kept
        self.process = start(kept.folder, name, kept.path.name, *before, "-", stdin=subprocess.PIPE, bufsize=0)

    def give(self, run):
        self.process.stdin.write(run)

    def line(self):
        """The next line that it prints; "" if none comes, in patience."""
        ready = select.select([self.process.stdout], [], [], PATIENCE)[0]
        return self.process.stdout.readline().decode() if ready else ""

    def end(self):
        """Ends the input: the exit status, and what was printed and complained."""
        out, err = self.process.communicate(timeout=PATIENCE)
        return self.process.returncode, out.decode(), err.decode()

    def ends(self, group, status, taken, complaint=""):
        """Ends the input, and compares: the exit status, the first line, what was complained, and the state."""
        seen = self.end()
        group.same("at the end", (status, taken, complaint), (seen[0], seen[1].split("\n")[0], seen[2]))
        group.same("the 688 bytes", True, self.kept.agrees())


def saved_each_time(folder, checks):
    with checks.group("after each row of a pipe that pauses, the state is saved, and another command has it") as group:
        kept = Kept(folder / "each")
        feeding = Feeding(kept, "sample")
        for number, row in enumerate(ROWS):
            feeding.give(row)
            kept.paper.sample(row)
            counts = kept.paper.count(1), kept.paper.count(2)
            group.same(f"row {number} is in the state", True, waits(kept.agrees))
            seen = kept.run("read", ("operator", "recorder")[number % 2], 3, 1, "--raw")
            group.same(f"read after row {number}", (0, kept.paper.read(1 + number % 2, 3, 1)[1].decode("latin-1")), seen[:2])
            group.same(f"the 688 bytes after row {number}", True, kept.agrees())
        told = "6 rows taken\n" + "".join(f"{port}: {count} flags let through, interrupt\n"
                                          for port, count in zip(("operator", "recorder"), counts))
        group.same("at the end", (0, told, ""), feeding.end())


def halves(folder, checks):
    with checks.group("a row in two halves is one row; while the second is waited for, the state is not locked") as group:
        kept = Kept(folder / "halves")
        feeding = Feeding(kept, "sample")
        feeding.give(CALM + LOSS[:13])
        kept.paper.sample(CALM)
        group.same("the row before it is saved", True, waits(kept.agrees))
        group.same("the half is taken", True, is_taken(feeding.process))
        group.same("a write", 0, kept.run("write", "recorder", 100, 7)[0])
        kept.paper.write(2, 100, b"\x07")
        group.same("the 688 bytes with half a row", True, kept.agrees())
        feeding.give(LOSS[13:30])
        group.same("more of it is taken", True, is_taken(feeding.process))
        group.same("a read", 0, kept.run("read", "operator", 3, 12)[0])
        kept.paper.read(1, 3, 12)
        feeding.give(LOSS[30:])
        kept.paper.sample(LOSS)
        feeding.ends(group, 0, "2 rows taken")


def file_first(folder, checks):
    with checks.group("after the rows of a file the state is saved, and others have it while a pipe is waited for") as group:
        kept = Kept(folder / "first")
        feeding = Feeding(kept, "sample", "calm.rows")
        kept.paper.sample(CALM)
        group.same("the file's rows are in the state", True, waits(kept.agrees))
        group.same("a read", 0, kept.run("read", "operator", 3, 12)[0])
        kept.paper.read(1, 3, 12)
        feeding.give(LOSS)
        kept.paper.sample(LOSS)
        feeding.ends(group, 0, "2 rows taken")


def cut_off(folder, checks):
    with checks.group("half a row at the end is refused by its length, and what came before it is kept") as group:
        kept = Kept(folder / "cut")
        feeding = Feeding(kept, "sample")
        feeding.give(CALM)
        kept.paper.sample(CALM)
        group.same("the first", True, waits(kept.agrees))
        feeding.give(LOSS[:30])
        group.same("what is cut off is taken", True, is_taken(feeding.process))
        feeding.ends(group, 1, "1 row taken", "zikhrodan: standard input: row 2: refused 8, the sample isn't 31 bytes\n")


def told_at_once(folder, checks):
    with checks.group("watch tells of a row as soon as it is there, also into a pipe") as group:
        kept = Kept(folder / "told")
        feeding = Feeding(kept, "watch")
        for number, row in enumerate((ROWS[0], ROWS[2], ROWS[3]), 1):
            feeding.give(row)
            for port in ("operator", "recorder"):
                group.same(f"{port}, row {number}", True, feeding.line().startswith(f"standard input row {number}, {port}: "))
        group.same("at the end", 0, feeding.end()[0])


def comes_and_goes(folder, checks):
    with checks.group("eight channels, watch: the interrupt comes at an onset, is gone after a read; what lasts is told") as group:
        kept = KeptEight(folder / "goes")
        kept.paper.reset()
        kept.put()
        feeding = Feeding(kept, "watch")

        def row(given, *told):
            feeding.give(given)
            kept.paper.sample(given)
            group.same("what is told", list(told), [feeding.line() for _ in told])
            group.same("the row is in the state", True, waits(kept.agrees))

        loss, none = bytes([0x10] + [0] * 13), bytes(14)
        row(loss, *(f"standard input row 1, {port}: INTERRUPT, Rx5 LOS\n" for port in ("operator", "recorder")))
        group.same("a read", 0, kept.run("read", "operator", 3, 14)[0])
        kept.paper.read(1, 3, 14)
        row(loss, "standard input before row 2, operator: the interrupt is gone\n",
            "standard input row 2, operator: lasts, Rx5 LOS\n")
        row(loss)
        row(none)
        group.same("a read", 0, kept.run("read", "recorder", 3, 14)[0])
        kept.paper.read(2, 3, 14)
        row(loss, "standard input row 5, operator: INTERRUPT, Rx5 LOS\n",
            "standard input before row 5, recorder: the interrupt is gone\n",
            "standard input row 5, recorder: INTERRUPT, Rx5 LOS\n")
        told = "5 rows taken\n" + "".join(f"{port} (eight channels): 1 pending flag let through, interrupt\n"
                                          for port in ("operator", "recorder"))
        group.same("at the end", (0, told, ""), feeding.end())


def eight_halves(folder, checks):
    with checks.group("eight channels: a row in two halves is one row, and what is cut off at the end is refused") as group:
        kept = KeptEight(folder / "eight-halves")
        feeding = Feeding(kept, "sample")
        feeding.give(EIGHT_LOSS[:5])
        group.same("the half is taken", True, is_taken(feeding.process))
        feeding.give(EIGHT_LOSS[5:] + bytes(14) + EIGHT_LOSS[:13])
        kept.paper.sample(EIGHT_LOSS)
        kept.paper.sample(bytes(14))
        feeding.ends(group, 1, "2 rows taken", "zikhrodan: standard input: row 3: refused 8, the sample isn't 14 bytes\n")


def gone(folder, checks):
    with checks.group("watch tells before the next row that a port's interrupt is gone, where another command has read") as group:
        kept = Kept(folder / "gone")
        feeding = Feeding(kept, "watch")
        feeding.give(CALM)
        kept.paper.sample(CALM)
        group.same("the row is in the state", True, waits(kept.agrees))
        group.same("a read", 0, kept.run("read", "recorder", 3, 12)[0])
        feeding.give(CALM)
        group.same("what is told", "standard input before row 2, recorder: the interrupt is gone\n", feeding.line())
        group.same("at the end", 0, feeding.end()[0])


def run(folder, checks):
    saved_each_time(folder, checks)
    halves(folder, checks)
    file_first(folder, checks)
    cut_off(folder, checks)
    told_at_once(folder, checks)
    gone(folder, checks)
    comes_and_goes(folder, checks)
    eight_halves(folder, checks)
