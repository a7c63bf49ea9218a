"""log_power.py: the power goes while a log is written: nothing that was acknowledged is lost, and the log opens and is sound.

What the tool writes and syncs is recorded (recorded.py). At each moment a file is put together as a disk could have it: what was
written before the last sync is there, and of what was written after it each sector of 512 bytes is old or new, in any choice,
and one of these may be neither. A log is then read from it in plain Python, some by the tool too; now and then the next command
is run on one of them. It begins with files whose later slot is torn in one sector alone. What the test can see is tried on
versions of the tool that are broken.
"""
import itertools
import random

import logs
from feed import sample
from log_kills import shown
from recorded import build, recorded

SECTOR, ROOM, RUNS, CHOICES, FEW = 512, 24, 150, 24, 5
TORN = logs.SLOT // SECTOR
BREAKS = {
    "the new blocks are not synced": [("log_length(had)) != 0 ||\n        fdatasync(log->fd) != 0)", "log_length(had)) != 0)")],
    "nothing is synced before the head where no block is new": [
        ("log_length(had)) != 0 ||\n        fdatasync(log->fd) != 0)",
         "log_length(had)) != 0 || (next.used > had && fdatasync(log->fd) != 0))")],
    "the head is not synced": [("write_other(log, bytes) != 0 || fdatasync(log->fd) != 0)", "write_other(log, bytes) != 0)")],
    "the head is written before the blocks": [
        ("write_at(log->fd, block_at(log, had), (next.used - had) * BLOCK, log_length(had)) != 0 ||",
         "write_other(log, bytes) != 0 ||"),
        ("write_other(log, bytes) != 0 || fdatasync(log->fd) != 0)\n        return take_back",
         "write_at(log->fd, block_at(log, had), (next.used - had) * BLOCK, log_length(had)) != 0 || "
         "fdatasync(log->fd) != 0)\n        return take_back")],
    "the slot that holds is written first": [
        ("write_other(log, bytes) != 0 || fdatasync(log->fd) != 0)",
         "write_at(log->fd, bytes, SLOT_LEN, log->turn * SLOT_LEN) != 0 || fdatasync(log->fd) != 0)")],
    "the other slot is written before the first is synced": [
        ("write_other(log, bytes) != 0 || fdatasync(log->fd) != 0)",
         "write_at(log->fd, bytes, SLOT_LEN, 0) != 0 || write_at(log->fd, bytes, SLOT_LEN, SLOT_LEN) != 0 || "
         "fdatasync(log->fd) != 0)")],
    "the copy is not put in its place before a commit": [("(log->unplaced && write_at(", "(log->unplaced && false && write_at(")],
    "a damaged slot is not wiped": [("return log->damaged ? wipe_slot(log) : 0;", "return 0;")],
    "a damaged slot is not wiped, but written over with the other one": [
        ("return log->damaged ? wipe_slot(log) : 0;",
         "uint8_t other[SLOT_LEN]; slot_write(&log->held, other); "
         "return log->damaged ? write_at(log->fd, other, SLOT_LEN, !log->turn * SLOT_LEN) : 0;")],
    "the last block is written in its place first": [
        ("    slot_write(&next, bytes);\n",
         "    slot_write(&next, bytes);\n    write_at(log->fd, next.copy, BLOCK, log_length(next.place)); fdatasync(log->fd);\n"),
        ("    next.place = had > 0 ? had - 1 : 0;\n", "    next.place = had > 1 ? had - 2 : 0;\n")],
}


class Disk:
    """What is surely on the disk, and the sectors written since the last sync, each with all that it may hold."""

    def __init__(self, run):
        self.sure, self.open = bytearray(run), {}

    def call(self, call):
        if call == "S":
            for place, held in self.open.items():
                self.sure[place:place + SECTOR] = held[-1]
            self.open = {}
            return
        place, run = call
        for at in range(0, len(run), SECTOR):
            old = self.open.setdefault(place + at, [bytes(self.sure[place + at:place + at + SECTOR])])
            old.append(run[at:at + SECTOR])

    def files(self, chance):
        """Files as they may be found: all choices where there are few, else some at random; and some with a torn sector."""
        places = list(self.open)
        every = itertools.product(*(range(len(self.open[place])) for place in places))
        few = 2 ** len(places) <= CHOICES
        for choice in every if few else ([chance.randrange(len(self.open[p])) for p in places] for _ in range(CHOICES)):
            found = bytearray(self.sure)
            for place, number in zip(places, choice):
                found[place:place + SECTOR] = self.open[place][number]
            yield bytes(found)
            if places:
                torn = chance.choice(places)
                found[torn:torn + SECTOR] = chance.randbytes(SECTOR)
                yield bytes(found)


def left_in(run):
    """The samples that are found, or why there are none to be found."""
    try:
        return [row for _, rows in logs.read(run) for row in rows]
    except logs.Broken as error:
        return str(error)


def is_right(left, acknowledged, new):
    """What was acknowledged is there, in order, and after it nothing but what is new, up to some row."""
    return isinstance(left, list) and left[:len(acknowledged)] == acknowledged and left == (acknowledged + new)[:len(left)]


class Trial:
    """A log that is written by one version of the tool, and loses its power again and again."""

    def __init__(self, folder, program, seed):
        self.folder, self.program, self.chance = folder, program, random.Random(seed)
        folder.mkdir(exist_ok=True)
        self.path, self.number, self.found, self.looks, self.wrong = folder / "power.log", 0, 0, 0, []
        self.disk = self.left = None
        self.begin()

    def begin(self, run=logs.file_of(ROOM, [])):
        """The machine starts, with this file."""
        self.path.write_bytes(run)
        self.disk, self.left = Disk(run), left_in(run)

    def torn(self, sector):
        """The machine starts with a file whose later slot was being written: it is whole but for a sector, which is neither."""
        rows, lost = self.rows(20), self.rows(3)
        blocks, later = logs.blocks_of(rows), logs.blocks_of(rows + lost)
        slot = bytearray(logs.slot(6, ROOM, 2, 1, later[1]))
        slot[sector * SECTOR:(sector + 1) * SECTOR] = self.chance.randbytes(SECTOR)
        self.begin(logs.slot(5, ROOM, 2, 1, blocks[1]) + bytes(slot) + b"".join(blocks).ljust(ROOM * logs.BLOCK, b"\0"))

    def rows(self, count):
        """Rows that are like no other."""
        self.number += count
        return [sample(at0=number // 256, at1=number) for number in range(self.number - count, self.number)]

    def command(self):
        """Runs a command at random, a power-up or an add that commits once or more: its calls, the rows taken, its status."""
        counts = self.chance.choice(((), (1,), (1,), (2,), (15,), (16,), (17,), (40,), (3, 1, 20), (1, 1, 1)))
        new, names = [], [f"{at}.rows" for at in range(len(counts))]
        for name, count in zip(names, counts):
            new += self.rows(count)
            (self.folder / name).write_bytes(b"".join(new[-count:]))
        words = ("log", "add", self.path, *names) if names else ("log", "power-up", self.path)
        (status, said, _), calls = recorded(self.folder, self.program, *words)
        if status == 2:
            self.wrong.append(f"{words[1]} ends with status 2")
        return calls, new[:int(said.split()[0]) if names and said else 0], status

    def check(self, done, new):
        """Everything that may be found now: what is done is there, and of what is new some. Gives the files."""
        files = list(self.disk.files(self.chance))
        for found in files:
            if not is_right(left_in(found), self.left + done, new):
                self.wrong.append(f"found {str(left_in(found))[:60]}")
        self.found += len(files)
        return files

    def crash(self):
        """A command, which the power may outlast: at each moment what may be found is looked at."""
        calls, new, status = self.command()
        files = []
        for call in calls:
            self.disk.call(call)
            files += self.check([], new)
        files = self.check(new, []) + files
        if status == 1 or self.wrong:
            self.begin()
        elif self.chance.randrange(2):
            self.begin(self.chance.choice(files))
        else:
            self.left = self.left + new

    def look(self):
        """The tool finds the same."""
        if shown(self.folder, self.path) != self.left:
            self.wrong.append("the tool finds another log")
        self.looks += 1

    def run(self, runs):
        """Whether it is broken."""
        for number in range(-TORN, runs):
            if number < 0:
                self.torn(number % TORN)
            self.crash()
            if self.wrong:
                return True
            if number % FEW == 0:
                self.look()
        return False


def run(folder, checks):
    with checks.group(f"the power goes in each of {RUNS} commands, at each moment: nothing acknowledged is lost") as group:
        trial = Trial(folder / "right", build(folder / "tool"), 688)
        trial.run(RUNS)
        group.same("what is wrong", [], trial.wrong)
        group.same("files are found, and some looked at by the tool", (True, True), (trial.found > 1000, trial.looks > 10))
        print(f"-- {trial.found} files as they may be found, {trial.looks} looked at by the tool too")
    for number, (name, edits) in enumerate(BREAKS.items()):
        with checks.group(f"a broken tool is seen: {name}") as group:
            trial = Trial(folder / f"broken{number}", build(folder / f"tool{number}", edits), number)
            group.same("it is seen", True, trial.run(RUNS))
