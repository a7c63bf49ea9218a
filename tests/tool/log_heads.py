"""log_heads.py: a log's head is damaged: what was acknowledged is there all the same.

After each kind of commit every byte of the head is changed in turn, by a program that is linked with the tool's own objects
(heads.c), and some by commands. log_heads_old.py has logs of an earlier version.
"""
import json

import logs
from bench import IMAGE
from linked import link
from log_kills import DAMAGE, rows_from
from paper import Paper
from station import zikhrodan

ROOM = 30
# Bytes of a slot, in its magic, its numbers, the copy, the zeros and its sum, at which commands look; and at which some add.
LOOKED_AT, ADDED_AT = (0, 15, 16, 23, 31, 47, 48, 52, 559, 560, 2043, 2047), (23,)
ADD, POWER_UP = ("log", "add", "kept.log", "new.rows"), ("log", "power-up", "kept.log")
SAMPLE = ("sample", "--log", "kept.log", "module.state", "new.rows")
# Commits one after the other: each kind, and how many rows its files have; none for a power-up.
COMMITS = {"first rows": (5,), "rows into the last block": (3,), "rows that fill it and open others": (30,), "a power-up": (),
           "several commits": (1, 1, 1, 20), "rows that fill it": (9,), "rows into new blocks alone": (20,),
           "a power-up, after them": ()}


def changed(run, at):
    return run[:at] + bytes([run[at] ^ 1 << at % 8]) + run[at + 1:]


class Station:
    """A folder with a module, rows to add, and a log."""

    def __init__(self, folder):
        self.folder, self.path, self.number, paper = folder, folder / "kept.log", 0, Paper()
        folder.mkdir()
        paper.reset(IMAGE)
        (folder / "module.state").write_bytes(paper.state)
        (folder / "new.rows").write_bytes(b"".join(rows_from(900, 3)))

    def run(self, *words):
        return zikhrodan(self.folder, *words)

    def commit(self, counts):
        """A power-up, or an add of files with so many rows each."""
        names = [f"{at}.rows" for at in range(len(counts))]
        for name, count in zip(names, counts):
            (self.folder / name).write_bytes(b"".join(rows_from(self.number, count)))
            self.number += count
        return self.run("log", "add", self.path.name, *names) if counts else self.run(*POWER_UP)

    def now(self):
        """What the files are, and when they were written."""
        paths = [self.path, self.folder / "module.state"]
        return [(path.read_bytes(), path.stat().st_mtime_ns) for path in paths]

    def shown(self):
        """The status of a look, the samples that it shows, and what it says."""
        status, text, complaint = self.run("log", "show", "kept.log", "--json")
        return status, [bytes.fromhex(row["hex"]) for row in json.loads(text)["samples"]] if status == 0 else text, complaint


def states(place):
    """The log's file after each kind of commit, by its name."""
    found = {}
    place.run("log", "new", "kept.log", ROOM)
    found["log new"] = place.path.read_bytes()
    for name, counts in COMMITS.items():
        place.commit(counts)
        found[name] = place.path.read_bytes()
    place.path.write_bytes(found["log new"])
    place.run(*POWER_UP)
    found["a power-up, first"] = place.path.read_bytes()
    place.path.write_bytes(found["rows that fill it"])
    place.run(*SAMPLE)
    found["sample --log"] = place.path.read_bytes()
    place.path.write_bytes(old_form(rows_from(0, 20), rows_from(0, 40)))
    place.run(*ADD)
    found["rows into a log of an earlier version"] = place.path.read_bytes()
    return found


def old_form(before, after, place=None, body=None):
    """A log whose first slot is of a commit and whose second is of the next: the samples that each has. The first slot's copy is
    of the last block, or of that at a place; the blocks are those of the second, or others."""
    old, new = logs.blocks_of(before), logs.blocks_of(after)
    first = len(old) - 1 if place is None else place
    head = (logs.slot(5, ROOM, len(old), max(first, 0), old[first] if old else bytes(logs.BLOCK)) +
            logs.slot(6, ROOM, len(new), max(len(old) - 1, 0), new[max(len(old) - 1, 0)]))
    return head + b"".join(body or new).ljust(ROOM * logs.BLOCK, b"\0")


def samples_in(run):
    return [row for _, rows in logs.read(run) for row in rows]


def every_byte(place, found, checks):
    with checks.group(f"after each of {len(found)} commits the two slots say the same") as group:
        for name, run in found.items():
            group.same(name, run[:logs.SLOT], run[logs.SLOT:logs.HEAD])
    with checks.group(f"each byte of the head is changed, after each of {len(found)} commits: a look, and one after an add, find "
                      "all") as group:
        program = link(place.folder / "heads", "heads.c", ("fail", "fdatasync"), without=("main",))
        names = [f"{number}.log" for number in range(len(found))]
        for name, run in zip(names, found.values()):
            (place.folder / name).write_bytes(run)
        status, said, complaint = zikhrodan(place.folder, "scratch.log", *names, program=program)
        group.same("all are right", (0, [f"{name}: right" for name in names], ""), (status, said.splitlines(), complaint))
        (place.folder / "old.log").write_bytes(old_form(rows_from(0, 20), rows_from(0, 40)))
        status, said, _ = zikhrodan(place.folder, "scratch.log", "old.log", program=program)
        group.same("what a byte costs in a log of an earlier version is seen", (0, "old.log: byte 2048: a look\n"), (status, said))


def by_commands(place, found, checks):
    new = rows_from(900, 3)
    with checks.group(f"some bytes of the head are changed, after each of {len(found)} commits, and commands find all") as group:
        for name, run in found.items():
            had = samples_in(run)
            for slot, at in ((slot, at) for slot in (0, logs.SLOT) for at in LOOKED_AT):
                what, wrong = f"{name}, byte {slot + at}", changed(run, slot + at)
                place.path.write_bytes(wrong)
                group.same(f"{what}: a look", (0, had, DAMAGE), place.shown())
                group.same(f"{what}: it changes nothing", wrong, place.path.read_bytes())
                if at in ADDED_AT:
                    status, _, complaint = place.run(*ADD)
                    group.same(f"{what}: an add", (0, DAMAGE), (status, complaint))
                    group.same(f"{what}: after it", (0, had + new, ""), place.shown())


def run(folder, checks):
    place = Station(folder / "station")
    found = states(place)
    every_byte(place, found, checks)
    by_commands(place, found, checks)
