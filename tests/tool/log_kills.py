"""log_kills.py: the tool is killed while it writes a log: what was acknowledged is there, in order, and after it at most what was
not; nothing is torn. With `sample --log` the state is that after as many rows, or that before the last that were saved together.
"""
import fcntl
import json
import random
import signal
import subprocess

import logs
from bench import IMAGE
from feed import sample
from kills import after, end
from paper import Paper
from recorded import build, recorded
from station import start, waits, zikhrodan

STREAMS, ROOM, GIVEN = 25, 900, 40
DAMAGED = ("zikhrodan: kept.log: a slot of its head is damaged: unless a write was cut off, rows of the last commit may be "
           "missing")
DAMAGE = DAMAGED + "\n"
# Of the calls of an add that has a new block (its write, a sync, a slot's write, a sync, the other slot's, the last block's) those
# that leave a slot torn, and what is then said: where the first slot is, the new block is there, and nothing counts it.
TORN = {3: DAMAGED + "; 1 unused block may be the log's too\n", 5: DAMAGE}


def new_log(folder, name="kept.log"):
    folder.mkdir(exist_ok=True)
    path = folder / name
    path.write_bytes(logs.file_of(ROOM, []))
    return path


def rows_from(number, count):
    """Rows that are like no other; some have status flags."""
    return [sample(status=(at % 5 == 0, 0, 0), at0=at // 256, at1=at) for at in range(number, number + count)]


def is_locked(file):
    """Locks a file as one who reads, if nobody writes."""
    try:
        fcntl.flock(file, fcntl.LOCK_SH | fcntl.LOCK_NB)
    except BlockingIOError:
        return False
    return True


def look(path):
    """The samples that are there now, as one who looks has them."""
    with path.open("rb") as file:
        if not waits(lambda: is_locked(file)):
            raise logs.Broken("another has the log for good")
        return [row for _, rows in logs.read(file.read()) for row in rows]


def shown(folder, path, **how):
    """The samples that the tool shows, or its complaint."""
    status, text, complaint = zikhrodan(folder, "log", "show", path, "--json", **how)
    return [bytes.fromhex(row["hex"]) for row in json.loads(text)["samples"]] if status == 0 else complaint


def give(process, rows, acknowledged, looks):
    """Gives rows, up to a number each when the one before is in the log, and then the others at once; kills. Gives what the last
    look has seen, and whether each row came in."""
    most, came = [], True
    for number, row in enumerate(rows[:acknowledged], 1):
        process.stdin.write(row)
        came = came and waits(lambda number=number: rows[:number] == looks()[-number:])
        most = looks()
    process.stdin.write(b"".join(rows[acknowledged:]))
    end(process)
    return most, came


def pipes(folder, chance, group):
    """Rows come in on a pipe that pauses."""
    path, had, stopped = new_log(folder), [], set()
    for number in range(STREAMS):
        rows = rows_from(1000 * number, chance.randrange(1, GIVEN + 1))
        acknowledged = chance.randrange(len(rows))
        process = start(folder, "log", "add", path, "-", stdin=subprocess.PIPE, bufsize=0)
        most, came = give(process, rows, acknowledged, lambda: look(path))
        seen = look(path)
        group.same(f"pipe {number}: each row that is waited for comes in", True, came)
        group.same(f"pipe {number}: what was seen is there", most, seen[:len(most)])
        group.same(f"pipe {number}: no more than was given", (had + rows)[:len(seen)], seen)
        group.same(f"pipe {number}: what was there before", True, len(seen) >= len(had) + acknowledged)
        stopped.add(len(seen) - len(had))
        had = seen
    group.same("they are killed after different rows", True, len(stopped) > 3)


def begun(folder):
    """A state and an empty log."""
    path, paper = new_log(folder), Paper()
    paper.reset(IMAGE)
    (folder / "module.state").write_bytes(paper.state)
    return path, [bytes(paper.state)]


def state_after(states, rows):
    for row in rows[len(states) - 1:]:
        states.append(after(states[-1], lambda paper, row=row: paper.sample(row)))
    return states


def both(folder, chance, group):
    """The module and the log are fed from one pipe."""
    for number in range(STREAMS):
        path, states = begun(folder)
        rows = rows_from(0, chance.randrange(1, GIVEN + 1))
        process = start(folder, "sample", "--log", path, "module.state", "-", stdin=subprocess.PIPE, bufsize=0)
        most, came = give(process, rows, chance.randrange(len(rows)), lambda path=path: look(path))
        seen, state = look(path), (folder / "module.state").read_bytes()
        group.same(f"{number}: each row that is waited for comes in", True, came)
        group.same(f"{number}: what was seen is there", most, seen[:len(most)])
        group.same(f"{number}: no more than was given", rows[:len(seen)], seen)
        state_after(states, rows)
        group.same(f"{number}: the state is that after a row", True, state in states)
        at = states.index(state) if state in states else -1
        group.same(f"{number}: it is not ahead of the log", True, at <= len(seen))


def each_call(folder, group, program):
    """Killed in the midst of each write, and before each sync, of an add and of a sample that has a log too."""
    ends = 0
    for name, words in (("add", ("log", "add", "kept.log")), ("sample", ("sample", "--log", "kept.log", "module.state"))):
        for call in range(1, 11):
            path, states = begun(folder)
            old, new = rows_from(0, 8), rows_from(8, 20)
            path.write_bytes(logs.file_of(ROOM, logs.blocks_of(old)))
            (folder / "new.rows").write_bytes(b"".join(new))
            (status, said, _), _ = recorded(folder, program, *words, "new.rows", RECORDED_ENDS=str(call))
            seen, state = look(path), (folder / "module.state").read_bytes()
            group.same(f"{name}, call {call}", True, seen in (old, old + new))
            state_after(states, new)
            group.same(f"{name}, call {call}: the state", True, state in (states[0], states[-1]) and
                       (state == states[0] or seen == old + new))
            killed = "taken" not in said
            ends += killed
            group.same(f"{name}, call {call}: status, and what is said to be taken", (0, old + new) if not killed else
                       (status if status in (-signal.SIGKILL, 128 + signal.SIGKILL) else "killed", seen), (status, seen))
            again = zikhrodan(folder, "log", "add", "kept.log", "new.rows")
            group.same(f"{name}, call {call}: the next add, which says where the head was torn",
                       (0, TORN.get(call, ""), seen + new), (again[0], again[2], look(path)))
    return ends


def run(folder, checks):
    chance = random.Random(31)
    with checks.group(f"{STREAMS} adds killed while rows come in: what a look has seen is there, and no row is torn") as group:
        pipes(folder / "pipes", chance, group)
    with checks.group(f"{STREAMS} samples with a log killed while rows come in: the log is not behind the state") as group:
        both(folder / "both", chance, group)
    with checks.group("killed in the midst of each write and before each sync: the same, and the next add goes on") as group:
        ends = each_call(folder / "each", group, build(folder / "tool"))
        group.same("they are killed at six calls of an add, and at nine of a sample", 15, ends)
