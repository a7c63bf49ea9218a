"""log_hardships.py: a full disk, a write or a sync that fails, no rights: one line, status 2, and the log has what was
acknowledged."""
import os
import signal
import subprocess

import logs
from disk import another, limited
from log_kills import begun, look, rows_from, state_after
from recorded import build, recorded
from station import PATIENCE, PROGRAM, settled, zikhrodan

OLD, NEW = rows_from(0, 20), rows_from(20, 15)
ADD, POWER_UP = ("log", "add", "kept.log", "new.rows"), ("log", "power-up", "kept.log")
SAMPLE = ("sample", "--log", "kept.log", "module.state", "new.rows")
# Of an add to the log: the new blocks' write and sync, a slot's write and sync, and then the writes of the other slot and of the
# last block in its place.
SYNCED, MIRRORED, LAST_CALL = 4, 5, 6
FIRST_KEPT = 10  # of those of demo's log, after a write and two syncs for each of three files
FOUR_FILES = 'set -e; ulimit -n 4; exec "$@"'
SHOWS = ([("log", "show", "kept.log", *words) for words in ((), ("--from", "0"), ("--json",), ("--csv",))] +
         [("died", "kept.log", *words) for words in ((), ("rx1",), ("--json",))])


def kept(folder, rows=None):
    """A log that has some rows, others to add, and a module: the log's path, and the state."""
    path, states = begun(folder)
    rows = OLD if rows is None else rows
    path.write_bytes(logs.file_of(len(rows) // 16 + 5, logs.blocks_of(rows)))
    (folder / "new.rows").write_bytes(b"".join(NEW))
    return path, states[0]


def full(folder, checks):
    with checks.group("log new on a full disk: one line, status 2, and no file") as group:
        folder.mkdir()
        for size in (0, 1, 2047, 2048, 4096, 4607, 9215):
            seen = zikhrodan(folder, "log", "new", "new.log", 10, **limited(size))
            group.same(f"{size} bytes", (2, "", "zikhrodan: new.log: File too large\n"), seen)
            group.same(f"{size}: files", [], os.listdir(folder))
        group.same("9216 bytes", (0, "new.log has room for 10 blocks, of 16 samples each\n", ""),
                   zikhrodan(folder, "log", "new", "new.log", 10, **limited(9216)))
    with checks.group("a log of which not all can be written: one line, status 2, nothing is added, or said to be") as group:
        for words in (ADD, POWER_UP, SAMPLE):
            for size in (0, 1000, 2048, 3000, 4096, 5000):
                path, state = kept(folder)
                seen = zikhrodan(folder, *words, **limited(size))
                group.same(f"{words}, {size}", (2, "", "zikhrodan: kept.log: File too large\n"), seen)
                group.same(f"{words}, {size}: the log and the state", (OLD, state),
                           (look(path), (folder / "module.state").read_bytes()))
                group.same(f"{words}, {size}: the next add", (0, OLD + NEW), (zikhrodan(folder, *ADD)[0], look(path)))


def failing(folder, checks, program):
    with checks.group("log new writes a head, syncs the file and then its folder; where one fails, there is no file") as group:
        folder.mkdir()
        head = 2 * logs.slot(1, 3, 0, 0, bytes(logs.BLOCK))
        seen, calls = recorded(folder, program, "log", "new", "new.log", 3)
        group.same("the calls", (0, "", [(0, head), "S", "D"]), (*seen[::2], calls))
        group.same("the file", head.ljust(logs.HEAD + 3 * logs.BLOCK, b"\0"), (folder / "new.log").read_bytes())
        (folder / "new.log").unlink()
        for call in range(1, 4):
            seen, _ = recorded(folder, program, "log", "new", "new.log", 3, RECORDED_FAILS=str(call))
            group.same(f"call {call}", (2, "", "zikhrodan: new.log: Input/output error\n"), seen)
            group.same(f"call {call}: files", ["told"], os.listdir(folder))
    commits(folder, checks, program)
    with checks.group("what could not be written after a commit, a slot or a block in its place, the next one writes") as group:
        for call in (MIRRORED, LAST_CALL):
            path, _ = kept(folder)
            seen, _ = recorded(folder, program, *ADD, "new.rows", RECORDED_FAILS=str(call))
            group.same(f"call {call}: two files", (0, "", OLD + NEW + NEW), (*seen[::2], look(path)))
            run, blocks = path.read_bytes(), logs.blocks_of(OLD + NEW + NEW)
            group.same(f"call {call}: the blocks in their places", b"".join(blocks), run[logs.HEAD:logs.HEAD + 512 * len(blocks)])
            group.same(f"call {call}: the slots", run[:logs.SLOT], run[logs.SLOT:logs.HEAD])


def commits(folder, checks, program):
    failed, fed = "zikhrodan: kept.log: Input/output error", state_after([kept(folder)[1]], NEW)[-1]
    with checks.group("a write or a sync fails: one line, status 2, nothing is added; after the commit nothing is lost") as group:
        for words in (ADD, SAMPLE):
            for call in range(1, LAST_CALL + 1):
                path, state = kept(folder)
                (status, said, complaint), _ = recorded(folder, program, *words, RECORDED_FAILS=str(call))
                done = call > SYNCED
                group.same(f"{words}, call {call}", (0, "15 rows taken", "") if done else (2, "", failed + "\n"),
                           (status, said.split("\n")[0], complaint))
                left = OLD + NEW if done else OLD
                group.same(f"{words}, call {call}: the log and the state", (left, fed if done and words == SAMPLE else state),
                           (look(path), (folder / "module.state").read_bytes()))
                group.same(f"{words}, call {call}: the next add", (0, "", left + NEW),
                           (*zikhrodan(folder, *ADD)[::2], look(path)))
    with checks.group("the head's write fails, and what is to take it back: that the rows may be there is said") as group:
        for words in (ADD, SAMPLE):
            for call, then, left in ((3, 4, OLD), (3, 5, OLD), (4, 5, OLD + NEW), (4, 6, OLD)):
                path, state = kept(folder)
                seen, _ = recorded(folder, program, *words, RECORDED_FAILS=f"{call} {then}")
                group.same(f"{words}, calls {call} and {then}",
                           (2, "", failed + "; what was to be added may be in the log all the same\n"), seen)
                group.same(f"{words}, calls {call} and {then}: the log and the state", (left, state),
                           (look(path), (folder / "module.state").read_bytes()))
    with checks.group("the log is written, the state is not, or may not last: which of the two is said") as group:
        for call, state, first, last in ((7, None, "", "not"), (8, None, "", "not"),
                                         (9, fed, "it is replaced, but may not last a loss of power: ", "too")):
            path, old = kept(folder)
            seen, _ = recorded(folder, program, *SAMPLE, RECORDED_FAILS=str(call))
            group.same(f"call {call}", (2, "", f"zikhrodan: module.state: {first}Input/output error\n"
                                        f"zikhrodan: kept.log has 15 rows that the state has {last}\n"), seen)
            group.same(f"call {call}: the log and the state", (OLD + NEW, state or old),
                       (look(path), (folder / "module.state").read_bytes()))
    with checks.group("who is asked to end in the midst of a commit ends after it") as group:
        for words, rows, used in ((ADD, OLD + NEW, 3), (POWER_UP, OLD, 3), (SAMPLE, OLD + NEW, 3)):
            for call in range(1, LAST_CALL + 1):
                path, state = kept(folder)
                (status, _, _), _ = recorded(folder, program, *words, RECORDED_ASKS=str(call))
                group.same(f"{words}, call {call}: ended", True, status in (-signal.SIGTERM, 128 + signal.SIGTERM))
                group.same(f"{words}, call {call}: the log and the state", (rows, used, fed if words == SAMPLE else state),
                           (look(path), len(logs.read(path.read_bytes())), (folder / "module.state").read_bytes()))


def keeping(folder, checks, program):
    folder.mkdir()
    zikhrodan(folder, "demo", "--keep", "whole")
    day = look(folder / "whole" / "day.log")
    with checks.group("demo --keep: a write of its log fails: one line, status 2, no log; who is asked to end waits") as group:
        group.same("the day", 1440, len(day))
        for call in range(FIRST_KEPT, FIRST_KEPT + 3 + LAST_CALL):
            name, done = f"fails{call}", call > FIRST_KEPT + 2 + SYNCED
            (status, _, complaint), _ = recorded(folder, program, "demo", "--keep", name, RECORDED_FAILS=str(call))
            group.same(name, (0, "") if done else (2, f"zikhrodan: {name}/day.log: Input/output error\n"), (status, complaint))
            group.same(f"{name}: files", sorted(["day.log"] * done + ["day.rows", "factory.image", "module.state"]),
                       sorted(os.listdir(folder / name)))
            (status, _, _), _ = recorded(folder, program, "demo", "--keep", f"asks{call}", RECORDED_ASKS=str(call))
            group.same(f"asks{call}", (True, day), (status in (-signal.SIGTERM, 128 + signal.SIGTERM),
                                                    look(folder / f"asks{call}" / "day.log")))


def rights(folder, checks):
    user = another(folder)
    with checks.group("a log that cannot be read or written: one line, status 2, nothing is changed; a look may be had") as group:
        path, _ = kept(folder / "rights")
        path.parent.chmod(0o755)
        denied = (2, "", "zikhrodan: kept.log: Permission denied\n")
        for mode, refused in ((0o000, [ADD, POWER_UP, SAMPLE, *SHOWS]), (0o444, [ADD, POWER_UP, SAMPLE])):
            path.chmod(mode)
            for words in refused:
                group.same(f"{mode:o}, {words}", denied, zikhrodan(path.parent, *words, **user))
        for words in SHOWS:
            group.same(words, (0, ""), zikhrodan(path.parent, *words, **user)[::2])
        path.parent.chmod(0o555)
        group.same("log new", (2, "", "zikhrodan: new.log: Permission denied\n"),
                   zikhrodan(path.parent, "log", "new", "new.log", 3, **user))
        path.parent.chmod(0o755)
        path.chmod(0o644)
        group.same("the log", OLD, look(path))
    with checks.group("a new log has the rights that the umask leaves") as group:
        for mask in (0o000, 0o022, 0o077):
            name = f"new{mask:o}.log"
            group.same(f"{mask:o}", (0, ""), zikhrodan(folder, "log", "new", name, 3, umask=mask)[::2])
            group.same(f"{mask:o}: rights", 0o666 & ~mask, (folder / name).stat().st_mode & 0o777)


def few(folder, checks, program=PROGRAM):
    with checks.group("a tool that can have but one file open beside the standard ones can open a log") as group:
        kept(folder)
        try:
            seen = subprocess.run(["bash", "-c", FOUR_FILES, "few", program, *POWER_UP], timeout=PATIENCE, check=False,
                                  **settled(folder))
            group.same("power-up", (0, b"block 3 is opened\nkept.log: 3 of 6 blocks used\n", b""),
                       (seen.returncode, seen.stdout, seen.stderr))
        except subprocess.TimeoutExpired:
            group.same("it ends", True, False)


def run(folder, checks):
    full(folder / "full", checks)
    program = build(folder / "program")
    failing(folder / "failing", checks, program)
    keeping(folder / "keeping", checks, program)
    rights(folder, checks)
    few(folder / "few", checks)
