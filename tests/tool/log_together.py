"""log_together.py: several commands at once on one log: each is done after the other, none loses a row, and a look is whole."""
import fcntl
import os
import subprocess
from concurrent.futures import ThreadPoolExecutor

import logs
from feed import sample
from log_kills import DAMAGE, begun, look, new_log, rows_from, shown
from station import PATIENCE, start, wait_in_turn, waits, zikhrodan
from terminals import Terminal

ADDERS, TIMES, ROWS = 4, 8, 3


def adder(folder, path, own):
    """Adds its own rows, some at a time; gives what went wrong."""
    wrong, name = [], f"{own}.rows"
    for at in range(TIMES):
        (folder / name).write_bytes(b"".join(rows_of(own, at)))
        status, _, complaint = zikhrodan(folder, "log", "add", path, name)
        wrong += [complaint] if status else []
    return wrong


def rows_of(own, at):
    """What an adder adds, for which time."""
    return rows_from(1000 * own + ROWS * at, ROWS)


def looker(folder, path, adders):
    """Looks while there is an adder: what it saw each time, or how it failed."""
    seen = []
    while not seen or not all(future.done() for future in adders):
        seen.append(shown(folder, path))
    return seen


def several(folder, checks):
    with checks.group(f"{ADDERS} processes add, {ROWS} rows at a time, while another looks: no row is lost or parted") as group:
        path = new_log(folder)
        with ThreadPoolExecutor(ADDERS + 1) as pool:
            adders = [pool.submit(adder, folder, path, own) for own in range(ADDERS)]
            looks = pool.submit(looker, folder, path, adders)
            group.same("the adds", [[]] * ADDERS, [future.result() for future in adders])
            seen = looks.result()
        left = look(path)
        parts = [left[at:at + ROWS] for at in range(0, len(left), ROWS)]
        for own in range(ADDERS):
            added = [rows_of(own, at) for at in range(TIMES)]
            group.same(f"what adder {own} has added, in order", added, [part for part in parts if part in added])
        group.same("all that is there", ADDERS * TIMES * ROWS, len(left))
        group.same("there were looks", True, len(seen) > 0)
        group.same("each look saw the log of some moment", True,
                   all(one == left[:len(one)] and len(one) % ROWS == 0 for one in seen))


def pausing(folder, checks):
    with checks.group("while an add waits for rows, others add to the same log, look, and put another in its place") as group:
        path = new_log(folder)
        rows, others = rows_from(0, 5), rows_from(5000, 40)
        (folder / "others.rows").write_bytes(b"".join(others))
        process = start(folder, "log", "add", path, "-", stdin=subprocess.PIPE, bufsize=0)
        process.stdin.write(rows[0])
        group.same("a row is in the log", True, waits(lambda: look(path) == rows[:1]))
        group.same("others add", 0, zikhrodan(folder, "log", "add", path, "others.rows")[0])
        process.stdin.write(rows[1] + rows[2][:7])
        group.same("the next row comes after theirs", True, waits(lambda: look(path) == rows[:1] + others + rows[1:2]))
        group.same("a look", rows[:1] + others + rows[1:2], shown(folder, path))
        (folder / "other.log").write_bytes(logs.file_of(3, logs.blocks_of(others[:20], 7)))
        old = path.read_bytes()
        os.replace(folder / "other.log", path)
        process.stdin.write(rows[2][7:])
        group.same("the next row is in the new one", True, waits(lambda: look(path) == others[:20] + rows[2:3]))
        path.write_bytes(old)
        process.stdin.write(rows[3])
        group.same("or in the old one again", True, waits(lambda: look(path) == rows[:1] + others + rows[1:2] + rows[3:4]))
        path.write_bytes(b"nothing")
        process.stdin.write(rows[4])
        out, complaint = process.communicate(timeout=PATIENCE)
        group.same("what is no log ends it", (2, b"4 rows taken", f"zikhrodan: {path}: it is no log; "),
                   (process.returncode, out.split(b"\n")[0], complaint.decode()[:len(f"zikhrodan: {path}: it is no log; ")]))


def torn(folder, checks):
    with checks.group("while an add waits for rows, another is cut off in the head: it says so each time, and goes on") as group:
        path, rows = new_log(folder), rows_from(0, 3)
        process = start(folder, "log", "add", "kept.log", "-", stdin=subprocess.PIPE, bufsize=0)
        for number, at in ((1, 100), (2, 3000)):  # in either slot
            process.stdin.write(rows[number - 1])
            group.same(f"row {number} is in the log", True, waits(lambda number=number: look(path) == rows[:number]))
            with open(path, "r+b") as file:
                fcntl.flock(file, fcntl.LOCK_EX)  # when the commit is done
                file.seek(at)
                file.write(b"X")
        out, complaint = process.communicate(rows[2], timeout=PATIENCE)
        group.same("all rows", (0, b"3 rows taken", 2 * DAMAGE, rows),
                   (process.returncode, out.split(b"\n")[0], complaint.decode(), look(path)))


def in_turn(folder, checks):
    words = {"add": ("log", "add", "kept.log", "one.rows"), "power-up": ("log", "power-up", "kept.log"),
             "sample": ("sample", "--log", "kept.log", "module.state", "one.rows"), "show": ("log", "show", "kept.log")}
    for how, waiting in ((fcntl.LOCK_EX, list(words)), (fcntl.LOCK_SH, ["add", "power-up", "sample"])):
        does = "changes" if how == fcntl.LOCK_EX else "reads"
        with checks.group(f"{', '.join(waiting)} wait while another {does} the log") as group:
            path, _ = begun(folder)
            (folder / "one.rows").write_bytes(sample())
            lock = os.open(path, os.O_RDONLY)
            fcntl.flock(lock, how)
            processes = {name: start(folder, *word) for name, word in words.items()}
            group.same("they wait", True, wait_in_turn(*(processes[name] for name in waiting)))
            group.same("the others end", True, waits(lambda processes=processes, waiting=waiting: waiting == [
                name for name, process in processes.items() if process.poll() is None]))
            group.same("the log", [], [row for _, rows in logs.read(path.read_bytes()) for row in rows])
            os.close(lock)
            for process in processes.values():
                process.communicate(timeout=PATIENCE)
            group.same("they are done", [0] * 4, [process.returncode for process in processes.values()])
            group.same("the log, after", [sample()] * 2, look(path))
    with checks.group("a command that waits for a log says so to a person") as group:
        lock = os.open(path, os.O_RDONLY)
        fcntl.flock(lock, fcntl.LOCK_EX)
        terminal = Terminal(folder, *words["show"], on=("stderr",))
        group.same("it waits", True, wait_in_turn(terminal.process))
        os.close(lock)
        group.same("on a terminal", "zikhrodan: kept.log: waiting for another command\n", terminal.end()[1])


def both_at_once(folder, checks):
    with checks.group("samples with a log, adds and samples at once: none waits for good, and the log has all rows") as group:
        path, _ = begun(folder)
        (folder / "rows.rows").write_bytes(b"".join(rows_from(0, 20)))
        words = (("sample", "--log", "kept.log", "module.state", "rows.rows"), ("log", "add", "kept.log", "rows.rows"),
                 ("sample", "module.state", "rows.rows"), ("log", "power-up", "kept.log"))
        processes = [start(folder, *word) for word in words * 3]
        for process in processes:
            process.communicate(timeout=PATIENCE)
        group.same("they are done", [0] * 12, [process.returncode for process in processes])
        group.same("the log", 6 * rows_from(0, 20), look(path))


def run(folder, checks):
    for number, part in enumerate((several, pausing, torn, in_turn, both_at_once)):
        part(folder / str(number), checks)
