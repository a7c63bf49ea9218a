"""odd_rows.py: rows in lists with what is no rows, from the middle of a file, that look odd and may be true, and from streams.
wrong_rows.py has each kind of file."""
import contextlib
import os

import logs
from bench import IMAGE
from fed import EIGHT_STATE, FACTORY, FOUR, LOG, OVERRIDE, PAGE, STATE, TEXT, Target
from feed import sample
from log_kills import look, rows_from
from paper_eight import FLAG_BITS
from station import EIGHT_CALM, EIGHT_LOSS, PATIENCE, start, waits


def over(count, rows, left):
    return f"it has {count}, which are {rows} of 31 and {left} over; --raw takes them all the same"


def listed(target, group):
    """Rows, and after or before them a file that has none, in a list."""
    folder = target.folder
    rows = b"".join(rows_from(100, 3))
    (folder / "three.rows").write_bytes(rows)
    (folder / "folder").mkdir()
    wrong = {
        "short.rows": (rows[:92], over("92 bytes", "2 rows", "30 bytes")),
        "one.rows": (rows[:32], over("32 bytes", "1 row", "1 byte")),
        "byte.rows": (b"\0", over("1 byte", "0 rows", "1 byte")),
        "words.rows": (b"words in a row, and after them, " + bytes(61), TEXT + OVERRIDE),
        "missing.rows": (None, "No such file or directory"), "folder": (None, "Is a directory"),
        "bad.hex": (b"00\n" * 31 + b"0G", "line 32 has what is no byte of two hex digits"),
        "odd.hex": (rows.hex("\n", 31).encode() + b"\n0", "line 4 has what is no byte of two hex digits"),
        "long.hex": (b"00\n" * 31000 + b"-", "line 31001 has what is no byte of two hex digits"),
        "short.hex": (rows[:92].hex().encode(), over("92 bytes", "2 rows", "30 bytes")),
        "image.hex": (IMAGE.hex(" ").encode(), FACTORY + OVERRIDE),
        "state.hex": (bytes(target.paper.state).hex(" ").encode(), STATE + OVERRIDE),
        "log.hex": (logs.file_of(30, []).hex(" ").encode(), LOG + OVERRIDE),
        "second.hex": ((bytes(logs.SLOT) + logs.slot(1, 30, 0, 0, bytes(512))).hex(" ").encode(), LOG + OVERRIDE),
        "text.hex": (b"no rows, but words".hex().encode(), TEXT + OVERRIDE),
    }
    for name, (run, words) in wrong.items():
        if run is not None:
            (folder / name).write_bytes(run)
        for command in FOUR:
            target.refused(group, f"{command}, after rows, {name}", name, words, target.run(*command, "three.rows", name))
            target.refused(group, f"{command}, before rows, {name}", name, words, target.run(*command, name, "-", "three.rows"))
    target.taken(group, "three rows, twice", rows * 2, 31, target.run("sample", "module.state", "three.rows", "three.rows"))
    target.begin()


def from_a_place(target, group):
    """Standard input that is a file is looked at from where it stands, and taken from there."""
    path, rows = target.folder / "day.log", rows_from(100, 10)
    path.write_bytes(logs.file_of(3, [])[:40] + b"".join(rows))

    def added(at):
        return target.redirected("log", "add", "kept.log", "-", path=path, at=at)

    target.taken(group, "behind a log's front", b"".join(rows), 31, added(40))
    group.same("the log", target.had + rows, look(target.folder / "kept.log"))
    target.begin()
    target.taken(group, "at its end", b"", 31, added(350))
    target.refused(group, "two bytes on", "standard input", over("308 bytes", "9 rows", "29 bytes"), added(42))


# What may be a sample: nothing is measured, or the most; every line is lost; it is like the front of a module's memory but for
# the supply, a status or the last byte; it is like text but for a byte.
FRONT = bytes(IMAGE[:31])
FOUR_TRUE = (bytes(31), b"\xFF" * 31, sample(status=(0xFF, 0xFF, 0xFF)), sample([0] * 14, (0x11, 0, 0)),
             sample([0] * 14, (0x21, 8, 0)), sample([0, 33000] + [0] * 12, (0x11, 8, 0)), FRONT[:30] + b"\1",
             b"<!D" + sample()[3:], b"zik" + sample()[3:], sample([0x2020] * 13 + [0x2000], (0x20, 0x20, 0x20)),
             sample([0x2020] * 14, (0x20, 0x20, 0)), sample([0x20A0] * 14, (0x20, 0x20, 0x20)),
             sample([0x4120, 33000] + [0x2020] * 12, (0x20, 0x20, 0x20)))
UNSOUND = bytes(14) + bytes(255 - bits for bits in FLAG_BITS)
EIGHT_TRUE = (EIGHT_CALM, EIGHT_LOSS, FRONT[:14], FRONT[:14] + bytes(28), b"\x20" * 13 + b"\0", bytes(84), bytes(112),
              UNSOUND + bytes(70))


def true_rows(target, group):
    """These are taken. Seven of an eight-channel module's rows that read as its state are not, but with --raw."""
    for words, length, rows in (("log", "add", "kept.log"), 31, FOUR_TRUE), (("sample", "eight.state"), 14, EIGHT_TRUE):
        for row in rows:
            (target.folder / "true.rows").write_bytes(row)
            target.taken(group, f"{words}, {row.hex()}", row, length, target.run(*words, "true.rows"))
            target.taken(group, f"{words}, {row.hex()} as |", row, length, target.piped(*words, run=row))
            target.begin()
    state = bytes(len(target.eight.state))
    (target.folder / "seven.rows").write_bytes(state)
    target.refused(group, "seven rows", "seven.rows", EIGHT_STATE + OVERRIDE, target.run("watch", "eight.state", "seven.rows"))
    target.taken(group, "seven rows, --raw", state, 14, target.run("watch", "eight.state", "--raw", "seven.rows"))
    target.begin()


def streams(target, group):
    """A stream is looked at when its turn comes, and not before; a log that a write has left damaged is not mended for it. What
    is less than a row is the library's to refuse."""
    folder, rows = target.folder, rows_from(200, 4)
    (folder / "two.rows").write_bytes(rows[0] + rows[1])
    os.mkfifo(folder / "pipe")
    process = start(folder, "log", "add", "kept.log", "two.rows", "pipe")
    group.same("rows before a pipe that nobody has opened yet", True,
               waits(lambda: look(folder / "kept.log") == target.had + rows[:2]))
    with contextlib.suppress(BrokenPipeError), (folder / "pipe").open("wb") as pipe:
        pipe.write(b"<html><head><title>no rows</title></head>")
    out, complaint = process.communicate(timeout=PATIENCE)
    group.same("the pipe", (2, b"2 rows taken", f"zikhrodan: pipe: {PAGE}{OVERRIDE}\n".encode()),
               (process.returncode, out.split(b"\n")[0], complaint))
    group.same("the log", target.had + rows[:2], look(folder / "kept.log"))
    target.begin()
    for row in (b"words", b"<html>", b"00 00", bytes(30)):
        target.taken(group, f"less than a row: {row}", row, 31, target.piped("log", "add", "kept.log", run=row))
    path = folder / "kept.log"
    run = bytearray(path.read_bytes())
    run[logs.SLOT] = 1
    path.write_bytes(run)
    target.before = target.now()
    seen = target.piped("log", "add", "kept.log", run=b"words, and more than a row of these")
    group.same("a damaged log", (2, "", f"zikhrodan: standard input: {TEXT}{OVERRIDE}"), (*seen[:2], seen[2].split("\n")[1]))
    group.same("a damaged log: nothing is changed", True, target.now() == target.before)
    target.begin()


def run(folder, checks):
    target = Target(folder / "target")
    for part, name in ((listed, "a list in which one file is no rows: nothing of any is taken"),
                       (from_a_place, "standard input that is a file is looked at from where it stands"),
                       (true_rows, "what may be a sample is taken, however odd"),
                       (streams, "a stream is looked at in its turn")):
        with checks.group(name) as group:
            part(target, group)
