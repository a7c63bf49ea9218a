"""log_moments.py: the tool is killed before each call that it makes while it writes a log, alone or with a module: the log is
that of before or that of after, and never behind the state. log_kills.py has kills in the midst of a write, and while rows come
in."""
import signal
from itertools import groupby

import ended
import logs
from log_kills import ROOM, begun, look, new_log, rows_from, shown, state_after


def adds(folder, program, group):
    """A power-up and adds of some rows, killed before each of their calls; gives how many were killed before their change, and
    how many after it."""
    path, before, changed = new_log(folder), 0, 0
    old = rows_from(0, 20)

    def begin():
        path.write_bytes(logs.file_of(ROOM, logs.blocks_of(old)))

    for count in (0, 1, 2, 40):
        new, seen = rows_from(100, count), []
        (folder / "new.rows").write_bytes(b"".join(new))
        words = ("log", "add", path.name, "new.rows") if count else ("log", "power-up", path.name)
        held = (old, 2), (old + new, 2 if 0 < count < 13 else 4 if count else 3)  # the rows, and how many blocks
        for status, said, call in ended.each_moment(folder, program, signal.SIGKILL, *words, begin=begin):
            blocks = logs.read(path.read_bytes())
            seen.append(([row for _, rows in blocks for row in rows], len(blocks)))
            group.same(f"{words[1]} of {count}, call {call}: what is said to be done is", True,
                       not ("taken" in said or "opened" in said) or seen[-1] == held[1])
        at = seen.index(held[1]) if held[1] in seen else len(seen)
        group.same(f"{words[1]} of {count}: that of before, and from some call on that of after", True,
                   seen == [held[0]] * at + [held[1]] * (len(seen) - at))
        group.same(f"{words[1]} of {count}: some are killed before the change, some after it", True, 0 < at < len(seen) - 1)
        group.same(f"{words[1]} of {count}: at last it ends by itself", 0, status)
        group.same(f"{words[1]} of {count}: the tool has the same log", held[1][0], shown(folder, path))
        before, changed = before + at, changed + len(seen) - 1 - at
    return before, changed


def log_first(folder, program, group):
    """A command that feeds both, killed before each of its calls: first the log has the rows, and then the state."""
    path, states = begun(folder)
    new, seen = rows_from(8, 20), []
    (folder / "new.rows").write_bytes(b"".join(new))
    first, last = states[0], state_after(states, new)[-1]

    def begin():
        path.write_bytes(logs.file_of(ROOM, []))
        (folder / "module.state").write_bytes(first)

    for _ in ended.each_moment(folder, program, signal.SIGKILL, "sample", "--log", path.name, "module.state", "new.rows",
                               begin=begin):
        seen.append((look(path), (folder / "module.state").read_bytes()))
    expected = [([], first), (new, first), (new, last)]
    group.same("what is found, one after the other", True, [pair for pair, _ in groupby(seen)] == expected)


def run(folder, checks):
    program = ended.build(folder / "tool")
    with checks.group("adds and power-ups killed before each call: the log is that of before, or that of after") as group:
        before, changed = adds(folder / "adds", program, group)
    with checks.group("a sample with a log killed before each call: neither has the rows, or the log, or both") as group:
        log_first(folder / "first", program, group)
    print(f"-- {before} kills before a change, {changed} after")
