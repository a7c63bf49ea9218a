"""kills.py: the tool is ended at any moment: the state is always a whole one, of before a command or after it."""
import os
import random
import select
import signal
import subprocess

import ended
from feed import sample
from paper import Paper
from station import CALM, CHANGES, KINDS, PATIENCE, Kept, settled, start, waits
from transcript import ROOT

STREAMS, ROWS = 40, 60  # commands that are fed row after row, and the most rows
ASKED = (signal.SIGTERM, signal.SIGINT, signal.SIGHUP)


def end(process, how=signal.SIGKILL):
    """Ends a process and its children by a signal, and waits for it; gives what it has printed."""
    try:
        os.killpg(process.pid, how)
    except ProcessLookupError:
        pass
    return process.communicate(timeout=PATIENCE)[0]


def after(state, on_paper, new_paper=Paper):
    paper = new_paper()
    paper.state[:] = state
    on_paper(paper)
    return bytes(paper.state)


def commands(kept, program, group, how):
    """Each command, ended before each of its calls; gives how many were ended before and how many after their change."""
    old, before, changed = bytes(kept.paper.state), 0, 0
    for words, on_paper in kept.changes.items():
        new, seen, status = after(old, on_paper, kept.new_paper), [], None
        for status, _, _ in ended.each_moment(kept.folder, program, how, words[0], kept.path.name, *words[1:], begin=kept.put):
            seen.append(kept.path.read_bytes())
        at = seen.index(new) if new in seen else len(seen)
        group.same(f"{words}, {how.name}: that of before, and from some call on that of after", True,
                   seen == [old] * at + [new] * (len(seen) - at))
        group.same(f"{words}, {how.name}: some are ended before the change, some after it", True, 0 < at < len(seen) - 1)
        group.same(f"{words}, {how.name}: at last it ends by itself", 0, status)
        before, changed = before + at, changed + len(seen) - 1 - at
    return before, changed


def streams(kept, chance, group):
    """A command that saves after each row, while rows come in; it is killed when a number of rows is saved, and one more has
    come."""
    rows = [sample(status=(1 << number % 8, number, 0), at0=0x1E00 + number) for number in range(ROWS)]
    stopped = set()
    for number in range(STREAMS):
        kept.paper.sample(CALM)
        kept.put()
        states = [bytes(kept.paper.state)]
        for row in rows:
            states.append(after(states[-1], lambda paper, row=row: paper.sample(row)))
        process = start(kept.folder, "sample", kept.path.name, "-", stdin=subprocess.PIPE, bufsize=0)
        until = chance.randrange(len(rows))
        for at, row in enumerate(rows[:until]):
            process.stdin.write(row)
            group.same(f"stream {number}: row {at} is saved", True,
                       waits(lambda at=at, states=states: kept.path.read_bytes() == states[at + 1]))
        process.stdin.write(rows[until])
        end(process)
        left = kept.path.read_bytes()
        group.same(f"stream {number}", True, left in states[until:until + 2])
        stopped.add(states.index(left) if left in states else None)
    return stopped


def by_the_wrapper(kept, group):
    """./zikhrodan waits for rows, and its process alone is asked to end. The tool has ended when nobody has its output open."""
    for number, how in enumerate(ASKED):
        process = subprocess.Popen([ROOT / "zikhrodan", "sample", kept.path.name, "-"], start_new_session=True,
                                   **settled(kept.folder, stdin=subprocess.PIPE, bufsize=0))
        row = sample(at0=0x1E00 + number)
        process.stdin.write(row)
        kept.paper.sample(row)
        group.same(f"{how.name}: a row is in the state", True, waits(kept.agrees))
        process.send_signal(how)
        group.same(f"{how.name}: the tool ends", True, bool(select.select([process.stdout], [], [], PATIENCE)[0]))
        end(process)
        group.same(f"{how.name}: its status", -how, process.returncode)


def each_call(kept, program, checks):
    """Every command of a kind of module, ended at each of its moments; gives how many before and how many after their change."""
    kept.paper.sample(kept.calm)  # so that each command changes something
    with checks.group(f"{kept.called}commands ended by SIGTERM, SIGINT, SIGHUP at each call: the same, nothing is left") as group:
        for how in ASKED:
            commands(kept, program, group, how)
        group.same("other files", [], kept.others())
    with checks.group(f"{kept.called}commands killed before each call: the state is that of before, or that of after") as group:
        return commands(kept, program, group, signal.SIGKILL)


def run(folder, checks):
    program, chance = ended.build(folder / "tool"), random.Random(688)
    for kind in KINDS[1:]:
        each_call(kind(folder / kind.__name__), program, checks)
    kept = Kept(folder / "kills")
    before, changed = each_call(kept, program, checks)
    with checks.group(f"{STREAMS} commands killed while rows come in: the state is that after one of the rows") as group:
        stopped = streams(kept, chance, group)
        group.same("they are killed after different rows", True, len(stopped) > 5)
    with checks.group("./zikhrodan is asked to end while it waits for rows: the tool ends") as group:
        kept.put()
        by_the_wrapper(kept, group)
    with checks.group("after that the tool works, and what a kill left beside the state is never taken for one") as group:
        left = kept.others()
        group.same("only the tool's own files are left", (True, []),
                   (len(left) > 0, [name for name in left if not name.startswith("module.state.")]))
        kept.put()
        for words, on_paper in CHANGES.items():
            on_paper(kept.paper)
            group.same(words, (0, ""), kept.run(*words)[::2])
            group.same(f"{words}: the 688 bytes", True, kept.agrees())
        group.same("nothing more is left", left, kept.others())
    print(f"-- {before} kills before a change, {changed} after; {len(left)} files left beside the state")
