"""outputs.py: what the tool prints cannot be written, or it has no standard input, output or error: one line, and status 2; no
line where what read it has closed the pipe.

Of a read that cannot be shown the flags stay in the state. The other commands' change is made, whether it is told or not.
"""
import os
import subprocess

from bench import IMAGE
from station import CALM, CHANGES, KINDS, LOOKS, Kept, zikhrodan
from transcript import ROOT, environment


def closed_pipe():
    """The end of a pipe that nobody reads."""
    reader, writer = os.pipe()
    os.close(reader)
    return writer


def lost(what):
    """How standard output is lost, as subprocess has it."""
    if what == "Broken pipe":
        return {"stdout": closed_pipe()}
    if what == "No space left on device":
        return {"stdout": os.open("/dev/full", os.O_WRONLY)}
    return {"stdout": None, "preexec_fn": lambda: os.close(1)}


WAYS = ("Broken pipe", "No space left on device", "Bad file descriptor")


def complaint(what):
    """What is said of it: nothing where what reads has just gone."""
    return "" if what == "Broken pipe" else f"zikhrodan: standard output: {what}\n"


def without_output(run, what):
    how = lost(what)
    try:
        return run(**how)
    finally:
        if how["stdout"] is not None:
            os.close(how["stdout"])


def changing(folder, checks):
    for kind, words, on_paper in ((kind, *change) for kind in KINDS for change in kind.changes.items()):
        reads = words[0] == "read"
        with checks.group(f"{kind.called}{words[0]}{' --raw' * ('--raw' in words)}: standard output cannot be written: one line, "
                          f"status 2, {'no flag is lost' if reads else 'the change is made'}") as group:
            for what in WAYS:
                kept = kind(folder)
                if not reads:
                    on_paper(kept.paper)
                seen = without_output(lambda how=kept, words=words, **lost: how.run(*words, **lost), what)
                group.same(what, (2, "", complaint(what)), seen)
                group.same(f"{what}: the state", True, kept.agrees())
                group.same(f"{what}: other files", [], kept.others())


def stopping(folder, checks):
    with checks.group("watch: it ends at what it cannot tell; that row is in the state, and the rows after it are not") as group:
        for kind, what in ((kind, what) for kind in KINDS for what in WAYS):
            kept = kind(folder)
            kept.paper.reset(IMAGE)
            kept.put()
            kept.paper.sample(kept.loss)
            seen = without_output(lambda how=kept, **lost: how.run("watch", "loss.rows", "calm.rows", **lost), what)
            group.same(f"{kind.called}{what}", (2, "", complaint(what)), seen)
            group.same(f"{kind.called}{what}: the state", True, kept.agrees())


def telling(folder, checks):
    with checks.group("demo and --help: standard output cannot be written: one line, status 2") as group:
        for words in (("demo",), ("demo", "--eight"), ("--help",), ("sample", "--help")):
            for what in WAYS:
                seen = without_output(lambda words=words, **lost: zikhrodan(folder, *words, **lost), what)
                group.same(f"{words}, {what}", (2, "", complaint(what)), seen)
    for kind in KINDS:
        with checks.group(f"{kind.called}show: standard output cannot be written: one line, status 2, no change") as group:
            kept = kind(folder)
            for words in LOOKS:
                for what in WAYS:
                    seen = without_output(lambda how=kept, words=words, **lost: how.run("show", *words, **lost), what)
                    group.same(f"{words}, {what}", (2, "", complaint(what)), seen)
            group.same("the state, and other files", (True, []), (kept.agrees(), kept.others()))
    with checks.group("demo --keep: standard output cannot be written: one line, status 2, the four files are whole") as group:
        whole = zikhrodan(folder, "demo", "--keep", "whole")
        group.same("kept", 0, whole[0])
        for number, what in enumerate(WAYS):
            seen = without_output(lambda to=f"kept{number}", **lost: zikhrodan(folder, "demo", "--keep", to, **lost), what)
            group.same(what, (2, "", complaint(what)), seen)
            for name in ("factory.image", "day.rows", "module.state", "day.log"):
                group.same(name, (folder / "whole" / name).read_bytes(), (folder / f"kept{number}" / name).read_bytes())


def without_input(folder, checks):
    nothing = {"stdin": None, "preexec_fn": lambda: os.close(0)}
    with checks.group("standard input is closed: rows from it are an error, and what needs none is done") as group:
        for words in (("sample",), ("sample", "-"), ("watch", "-", "loss.rows")):
            kept = Kept(folder)
            group.same(words, (2, "", "zikhrodan: standard input: Bad file descriptor\n"), kept.run(*words, **nothing))
            group.same(f"{words}: the 688 bytes", True, kept.agrees())
        for words, on_paper in CHANGES.items():
            kept = Kept(folder)
            on_paper(kept.paper)
            group.same(words, (0, ""), kept.run(*words, **nothing)[::2])
            group.same(f"{words}: the 688 bytes", True, kept.agrees())
    with checks.group("standard input is closed: after the rows of a file it is an error, too") as group:
        kept = Kept(folder)
        kept.paper.sample(CALM)
        status, _, complaint = kept.run("sample", "calm.rows", "-", **nothing)
        group.same("sample", (2, "zikhrodan: standard input: Bad file descriptor\n"), (status, complaint))
        group.same("the 688 bytes", True, kept.agrees())


def without_error(folder, checks):
    silent = {"stderr": None, "preexec_fn": lambda: os.close(2)}
    with checks.group("standard error is closed: the status still tells, and the state is what it should be") as group:
        for words, on_paper in CHANGES.items():
            kept = Kept(folder)
            on_paper(kept.paper)
            group.same(words, 0, kept.run(*words, **silent)[0])
            group.same(f"{words}: the 688 bytes", True, kept.agrees())
        for status, words in ((1, ("write", "recorder", 86, 1)), (1, ("read", 3, 0, 1)), (2, ("sample", "missing.rows"))):
            kept = Kept(folder)
            group.same(words, (status, ""), kept.run(*words, **silent)[:2])
            group.same(f"{words}: the 688 bytes", True, kept.agrees())


def by_the_wrapper(folder, checks):
    with checks.group("by ./zikhrodan, standard input, output or error closed: the same") as group:
        for closed, status, complaint in (("<&-", 0, ""), (">&-", 2, "zikhrodan: standard output: Bad file descriptor\n"),
                                          ("2>&-", 0, "")):
            kept = Kept(folder)
            done = subprocess.run(["bash", "-c", f"{ROOT}/zikhrodan write module.state operator 100 255 255 {closed}"],
                                  cwd=folder, env=environment(folder), capture_output=True, text=True, check=False)
            CHANGES["write", "operator", 100, 255, 255](kept.paper)
            group.same(closed, (status, complaint), (done.returncode, done.stderr))
            group.same(f"{closed}: the 688 bytes", True, kept.agrees())


def run(folder, checks):
    for number, part in enumerate((changing, stopping, telling, without_input, without_error, by_the_wrapper)):
        place = folder / str(number)
        place.mkdir()
        part(place, checks)
