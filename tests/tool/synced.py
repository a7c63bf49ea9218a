"""synced.py: a new state is synced before it takes the old one's name, and its folder after; and what is said where that fails.

The tool is watched from inside, by a library that is loaded before it.
"""
import subprocess

from station import KINDS
from transcript import ROOT, environment

WATCHER = ROOT / "build" / "tool-synced.so"


def watched(kept, words, fails=""):
    """Runs a command: its answer, and what was synced and renamed, in order."""
    told = kept.folder / "told"
    told.write_text("", encoding="ascii")
    setting = dict(environment(kept.folder), LD_PRELOAD=str(WATCHER), SYNCED=str(told), SYNCED_FAILS=fails)
    seen = kept.run(*words, env=setting)
    lines = told.read_text(encoding="ascii").splitlines()
    told.unlink()
    return seen, lines


def run(folder, checks):
    subprocess.run(["cc", "-std=gnu11", "-Wall", "-Wextra", "-Werror", "-shared", "-fPIC", ROOT / "tests" / "tool" / "synced.c",
                    "-ldl", "-o", WATCHER], check=True)
    for kind in KINDS:
        each(kind, folder / kind.__name__, checks)


def each(kind, folder, checks):
    kept = kind(folder)
    with checks.group(f"{kind.called}a new state is synced, renamed, and then its folder is synced") as group:
        for words in kind.changes:
            (status, _, complaint), lines = watched(kept, words)
            group.same(words, (0, "", ["file", "rename", "folder"]), (status, complaint, lines))
    with checks.group(f"{kind.called}where it cannot be synced, the state is as it was, and nothing is left beside it") as group:
        for words in kind.changes:
            kept = kind(folder)
            (status, _, complaint), lines = watched(kept, words, "file")
            group.same(words, (2, "zikhrodan: module.state: Input/output error\n", ["file"]), (status, complaint, lines))
            group.same(f"{words}: the state, and other files", (True, []), (kept.agrees(), kept.others()))
    with checks.group(f"{kind.called}where its folder cannot be synced, the state is the new one, and that is said") as group:
        for words, on_paper in kind.changes.items():
            kept = kind(folder)
            on_paper(kept.paper)
            (status, _, complaint), lines = watched(kept, words, "folder")
            expected = "zikhrodan: module.state: it is replaced, but may not last a loss of power: Input/output error\n"
            group.same(words, (2, expected, ["file", "rename", "folder"]), (status, complaint, lines))
            group.same(f"{words}: the state, and other files", (True, []), (kept.agrees(), kept.others()))
