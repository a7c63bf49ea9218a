"""recorded.py: the tool linked with recorded.c, which records what it writes and syncs, and ends it or fails at a call; and
versions of it that are broken."""
import struct

from linked import link
from station import zikhrodan
from transcript import ROOT, environment

CALLS = ("pwrite", "fdatasync", "fsync")


def build(program, edits=()):
    """The tool, with edits of its logfile.c: each text is there once, and another comes in its place."""
    text = (ROOT / "station" / "logfile.c").read_text(encoding="utf-8")
    for old, new in edits:
        if text.count(old) != 1:
            raise RuntimeError(f"station/logfile.c has not once: {old}")
        text = text.replace(old, new)
    sources = program.with_suffix(".sources")
    sources.mkdir()
    edited = sources / "logfile.c"
    edited.write_text(text, encoding="utf-8")
    return link(program, "recorded.c", CALLS, edited)


def recorded(folder, program, *words, **setting):
    """Runs it: its answer, and its calls in order: a place and what is written, or the letter of a sync."""
    told = folder / "told"
    told.write_bytes(b"")
    how = {name: setting.pop(name) for name in list(setting) if not name.startswith("RECORDED")}
    answer = zikhrodan(folder, *words, program=program, env=dict(environment(folder), RECORDED=str(told), **setting), **how)
    run, calls = told.read_bytes(), []
    while run:
        kind, place, length = struct.unpack_from("=c2Q", run)
        calls.append((place, run[17:17 + length]) if kind == b"W" else kind.decode())
        run = run[17 + length:]
    return answer, calls
