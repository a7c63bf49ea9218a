"""station.py: the tool as a process, and a state in a file beside the same module on paper; for what a transcript cannot show."""
import contextlib
import fcntl
import os
import struct
import subprocess
import termios
import time
from pathlib import Path

from bench import IMAGE
from feed import sample
from paper import Paper
from paper_eight import Eight
from transcript import PATIENCE, ROOT, environment

PROGRAM = ROOT / "build" / "station"
NOBODY = 65534


def command(*words, program=PROGRAM):
    """The tool's command line, without the wrapper, which has built it."""
    return [str(program)] + [str(word) for word in words]


def settled(folder, **how):
    """How a process of the tool is started: in the folder, with no input, and with what it prints caught."""
    return {"cwd": folder, "env": environment(folder), "stdin": subprocess.DEVNULL, "stdout": subprocess.PIPE,
            "stderr": subprocess.PIPE, **how}


def start(folder, *words, **how):
    return subprocess.Popen(command(*words), start_new_session=True, **settled(folder, **how))


def zikhrodan(folder, *words, program=PROGRAM, timeout=PATIENCE, **how):
    """Runs the tool: its exit status, what it printed and what it complained, as text of single bytes."""
    done = subprocess.run(command(*words, program=program), timeout=timeout, check=False, **settled(folder, **how))
    return done.returncode, (done.stdout or b"").decode("latin-1"), (done.stderr or b"").decode("latin-1")


def waits(holds):
    """Whether something comes to hold, in patience."""
    until = time.monotonic() + PATIENCE
    while not holds() and time.monotonic() < until:
        time.sleep(0.002)
    return holds()


def who_waits():
    """The sessions whose processes wait for a lock of a file or folder, as the system tells it."""
    sessions = set()
    for line in Path("/proc/locks").read_text(encoding="ascii").splitlines():
        if "->" in line:
            with contextlib.suppress(ProcessLookupError):
                sessions.add(os.getsid(int(line.split("->")[1].split()[3])))
    return sessions


def wait_in_turn(*processes):
    """Whether processes that were started here all come to wait for a lock, in patience."""
    return waits(lambda: {process.pid for process in processes} <= who_waits())


def is_taken(process):
    """Whether a process comes to have read all that it was given on its standard input, in patience."""
    return waits(lambda: struct.unpack("i", fcntl.ioctl(process.stdin, termios.FIONREAD, bytes(4)))[0] == 0)


LOSS = sample(status=(0x12, 0x34, 0x56), at2=250)  # eleven flags for each port
CALM = sample()
EIGHT_LOSS = bytes([0x12, 0, 0x10, 0, 0, 0x80, 0x0B, 0, 0x10, 0, 0, 0, 0, 0x80])  # nine
EIGHT_CALM = bytes(14)


class Kept:
    """A state in a file, and beside it the same module on paper. It is fed, so that there are flags to lose."""

    called, new_paper, loss, calm = "", Paper, LOSS, CALM

    def __init__(self, folder, name="module.state"):
        self.folder, self.path, self.paper = folder, folder / name, self.new_paper()
        folder.mkdir(exist_ok=True)
        (folder / "loss.rows").write_bytes(self.loss)
        (folder / "calm.rows").write_bytes(self.calm)
        (folder / "both.rows").write_bytes(self.calm + self.loss)
        self.paper.reset(IMAGE)
        self.paper.sample(self.loss)
        self.put()

    def put(self):
        self.path.write_bytes(self.paper.state)

    def agrees(self):
        """The file is what is on paper."""
        return self.path.read_bytes() == bytes(self.paper.state)

    def others(self):
        """What is in the folder beside the state and the files of rows."""
        own = {self.path.name, "loss.rows", "calm.rows", "both.rows"}
        return sorted(set(os.listdir(self.folder)) - own)

    def run(self, *words, **how):
        """Runs a command on the state: its name first, then the words after the state."""
        return zikhrodan(self.folder, words[0], self.path.name, *words[1:], **how)


class KeptEight(Kept):
    """The same with an eight-channel module."""

    called, new_paper, loss, calm = "eight channels, ", Eight, EIGHT_LOSS, EIGHT_CALM


# The forms of the command that only looks: the words after the state.
LOOKS = ((), ("--raised",), ("--all",), ("--json",), ("--hex",), ("--hex", "--port", "recorder"))

# The commands that change a state, and the same on paper.
CHANGES = Kept.changes = {
    ("reset",): lambda paper: paper.reset(IMAGE),
    ("sample", "both.rows"): lambda paper: (paper.sample(CALM), paper.sample(LOSS)),
    ("watch", "both.rows"): lambda paper: (paper.sample(CALM), paper.sample(LOSS)),
    ("read", "operator", 3, 12): lambda paper: paper.read(1, 3, 12),
    ("read", "recorder", 9, 1, "--raw"): lambda paper: paper.read(2, 9, 1),
    ("write", "operator", 100, 255, 255): lambda paper: paper.write(1, 100, b"\xFF\xFF"),
}
KeptEight.changes = {
    ("reset", "--eight"): lambda paper: paper.reset(),
    ("sample", "both.rows"): lambda paper: (paper.sample(EIGHT_CALM), paper.sample(EIGHT_LOSS)),
    ("watch", "both.rows"): lambda paper: (paper.sample(EIGHT_CALM), paper.sample(EIGHT_LOSS)),
    ("read", "operator", 3, 14): lambda paper: paper.read(1, 3, 14),
    ("read", "recorder", 9, 1, "--raw"): lambda paper: paper.read(2, 9, 1),
    ("write", "operator", 107, 255, 255): lambda paper: paper.write(1, 107, b"\xFF\xFF"),
}
KINDS = (Kept, KeptEight)
