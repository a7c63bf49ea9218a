"""terminals.py: on a terminal there are colours and, for a long input, how far it is, and whom a command waits for; in a pipe
there is none of it."""
import fcntl
import os
import pty
import re
import select
import signal
import subprocess
import time

import logs
from station import CALM, LOSS, PATIENCE, Kept, KeptEight, command, settled, start, wait_in_turn, waits
from transcript import environment

COLOUR = re.compile("\33\\[[0-9;]*m")


class Terminal:
    """A command whose standard output, error or input, as named, is a terminal; the others are pipes."""

    def __init__(self, folder, *words, on=("stdout",), setting=None, **how):
        self.master, slave = pty.openpty()
        how = {"env": {**environment(folder), "TERM": "xterm", **(setting or {})}, **how, **dict.fromkeys(on, slave)}
        self.process = subprocess.Popen(command(*words), start_new_session=True, **settled(folder, **how))
        os.close(slave)

    def shown(self):
        """What comes on the terminal, with its line ends as a program writes them. A process that does not end is killed."""
        text, part = b"", b"-"
        while part:
            if not select.select([self.master], [], [], PATIENCE)[0]:
                os.killpg(self.process.pid, signal.SIGKILL)
            try:
                part = os.read(self.master, 65536)
            except OSError:  # the last one at the other end is gone
                part = b""
            text += part
        return text.decode("latin-1").replace("\r\n", "\n")

    def end(self):
        """The exit status, what came on the terminal, in the pipe of standard output and in that of standard error."""
        if self.process.stdin:
            self.process.stdin.close()
        shown = self.shown()
        self.process.wait(timeout=PATIENCE)
        piped = [way.read().decode("latin-1") if way else "" for way in (self.process.stdout, self.process.stderr)]
        os.close(self.master)
        return self.process.returncode, shown, *piped


def with_log(kept):
    """The state, and beside it a log that has its sample."""
    (kept.folder / "loss.log").write_bytes(logs.file_of(1, logs.blocks_of([LOSS])))
    return kept


FOUR_TOLD = (("demo",), ("read", "module.state", "recorder", 2, 1), ("watch", "module.state", "loss.rows"),
             ("show", "module.state"), ("show", "module.state", "--hex"), ("log", "show", "loss.log"), ("died", "loss.log"),
             ("died", "loss.log", "rx2"))
EIGHT_TOLD = (("demo", "--eight"), ("read", "module.state", "recorder", 2, 1), ("watch", "module.state", "both.rows"),
              ("show", "module.state"), ("show", "module.state", "--all"), ("show", "module.state", "--hex"))


def coloured(kept, words, checks):
    with checks.group(f"{kept.called}{words[0]}: colours on a terminal; none with NO_COLOR, unless it is empty, TERM=dumb, in a pipe") \
            as group:
        kept.put()
        plain = subprocess.run(command(*words), check=True, **settled(kept.folder)).stdout.decode()
        group.same("in a pipe", False, "\33" in plain)
        kept.put()
        shown = Terminal(kept.folder, *words).end()[1]
        group.same("on a terminal", True, COLOUR.search(shown) is not None)
        group.same("but for the colours the same text", plain, COLOUR.sub("", shown))
        kept.put()
        group.same("an empty NO_COLOR", shown, Terminal(kept.folder, *words, setting={"NO_COLOR": ""}).end()[1])
        for setting in ({"NO_COLOR": "1"}, {"TERM": "dumb"}):
            kept.put()
            group.same(setting, (0, plain), Terminal(kept.folder, *words, setting=setting).end()[:2])
        kept.put()
        group.same("with standard error alone on a terminal", plain, Terminal(kept.folder, *words, on=("stderr",)).end()[2])


def colours(folder, checks):
    for kept, told in ((with_log(Kept(folder / "colours")), FOUR_TOLD), (KeptEight(folder / "eight"), EIGHT_TOLD)):
        for words in told:
            coloured(kept, words, checks)


def slowly(kept, terminal, rows):
    """Gives a row when the one before is in the state, and a while has passed: with all of them more than a second."""
    for row in rows:
        file = kept.path.stat().st_ino
        terminal.process.stdin.write(row)
        waits(lambda file=file: kept.path.stat().st_ino != file)
        time.sleep(0.2)


def on_screen(text):
    """The lines that a terminal shows in the end: a return goes to a line's beginning, and what comes is written over it."""
    lines = []
    for line in text.split("\n"):
        screen = ""
        for part in COLOUR.sub("", line).split("\r"):
            screen = part + screen[len(part):]
        lines.append(screen.rstrip())
    return lines


def progress(folder, checks):
    kept = Kept(folder / "progress")
    rows = [CALM] * 8
    with checks.group("how far a long input is, on standard error where that is a terminal, and nowhere else") as group:
        terminal = Terminal(kept.folder, "sample", "module.state", "-", on=("stderr",), stdin=subprocess.PIPE, bufsize=0)
        slowly(kept, terminal, rows)
        status, shown, said, _ = terminal.end()
        group.same("shown", True, re.search(r"\r\d+ rows", shown) is not None)
        group.same("wiped at the end", [""], on_screen(shown))
        group.same("said", (0, "8 rows taken\n"), (status, said[:13]))
        terminal = Terminal(kept.folder, "sample", "module.state", "-", on=("stdout",), stdin=subprocess.PIPE, bufsize=0)
        slowly(kept, terminal, rows)
        status, shown, _, complaint = terminal.end()
        group.same("with standard output alone on a terminal", (0, False, ""), (status, "\r" in shown, complaint))
    with checks.group("how far it is stands in no other line: not before an error, nor before what watch tells") as group:
        for name in ("sample", "watch"):
            kept.put()
            kept.run("read", "operator", 3, 12)  # so that flags can rise
            terminal = Terminal(kept.folder, name, "module.state", "-", on=("stdout", "stderr"), stdin=subprocess.PIPE, bufsize=0)
            slowly(kept, terminal, rows + [LOSS])
            terminal.process.stdin.write(b"short")
            lines = on_screen(terminal.end()[1])
            told = [line for line in lines if re.search(r"zikhrodan: |standard input row|rows taken", line)]
            begun = [line for line in told if re.match(r"zikhrodan: |standard input row|\d+ rows taken", line)]
            group.same(f"{name}: lines are told", True, len(told) >= 2)
            group.same(f"{name}: each begins its line", told, begun)


def waiting(folder, checks):
    with checks.group("a command that waits for another says so to a person") as group:
        kept = Kept(folder / "waiting")
        lock = os.open(kept.folder, os.O_RDONLY)
        fcntl.flock(lock, fcntl.LOCK_EX)
        terminal = Terminal(kept.folder, "write", "module.state", "operator", 100, 1, on=("stderr",))
        other = start(kept.folder, "write", "module.state", "operator", 101, 1)
        group.same("they wait", True, wait_in_turn(terminal.process, other))
        os.close(lock)
        group.same("on a terminal", "zikhrodan: module.state: waiting for another command in its folder\n", terminal.end()[1])
        group.same("in a pipe", b"", other.communicate(timeout=PATIENCE)[1])


def typed(folder, checks):
    with checks.group("rows from a terminal are refused in words, status 2, and nothing is changed") as group:
        kept = with_log(Kept(folder / "typed"))
        for words in (("sample", "module.state"), ("watch", "module.state", "-"), ("sample", "module.state", "loss.rows", "-"),
                      ("log", "add", "loss.log"), ("sample", "--log", "loss.log", "module.state", "-")):
            terminal = Terminal(kept.folder, *words, on=("stdin",))
            status, _, said, complaint = terminal.end()
            group.same(words, (2, "", "zikhrodan: standard input is a terminal: name a file of rows, or pipe rows in\n"),
                       (status, said, complaint))
            group.same(f"{words}: the 688 bytes", True, kept.agrees())
            group.same(f"{words}: the log", [LOSS], logs.samples_of(kept.folder / "loss.log"))


def run(folder, checks):
    colours(folder, checks)
    progress(folder, checks)
    waiting(folder, checks)
    typed(folder, checks)
