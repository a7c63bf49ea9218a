"""transcript.py: commands and what they print: read from stored transcripts, from --help and from the docs, run, and compared.

A block is a run of lines that are indented by four spaces; blank lines between them belong to it. In a block

    $ COMMAND

is run by bash, in a scratch folder, with the repository's root first on the PATH, LC_ALL=C, TZ=UTC and no terminal. The lines
after it, up to the next command or the block's end, are what it prints, standard output and standard error in their order; the
last is `[exit status N]` where N is not 0. A line `..` stands for any number of lines, also none. Of a command that ends in
" bash" the lines that start with "# " are its standard input. Blank lines before a command and at a block's end do not count.
"""
import difflib
import os
import subprocess
from pathlib import Path

ROOT = Path(__file__).resolve().parents[2]
INDENT, COMMAND, INPUT, ANY = "    ", "$ ", "# ", ".."
SHOWN, WIDE = 16, 130  # lines of a difference; columns of a check's name
PATIENCE = 900  # seconds, for what has no end otherwise: no check is of how long something takes


class Step:
    """A command, the lines of its standard input, and those that it is to print."""

    def __init__(self, number, command):
        self.number, self.command, self.input, self.output = number, command, [], []

    def take(self, line):
        if self.command.endswith(" bash") and line.startswith(INPUT):
            self.input.append(line.removeprefix(INPUT))
        else:
            self.output.append(line)

    def expected(self):
        """Its output, without the blank lines that part it from what follows."""
        lines = list(self.output)
        while lines and not lines[-1]:
            lines.pop()
        return lines


class Block:
    """The paragraph before it, and its steps."""

    def __init__(self, words, steps):
        self.words, self.steps = words, steps


class Transcript:
    """The blocks of a text that have commands, and how many indented lines belong to no command."""

    def __init__(self, text):
        self.blocks, self.loose, self.words, self.steps, self.parted = [], 0, [], None, True
        for number, line in enumerate(text.split("\n"), 1):
            if not line.strip():
                self.blank()
            elif line.startswith(INDENT):
                self.indented(number, line.removeprefix(INDENT))
            else:
                self.words, self.steps, self.parted = ([] if self.parted else self.words) + [line], None, False

    def blank(self):
        self.parted = True
        if self.steps:
            self.steps[-1].output.append("")

    def indented(self, number, line):
        if line.startswith(COMMAND):
            if self.steps is None:
                self.steps = []
                self.blocks.append(Block(" ".join(self.words), self.steps))
            self.steps.append(Step(number, line.removeprefix(COMMAND)))
        elif self.steps:
            self.steps[-1].take(line)
        else:
            self.loose += 1


def scratch(folder):
    """A new folder whose entries are links to the repository's, so that its commands run as they stand."""
    folder.mkdir()
    for entry in ROOT.iterdir():
        (folder / entry.name).symlink_to(entry)
    return folder


def environment(folder):
    """This one without what changes what a shell or a command does, and with what they are to have."""
    kept = {name: value for name, value in os.environ.items()
            if name not in ("NO_COLOR", "PYTHONPATH", "BASH_ENV", "CDPATH", "POSIXLY_CORRECT")}
    return dict(kept, LC_ALL="C", TZ="UTC", HOME=str(folder), PATH=f"{ROOT}:{kept['PATH']}")


def seen(step, folder):
    """The lines that a step prints, with its exit status."""
    done = subprocess.run(["bash", "-c", step.command], cwd=folder, env=environment(folder), stdout=subprocess.PIPE,
                          stderr=subprocess.STDOUT, input="".join(f"{line}\n" for line in step.input).encode(),
                          start_new_session=True, timeout=PATIENCE, check=False)
    lines = done.stdout.decode("latin-1").split("\n")
    if lines.pop():
        lines = done.stdout.decode("latin-1").split("\n") + ["[the last line has no end]"]
    return lines + ([f"[exit status {done.returncode}]"] if done.returncode else [])


def agree(expected, lines):
    """The lines are those expected, where `..` stands for any."""
    parts = [[]]
    for line in expected:
        if line.strip() == ANY:
            parts.append([])
        else:
            parts[-1].append(line)
    first, last = parts[0], parts[-1]
    if len(parts) == 1:
        return lines == first
    if len(lines) < len(first) + len(last) or lines[:len(first)] != first or lines[len(lines) - len(last):] != last:
        return False
    at, end = len(first), len(lines) - len(last)
    for part in parts[1:-1]:
        while at + len(part) <= end and lines[at:at + len(part)] != part:
            at += 1
        if at + len(part) > end:
            return False
        at += len(part)
    return True


def difference(step, lines):
    """The command and, below it, what differs; "" where nothing does."""
    if agree(step.expected(), lines):
        return ""
    changes = list(difflib.unified_diff(step.expected(), lines, "expected", "seen", lineterm="", n=1))[2:]
    more = [f"and {len(changes) - SHOWN} lines more"] if len(changes) > SHOWN else []
    return "\n      ".join([f"line {step.number}: {step.command}"] + changes[:SHOWN] + more)


def play(block, folder, name, checks):
    """Runs a block's commands: one check."""
    with checks.group(name) as group:
        for step in block.steps:
            group.compared += 1
            wrong = difference(step, seen(step, folder))
            if wrong:
                group.wrong.append(wrong)


def play_all(transcript, folder, name, checks, exempt=()):
    """Runs a transcript's blocks in one scratch folder, but for those that are exempt. It has to have a command."""
    with checks.group(f"{name} has commands") as group:
        group.same("blocks of commands", True, len(transcript.blocks) > len(exempt))
    for block in transcript.blocks:
        if block not in exempt:
            play(block, folder, f"{name}, line {block.steps[0].number}: {block.words}"[:WIDE], checks)
