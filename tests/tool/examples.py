"""examples.py: the examples of each command's --help, and those of the docs, do what they show.

A command's examples are played after `zikhrodan demo --keep trial`, each command's in a scratch folder of its own; a document's
in one scratch folder, from its beginning to its end.
"""
import re
import subprocess

from station import command
from transcript import PATIENCE, ROOT, Step, Transcript, play_all, scratch, seen

DOCUMENTS = ("README.md", "docs/OPERATOR.md", "docs/CLIENTS.md")
KEEP = Step(0, "zikhrodan demo --keep trial >kept")

# Blocks that cannot be played one command after the other, by how their first command starts.
EXEMPT = {
    "docs/CLIENTS.md": (
        "cd tests/clients && python3",  # a session that stays open in one terminal: Python's prompts, no commands of a shell
        "export LD_PRELOAD=",           # in a second terminal, and what it sets lasts from one command to the next
    ),
}


def helped(word):
    return subprocess.run(command(*word), capture_output=True, text=True, timeout=PATIENCE, check=True).stdout


def commands_of(text):
    """The commands that a help lists."""
    return re.findall(r"^  ([a-z][a-z-]*) +(?:STATE|COMMAND|FILE|LOG|\[)", text, re.M)


def all_commands():
    """Each command's words; of one that has commands of its own, these come after it."""
    names = []
    for name in commands_of(helped(["--help"])):
        names += [(name,)] + [(name, part) for part in commands_of(helped([name, "--help"]))]
    return names


def commands(folder, checks):
    names = all_commands()
    checks.same("zikhrodan --help lists ten commands, of which one has four of its own", (10, 4),
                tuple(sum(len(words) == count for words in names) for count in (1, 2)))
    for words in names:
        name = " ".join(words)
        place = scratch(folder / f"help-{'-'.join(words)}")
        checks.same(f"before the examples of {name}: {KEEP.command}", [], seen(KEEP, place))
        play_all(Transcript(helped([*words, "--help"])), place, f"zikhrodan {name} --help", checks)


def documents(folder, checks):
    for name in DOCUMENTS:
        path = ROOT / name
        transcript = Transcript(path.read_text(encoding="utf-8") if path.is_file() else "")
        exempt = []
        for start in EXEMPT.get(name, ()):
            found = [block for block in transcript.blocks if block.steps[0].command.startswith(start)]
            checks.same(f"{name}: one block is exempt that starts '{start}'", 1, len(found))
            exempt += found
        play_all(transcript, scratch(folder / path.stem), name, checks, exempt)


def run(folder, checks):
    commands(folder, checks)
    documents(folder, checks)
