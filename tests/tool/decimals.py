"""decimals.py: the numbers of a log are printed without printf, and as printf has them: every one that a monitor can have, and
others."""
import subprocess

from station import PATIENCE, command
from transcript import ROOT

COMPILE = """set -euo pipefail; . tools/machine.sh
compile -std=gnu11 -O2 -Wall -Wextra -Werror tests/tool/decimals.c station/decimals.c -o "$1" """


def run(folder, checks):
    program = folder / "decimals"
    subprocess.run(["bash", "-c", COMPILE, "compile", program], cwd=ROOT, check=True)
    ours, theirs = (subprocess.run(command(*words, program=program), capture_output=True, timeout=PATIENCE, check=True).stdout
                    for words in ((), ("printf",)))
    with checks.group("numbers in decimal, the shortest and with three and four decimals, are printf's") as group:
        group.same("lines", (True, theirs.count(b"\n")), (ours.count(b"\n") > 500000, ours.count(b"\n")))
        pairs = zip(ours.split(b"\n"), theirs.split(b"\n"))
        group.same("those that differ", [], [pair for pair in pairs if pair[0] != pair[1]][:3])
