"""counted.py: how many instructions a run of the tool takes, by valgrind. Their number is that of the work, whatever else the
machine does."""
import re
import subprocess

from station import PATIENCE, PROGRAM, settled

COUNTED = ["valgrind", "--tool=callgrind", "--callgrind-out-file=/dev/null"]


def instructions(folder, *words, status=0, **how):
    """Of a run in the folder that ends with this status."""
    how, words = settled(folder, **{"stdout": subprocess.DEVNULL, **how}), [str(PROGRAM), *map(str, words)]
    done = subprocess.run(COUNTED + words, timeout=PATIENCE, check=False, **how)
    found = re.search(rb"Collected : (\d+)", done.stderr)
    if done.returncode != status or not found:
        raise RuntimeError(f"{' '.join(words)}: status {done.returncode}, {done.stderr[-200:]}")
    return int(found.group(1))


def growths(count, sizes):
    """What each thing more takes, from one size to the next."""
    taken = [count(size) for size in sizes]
    return [(more - less) / (size - before) for less, more, before, size in zip(taken, taken[1:], sizes, sizes[1:])]


def is_even(growth):
    """The last part of a growth is not much more for each thing than the first."""
    return growth[-1] < 1.1 * growth[0] + 20
