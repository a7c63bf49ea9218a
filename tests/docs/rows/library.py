"""library.py: the library's calls from Python, through build/caller (caller.c), and the numbers that zikhrodan.h names."""
import re
import struct
import subprocess
import sys
from pathlib import Path

ROOT = Path(__file__).resolve().parents[3]
SHELL = ["bash", "-c", 'set -euo pipefail; . tools/machine.sh; "$@"', "registers"]
COMPILE = ["compile", "-std=gnu11", "-O2", "-Wall", "-Wextra", "-Werror", "-Ibuild", "tests/docs/rows/caller.c",
           "build/libzikhrodan.a", "-o", "build/caller"]
HEADER = (ROOT / "include" / "zikhrodan.h").read_text(encoding="utf-8")
NAMES = {name: int(value, 0) for name, value in re.findall(r"^    (ZIKHRODAN_\w+) = (\w+)", HEADER, re.M)}
STATE, RECORD, IMAGE, PAGE, SAMPLE, BLOCK = (
    NAMES[f"ZIKHRODAN_{of}_LEN"] for of in ("STATE", "RECORD", "IMAGE", "PAGE", "SAMPLE", "BLOCK"))
PORTS = (1, 2)
BASES = {1: NAMES["ZIKHRODAN_OPERATOR_AT"], 2: NAMES["ZIKHRODAN_RECORDER_AT"]}  # of the ports' records


class Wrong(Exception):
    """A row says something that the library does not do."""


def expect(right, words):
    if not right:
        raise Wrong(words)


def same(expected, seen, words):
    """Fails with where two differ, if they are as long."""
    if expected == seen:
        return
    if isinstance(seen, (bytes, list)) and isinstance(expected, type(seen)) and len(expected) == len(seen) > 16:
        at = next(i for i, (a, b) in enumerate(zip(expected, seen)) if a != b)
        words, expected, seen = f"{words}, at {at}", expected[at], seen[at]
    told = [one.hex() if isinstance(one, bytes) else repr(one) for one in (expected, seen)]
    raise Wrong(f"{words}: expected {told[0][:100]}, seen {told[1][:100]}")


class Caller:
    """The process that makes the calls."""

    def __init__(self):
        if subprocess.run(SHELL + COMPILE, cwd=ROOT, stdout=sys.stderr, check=False).returncode:
            sys.exit(2)
        self.calls = 0
        self.process = subprocess.Popen(SHELL + ["run", "build/caller"], cwd=ROOT, stdin=subprocess.PIPE, stdout=subprocess.PIPE,
                                        text=True)

    def make(self, call, *args):
        """The answer, and each memory as the call leaves it."""
        words = [str(one) if isinstance(one, int) else ":" + bytes(one).hex() for one in args]
        self.process.stdin.write(" ".join([call, *words]) + "\n")
        self.process.stdin.flush()
        answer, *left = self.process.stdout.readline().split()
        self.calls += 1
        return int(answer), [bytes.fromhex(one[1:]) for one in left]

    def end(self):
        self.process.stdin.close()
        return self.process.wait()


caller = Caller()


def byte(answer, number):
    return answer >> 8 * number & 0xFF


# ---- calls that change memory: the answer, and what is left; what is lent to be read stays

def lent(call, memory, other, *numbers):
    answer, (left, kept) = caller.make(call, memory, *numbers, other)
    same(bytes(other), kept, f"{call} changes what it is lent to read")
    return answer, left


def reset(state, image):
    return lent("reset", state, image)


def sample(state, values):
    return lent("sample", state, values)


def write(state, port, address, *values):
    return lent("write", state, bytes(values), port, address)


def read(state, port, address, count=1):
    """And the output memory."""
    answer, (state, out) = caller.make("read", state, port, address, count, bytes(count))
    return answer, state, out


def log_add(log, used, values):
    return lent("log_add", log, values, used)


def log_power_up(log, used):
    answer, (log,) = caller.make("log_power_up", log, used)
    return answer, log


def accepted(done):
    """What an accepted call leaves."""
    same(0, byte(done[0], 0), "the call is refused")
    return done[1]


# ---- calls that change nothing: the answer

def asks(call, *args):
    answer, left = caller.make(call, *args)
    same([bytes(one) for one in args if not isinstance(one, int)], left, f"{call} changes memory")
    return answer


def double(call, *args):
    return struct.unpack("<d", struct.pack("<Q", asks(call, *args)))[0]


def flags_of(state, port):
    """Flag bytes 3 to 14, by their address, as a read shows them."""
    answer, _, out = read(state, port, 3, 12)
    same(0, byte(answer, 0), "a read of flags is refused")
    return dict(enumerate(out, 3))
