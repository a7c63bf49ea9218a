"""bench.py: the module's process, the tools under the shim, and the counting of checks."""
import os
import signal
import socket
import struct
import subprocess
import sys
from pathlib import Path

from paper import Paper
from paper_eight import Eight

ROOT = Path(__file__).resolve().parents[2]
SHIM = ROOT / "build" / "clients-shim.so"
START = ["bash", "-c", 'set -euo pipefail; . tools/machine.sh; run "$@"', "clients-module", "build/clients-module"]
IMAGE = bytes.fromhex((ROOT / "data" / "factory-image.hex").read_text(encoding="ascii"))
DEVICES = {1: "operator", 2: "recorder"}
WAYS = ("netlink", "ioctl")
RESET, SAMPLE, READ, WRITE, LOOK, LEND = range(1, 7)  # wire.h
PATIENCE = 900  # seconds, for what has no end otherwise
EIGHT_LEN = 98  # the bytes of an eight-channel module's state
REQUEST, ANSWER = struct.Struct("<4I688s"), struct.Struct("<2I688s")


class Module:
    """The module's process, and beside it the same module on paper."""

    def __init__(self, path, **setting):
        self.path, self.paper = str(path), Paper()
        self.process = subprocess.Popen(START + [self.path], cwd=ROOT, env=dict(os.environ, **setting), stdin=subprocess.PIPE,
                                        stdout=subprocess.PIPE)
        if self.process.stdout.readline() != b"listening\n":
            self.end()
            print("clients: the module's process does not start", file=sys.stderr)
            sys.exit(2)

    def end(self):
        """Ends the process by ending its standard input; gives its exit status."""
        self.process.stdin.close()
        self.process.stdout.close()
        return self.process.wait(timeout=PATIENCE)

    def ask(self, kind, port=0, address=0, data=b"", count=None):
        """One request: the packed answer and the bytes."""
        with socket.socket(socket.AF_UNIX, socket.SOCK_SEQPACKET) as way:
            for limit in (socket.SO_RCVTIMEO, socket.SO_SNDTIMEO):  # settimeout would refuse to wait where connections queue
                way.setsockopt(socket.SOL_SOCKET, limit, struct.pack("@2l", PATIENCE, 0))  # a struct timeval
            way.connect(self.path)
            way.send(REQUEST.pack(kind, port, address, len(data) if count is None else count, data))
            packed, length, run = ANSWER.unpack(way.recv(ANSWER.size + 1))
        return packed, run[:length]

    def reset(self, image=IMAGE):
        """Resets both; gives both refusals. An eight-channel module takes no image, and looks at none."""
        return self.ask(RESET, data=image)[0] & 0xFF, self.paper.reset(image)

    def sample(self, sample):
        return self.ask(SAMPLE, data=sample)[0] & 0xFF, self.paper.sample(sample)

    def look(self):
        """The bytes of the state."""
        return self.ask(LOOK)[1]

    def refusal(self):
        """The refusal number of the last call."""
        return self.ask(LOOK)[0] & 0xFF

    def lend(self, state):
        """A state in place of the module's; its length says which kind it is from now on."""
        self.ask(LEND, data=bytes(state))
        if len(state) != len(self.paper.state):
            self.paper = Eight() if len(state) == EIGHT_LEN else Paper()
        self.paper.state[:] = state

    def agrees(self):
        """The bytes of the state are those on paper."""
        return self.look() == bytes(self.paper.state)

    def setting(self, way="netlink", path=None, shim=SHIM, **more):
        """The environment of a tool on the module."""
        return dict(os.environ, LD_PRELOAD=str(shim), ZIKHRODAN_MODULE=self.path if path is None else str(path),
                    ZIKHRODAN_NETLINK="yes" if way == "netlink" else "no", **more)

    def run(self, *words, user=None, **changes):
        """Runs a tool on the module: its exit status, and what it printed and complained, as text of single bytes."""
        done = subprocess.run([str(word) for word in words], cwd="/", env=dict(self.setting(**changes), LC_ALL="C"),
                              stdin=subprocess.DEVNULL, capture_output=True, timeout=PATIENCE, user=user, check=False)
        return done.returncode, done.stdout.decode("latin-1"), done.stderr.decode("latin-1")


def difference(expected, seen):
    """What differs, in words; of two runs of bytes the places where they do."""
    if isinstance(expected, bytes) and isinstance(seen, bytes) and len(expected) == len(seen):
        places = [(at, *pair) for at, pair in enumerate(zip(expected, seen)) if pair[0] != pair[1]]
        return ", ".join(f"at {at} expected {one:02X}, seen {other:02X}" for at, one, other in places[:8])
    return f"expected {expected!r}, seen {seen!r}"


def settle():
    """What a shell hands on is not handed on: signals that are ignored under nohup or in the background of a script, or that are
    blocked, and the umask. Who ignores a signal here still does, by a handler, which what is started does not have."""
    for number in (signal.SIGHUP, signal.SIGINT, signal.SIGQUIT):
        if signal.getsignal(number) == signal.SIG_IGN:
            signal.signal(number, lambda *_: None)
    signal.signal(signal.SIGCHLD, signal.SIG_DFL)
    signal.pthread_sigmask(signal.SIG_SETMASK, [])
    os.umask(0o022)


class Checks:
    """Counts the checks; each is a line."""

    def __init__(self):
        self.passed = self.failed = 0

    def group(self, name):
        return Group(self, name)

    def all_of(self, part, module):
        """A part's checks; where it breaks off, that is a check that failed."""
        try:
            part.run(module, self)
        except (OSError, RuntimeError, struct.error, subprocess.SubprocessError) as error:
            self.failed += 1
            print(f"FAILED {part.__name__} breaks off: {error}")

    def same(self, name, expected, seen):
        with self.group(name) as group:
            group.same("", expected, seen)


class Group:
    """Comparisons that make one check: it holds if there was one at least, and all held."""

    def __init__(self, checks, name):
        self.checks, self.name, self.compared, self.wrong = checks, name, 0, []

    def same(self, what, expected, seen):
        self.compared += 1
        if expected != seen:
            self.wrong.append(f"{what}: {difference(expected, seen)}" if what else difference(expected, seen))

    def among(self, what, texts, seen):
        """One of the texts is seen."""
        self.same(what, texts, texts if seen in texts else {seen})

    def __enter__(self):
        return self

    def __exit__(self, kind, error, trace):
        if kind is not None:
            self.wrong.append(f"breaks off, {kind.__name__}: {error}")
        right = self.compared > 0 and not self.wrong
        self.checks.passed += right
        self.checks.failed += not right
        number = f" ({self.compared} compared)" if self.compared > 1 else ""
        print(f"{'ok' if right else 'FAILED'} {self.name}{number}")
        for line in (self.wrong or ["nothing was compared"])[:5] if not right else ():
            print(f"    {line}")
        return kind is not None and issubclass(kind, Exception)
