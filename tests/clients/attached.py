#!/usr/bin/env python3
"""attached.py: runs a command with a module at hand, and ends with its exit status. Started by tests/clients/try."""
import contextlib
import fcntl
import os
import signal
import subprocess
import sys
import tempfile
from pathlib import Path

from bench import EIGHT_LEN, Module
from feed import sample

USAGE = ("usage: tests/clients/try [-s SAMPLE | -f STATE] COMMAND .., with a SAMPLE of 31 bytes in hex, a STATE of 688 bytes; "
         "of an eight-channel module 14 and 98")
SAMPLES = {31: 688, 14: EIGHT_LEN}  # a sample's length, and that of the state of the module that takes it


@contextlib.contextmanager
def fed(module, given):
    """The factory image, or an eight-channel module without one, and a sample."""
    module.lend(bytes(SAMPLES[len(given)]))
    module.reset()
    module.sample(given)
    yield


def replace(path, state):
    """Writes the state beside the file, synced, with its rights, and its group and owner if that may be, and renames it."""
    old, beside = path.stat(), path.with_name(f"{path.name}.{os.getpid()}")
    with open(beside, "wb") as file:
        file.write(state)
        file.flush()
        for owner, group in ((-1, old.st_gid), (old.st_uid, -1)):
            with contextlib.suppress(PermissionError):
                os.fchown(file.fileno(), owner, group)
        os.fchmod(file.fileno(), old.st_mode & 0o7777)
        os.fsync(file.fileno())
    beside.replace(path)


@contextlib.contextmanager
def lent(module, path):
    """A state's file, with its folder locked, as the station's tool locks it; at the end it is replaced."""
    path = path.resolve()
    with contextlib.ExitStack() as held:
        folder = os.open(path.parent, os.O_RDONLY)
        held.callback(os.close, folder)
        fcntl.flock(folder, fcntl.LOCK_EX)
        module.lend(path.read_bytes())
        yield
        replace(path, module.look())


def parsed(words):
    """What the module begins with, and the command; or nothing."""
    begins, given = fed, sample()
    if words[:1] == ["-s"] and len(words) > 1:
        try:
            given = bytes.fromhex(words[1])
        except ValueError:
            given = b""
        words = words[2:]
    elif words[:1] == ["-f"] and len(words) > 1:
        begins, given, words = lent, Path(words[1]), words[2:]
    if not words or words[0].startswith("-") or (begins == fed and len(given) not in SAMPLES):
        return None
    return begins, given, words


def main(words):
    asked = parsed(words)
    if not asked:
        print(USAGE, file=sys.stderr)
        return 2
    begins, given, words = asked
    if begins == lent and not (given.is_file() and os.access(given, os.R_OK) and given.stat().st_size in SAMPLES.values()):
        print(f"try: {given} is no file of 688 bytes, or of 98, that can be read", file=sys.stderr)
        return 2
    signal.signal(signal.SIGTERM, lambda *_: sys.exit(2))  # so that the module and its folder go
    with tempfile.TemporaryDirectory(prefix="clients") as folder:
        module = Module(Path(folder) / "module")
        try:
            with begins(module, given):
                return subprocess.run(words, env=module.setting(), check=False).returncode
        except OSError as error:
            print(f"try: {error.filename or words[0]}: {error.strerror}", file=sys.stderr)
            return 2
        finally:
            module.end()


if __name__ == "__main__":
    sys.exit(main(sys.argv[1:]))
