#!/usr/bin/env python3
"""clients.py: unmodified ethtool and i2c-tools read the module, held to document 01. Started by tests/clients/run.

Prints a line for each check and 'N passed, M failed'; exit status 1 if M > 0.
"""
import signal
import sys
import tempfile
from pathlib import Path

import absences
import departures
import history
import with_dumps
import with_eight
import with_ethtool
import with_i2c
import with_registers
from bench import Checks, Module, settle


def main():
    checks = Checks()
    settle()
    signal.signal(signal.SIGTERM, lambda *_: sys.exit(2))  # so that the module and its folder go
    with tempfile.TemporaryDirectory(prefix="clients") as folder:
        module = Module(Path(folder) / "module")
        try:
            for part in (with_ethtool, with_dumps, with_i2c, with_registers, history, departures, absences, with_eight):
                checks.all_of(part, module)
        finally:
            module.end()
    print(f"{checks.passed} passed, {checks.failed} failed")
    return 1 if checks.failed else 0


if __name__ == "__main__":
    sys.exit(main())
