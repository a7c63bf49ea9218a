#!/usr/bin/env python3
"""tool.py: the station's tool, held to document 01 and document 02, to its help and to the docs. Started by tests/tool/run.

Prints a line for each check and 'N passed, M failed'; exit status 1 if M > 0.
"""
import signal
import sys
import tempfile
from pathlib import Path

import decimals
import died
import died_bounds
import died_hours
import disk
import eight
import examples
import keys
import kills
import links
import log_costs
import log_hardships
import log_heads
import log_heads_old
import log_kills
import log_moments
import log_outputs
import log_power
import log_together
import manual
import odd_rows
import outputs
import pauses
import plain_json
import plain_words
import plainly
import report
import report_drawn
import report_hardships
import report_looks
import report_whole
import stored
import synced
import terminals
import together
import wrong_rows
from bench import Checks, settle

PARTS = {part.__name__: part for part in (manual, stored, examples, keys, plain_json, plain_words, plainly, eight, outputs, disk, synced,
                                           kills, together, pauses, links, terminals, wrong_rows, odd_rows, log_kills, log_moments,
                                           log_power, log_heads, log_heads_old, log_together, log_hardships, log_outputs, log_costs,
                                           decimals, died, died_hours, died_bounds, report, report_whole, report_drawn,
                                           report_looks, report_hardships)}


def main(names):
    unknown = [name for name in names if name not in PARTS]
    if unknown:
        print(f"tool: there is no part '{unknown[0]}': the parts are {', '.join(PARTS)}", file=sys.stderr)
        return 2
    checks = Checks()
    settle()
    signal.signal(signal.SIGTERM, lambda *_: sys.exit(2))  # so that the scratch folder goes
    with tempfile.TemporaryDirectory(prefix="tool") as folder:
        Path(folder).chmod(0o755)  # another user's commands are run in it too
        for name in names or PARTS:
            place = Path(folder) / name
            place.mkdir()
            checks.all_of(PARTS[name], place)
    print(f"{checks.passed} passed, {checks.failed} failed")
    return 1 if checks.failed else 0


if __name__ == "__main__":
    sys.exit(main(sys.argv[1:]))
