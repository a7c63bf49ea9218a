"""died_bounds.py: an hour that `zikhrodan died` tells is a bound: lit in the sample before, dark in this one; or later, after a
power-up, and while the station was off or after, where one is seen between the two."""
import logs
from deaths import sample
from died_hours import put, within
from station import zikhrodan

BLOCKS = [logs.block(1, [sample(0), sample(), sample()]), logs.block(2, [sample(7), sample(2)]), logs.block(3, [sample(3)])]
ASKED = ("--period", "60", "--start", "2026-11-15T08:00")
SAID = {"rx3": ("Rx3 loss of signal: receive lane 3 lost light at position 4, in block 2; the log has 6 samples\n"
                "lit in the sample before, at 2026-11-15T08:03:00+01:00, in UTC 2026-11-15T07:03:00Z, or later;\n"
                "dark in this one, at 2026-11-15T08:04:00+01:00, in UTC 2026-11-15T07:04:00Z, or later\n"
                "before the log began it may have been dark too\n"
                "1 power-up is seen before it, just before position 3: nobody knows how long the station was off\n"),
        "rx4": ("Rx4 loss of signal: receive lane 4 lost light at position 5, in block 3; the log has 6 samples\n"
                "lit in the sample before, at 2026-11-15T08:04:00+01:00, in UTC 2026-11-15T07:04:00Z, or later;\n"
                "dark in this one, at 2026-11-15T08:05:00+01:00, in UTC 2026-11-15T07:05:00Z, or later\n"
                "before the log began it may have been dark too\n"
                "that came while the station was off or after: a power-up is seen between the two\n"
                "2 power-ups are seen before it, the last just before position 5: nobody knows how long the station was "
                "off\n"),
        "tx4": ("Tx4 loss of signal: transmit lane 4 lost signal at position 3, in block 2; the log has 6 samples\n"
                "with a signal in the sample before, at 2026-11-15T08:02:00+01:00, in UTC 2026-11-15T07:02:00Z;\n"
                "without a signal in this one, at 2026-11-15T08:03:00+01:00, in UTC 2026-11-15T07:03:00Z, or later\n"
                "before the log began it may have been without a signal too\n"
                "that came while the station was off or after: a power-up is seen between the two\n"
                "1 power-up is seen before it, just before position 3: nobody knows how long the station was off\n"),
        "rx1": ("Rx1 loss of signal: receive lane 1 lost light at position 0, in block 1, or before the log began; "
                "the log has 6 samples\n"
                "dark in the log's first sample, at 2026-11-15T08:00:00+01:00, in UTC 2026-11-15T07:00:00Z\n"),
        "tx1": "Tx1 loss of signal: not in any of the 6 samples\n"}
TABLE = [
    "ups.log: 6 samples in 3 of 3 blocks",
    "2 power-ups are seen, the last just before position 5: nobody knows how long the station was off",
    "3 of 4 receive lanes lost light; 1 of 4 transmit lanes lost signal",
    "before the log began a lane may have been dark, or at fault, too",
    "position 0: it was so in the log's first sample already", "",
    "line       name                    position      block  power-ups before  0 in the sample before     1 in this one",
    "rx1        Rx1 loss of signal             0          1                 0  -                          "
    "2026-11-15T08:00:00+01:00",
    "rx2        Rx2 loss of signal             -          -                 -  -                          -",
    "rx3        Rx3 loss of signal             4          2                 1  2026-11-15T08:03:00+01:00  "
    "2026-11-15T08:04:00+01:00  or later",
    "rx4        Rx4 loss of signal             5          3                 2  2026-11-15T08:04:00+01:00  "
    "2026-11-15T08:05:00+01:00  or later, while the station was off or after"]


def run(folder, checks):
    put(folder)
    with checks.group("--period and --start go together; with a power-up before it, an hour is that or later") as group:
        for words in (("--period", "60"), ("--start", "2026-11-15T08:00")):
            group.same(words, (2, "", "zikhrodan: --period and --start go together: the hour of a sample needs both\n"),
                       zikhrodan(folder, "died", "kept.log", *words))
        (folder / "ups.log").write_bytes(logs.file_of(3, BLOCKS))
        for line, text in SAID.items():
            group.same(line, (0, text, ""), zikhrodan(folder, "died", "ups.log", line, *ASKED, **within(folder, "Europe/Oslo")))
        rows = zikhrodan(folder, "died", "ups.log", *ASKED, **within(folder, "Europe/Oslo"))[1].split("\n")
        group.same("the table", TABLE, rows[:len(TABLE)])
