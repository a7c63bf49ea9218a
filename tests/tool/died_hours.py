"""died_hours.py: the hours that `zikhrodan died` tells, beside Python's: zones, summer time, leap years, fractions; and which
times and periods it does not take."""
import json
from datetime import datetime, timedelta, timezone
from decimal import Decimal
from shutil import copyfile
from zoneinfo import ZoneInfo

import logs
from deaths import LINES, sample
from station import zikhrodan
from transcript import environment

ZONES = ("Europe/Oslo", "UTC", "Asia/Kolkata", "America/St_Johns", "Australia/Lord_Howe", "Pacific/Kiritimati")
MINUTE = timedelta(minutes=1)


def within(folder, zone):
    return {"env": dict(environment(folder), TZ=zone)}


def put(folder):
    """A log in which line N dies at position N, and each later sample has the line too."""
    path = folder / "kept.log"
    path.write_bytes(logs.file_of(3, logs.blocks_of([sample(*range(at + 1)) for at in range(LINES)])))


def moments(folder, zone, start, period):
    """The hours of the first 24 positions, as --json has them."""
    status, text, complaint = zikhrodan(folder, "died", "kept.log", "--json", "--period", period, "--start", start,
                                        **within(folder, zone))
    if status != 0:
        return status, complaint
    lines = json.loads(text)["lines"]
    lit = [(line["lit_at_local"], line["lit_at"]) for line in lines]
    dark = [(line["dark_at_local"], line["dark_at"]) for line in lines]
    return dark if lit == [(None, None)] + dark[:-1] else ("the hours of the samples before", lit)  # line N dies at position N


def written(instant, fraction):
    """A time of whole seconds, with the digits of its fraction, after ISO 8601."""
    text = instant.isoformat()
    zone = "Z" if instant.tzinfo is timezone.utc else text[19:]
    return text[:19] + (f".{fraction:09d}".rstrip("0") if fraction else "") + zone


def on_paper(zone, start, period):
    """The same by Python; `start` is a time with a zone."""
    begun, step = start.astimezone(timezone.utc), int(Decimal(period) * 10 ** 9)
    hours = []
    for position in range(LINES):
        whole, fraction = divmod(position * step, 10 ** 9)
        instant = begun + timedelta(seconds=whole)
        hours.append((written(instant.astimezone(ZoneInfo(zone)), fraction), written(instant, fraction)))
    return hours


def local(zone, text, fold=0):
    return datetime.fromisoformat(text).replace(tzinfo=ZoneInfo(zone), fold=fold)


def zones(folder, checks):
    with checks.group("the hours of 24 positions, in local time and in UTC, in six zones") as group:
        for zone in ZONES:
            for text in ("2026-11-15T00:00", "2026-07-01T23:59:59", "1999-12-31T12:00", "2026-03-28T20:00", "2026-10-24T20:00"):
                for period in ("60", "3600", "86400", "0.5", "0.000000001", "31.25", "2629746", "59.999999999", "0060"):
                    group.same(f"{zone}, {text}, {period}", on_paper(zone, local(zone, text), period),
                               moments(folder, zone, text, period))
    with checks.group("a start with Z or an offset is the same instant in every zone") as group:
        for zone in ZONES:
            for text in ("2026-11-15T07:00Z", "2026-11-15T08:00:30+01:00", "2026-11-15 12:30+05:30", "2026-11-14t22:00-09:30",
                         "2026-10-25T02:30+02:00", "2026-10-25T02:30+01:00", "2026-03-29T02:30+00:00", "2026-11-15T00:00:00z",
                         "2026-11-15T23:59-23:59", "2024-02-29T00:00+23:59"):
                start = datetime.fromisoformat(text.upper().replace("Z", "+00:00"))
                group.same(f"{zone}, {text}", on_paper(zone, start, "600"), moments(folder, zone, text, "600"))
    with checks.group("with an empty TZ local time is UTC") as group:
        group.same("TZ=", on_paper("UTC", local("UTC", "2026-11-15T08:00"), "60"), moments(folder, "", "2026-11-15T08:00", "60"))


def unknown(folder, checks):
    with checks.group("a zone that is not known is an error where hours are asked for, and only there") as group:
        asked = ("died", "kept.log", "rx1", "--period", "60", "--start", "2026-11-15T08:00Z")
        for zone in ("Europe/Olso", "CET/", "nowhere", ":nowhere", "Europe", "/usr/share/zoneinfo", "/no/zone", " ", ":/", "utc"):
            group.same(zone, (2, "", f"zikhrodan: the zone TZ '{zone}' is not known here\n"),
                       zikhrodan(folder, *asked, **within(folder, zone)))
            group.same(f"{zone}, no hours", (0, ""), zikhrodan(folder, *asked[:3], **within(folder, zone))[::2])
        hours = {"UTC": "08:00:00+00:00", "GMT": "08:00:00+00:00", ":UTC": "08:00:00+00:00", "CET-1CEST": "09:00:00+01:00",
                 "<+0530>-5:30": "13:30:00+05:30", ":Europe/Oslo": "09:00:00+01:00", ":": "08:00:00+00:00",
                 "/usr/share/zoneinfo/Europe/Oslo": "09:00:00+01:00", "CET": "09:00:00+01:00"}
        for zone, hour in hours.items():
            status, text, complaint = zikhrodan(folder, *asked, **within(folder, zone))
            said = f"dark in the log's first sample, at 2026-11-15T{hour}, in UTC 2026-11-15T08:00:00Z\n"
            group.same(zone, (0, True, ""), (status, said in text, complaint))
        (folder / "zones").mkdir()
        copyfile("/usr/share/zoneinfo/Asia/Kolkata", folder / "zones" / "Station")
        for zone, wanted in (("Station", 0), ("Europe/Oslo", 2)):
            own = {"env": dict(within(folder, zone)["env"], TZDIR=str(folder / "zones"))}
            seen = zikhrodan(folder, *asked, **own)
            group.same(f"TZDIR, {zone}", (wanted, wanted == 0), (seen[0], "13:30:00+05:30" in seen[1]))
        report = zikhrodan(folder, "report", "kept.log", "-o", "page.html", *asked[3:], **within(folder, "nowhere"))
        group.same("report", (2, "", "zikhrodan: the zone TZ 'nowhere' is not known here\n"), report)


def why_not(starts):
    """Why a local time is not taken that is that of none, or of two instants."""
    if not starts:
        return "is skipped by the clocks here, which are set forward over it: say it with Z or an offset"
    offsets = " or ".join(starts[at].isoformat()[19:] for at in sorted(starts))
    return f"comes twice by the clocks here, which are set back over it: say it with {offsets} at its end"


def changes(folder, checks):
    """Each quarter of an hour of days on which clocks are set: it is taken, or is skipped, or comes twice."""
    with checks.group("a local time that the clocks skip or have twice is not taken; any other one is") as group:
        seen = {"once": 0, "skipped": 0, "twice": 0}
        for zone, days in (("Europe/Oslo", ("2026-03-29T01:45", "2026-10-25T01:45")),
                           ("Australia/Lord_Howe", ("2026-10-04T01:45", "2027-04-04T01:15")),
                           ("Europe/Moscow", ("2014-10-26T00:45", "2011-03-27T01:45")),
                           ("Pacific/Apia", ("2011-12-29T23:45", "2011-12-30T12:00", "2011-12-30T23:00"))):
            for first in days:
                for quarter in range(7):
                    naive = datetime.fromisoformat(first) + 15 * quarter * MINUTE
                    text = naive.isoformat(timespec="minutes")
                    starts = {start.astimezone(timezone.utc): start for fold in (1, 0)
                              for start in [local(zone, text, fold)]
                              if start.astimezone(timezone.utc).astimezone(ZoneInfo(zone)).replace(tzinfo=None) == naive}
                    hours = moments(folder, zone, text, "60")
                    if len(starts) == 1:
                        seen["once"] += 1
                        group.same(f"{zone}, {text}", on_paper(zone, *starts.values(), "60"), hours)
                        continue
                    seen["twice" if starts else "skipped"] += 1
                    group.same(f"{zone}, {text}", (2, f"zikhrodan: the start '{text}' {why_not(starts)}\n"), hours)
        group.same("each kind is there", {"once": True, "skipped": True, "twice": True},
                   {kind: number >= 6 for kind, number in seen.items()})


def days(folder, checks):
    with checks.group("29 February is in leap years alone; days and hours that there are not are not taken") as group:
        oslo = "Europe/Oslo"
        for text in ("2024-02-29T12:00", "2000-02-29T12:00", "2028-02-28T23:50", "2026-12-31T23:59", "2096-02-29T00:00"):
            group.same(text, on_paper(oslo, local(oslo, text), "60"), moments(folder, oslo, text, "60"))
        for text in ("2023-02-29T12:00", "2100-02-29T12:00", "2026-02-30T00:00", "2026-04-31T00:00", "2026-00-10T00:00",
                     "2026-13-10T00:00", "2026-11-00T00:00", "2026-11-15T24:00", "2026-11-15T25:00", "2026-11-15T08:60",
                     "2026-11-15T08:00:60", "2026-11-15T23:59:60Z", "2026-02-30T00:00+01:00"):
            group.same(text, (2, f"zikhrodan: the start '{text}' is a day or an hour that there is not\n"),
                       moments(folder, oslo, text, "60"))
    with checks.group("what is no time, or no period, is not taken: one line, status 2") as group:
        form = "is no time such as 2026-11-15T08:00, 2026-11-15T08:00:30+01:00 or 2026-11-15T07:00Z, from 1970 on"
        for text in ("", "now", "2026-11-15", "08:00", "2026-11-15T8:00", "2026-11-15T08", "2026-11-15T0800", "20261115T08:00",
                     "2026-11-15T08:00+1:00", "2026-11-15T08:00+01", "2026-11-15T08:00+0100", "2026-11-15T08:00+24:00",
                     "2026-11-15T08:00+01:60", "2026-11-15T08:00ZZ", "2026-11-15T08:00Z+01:00", "2026-11-15T08:00:00.5",
                     "2026-11-15T08:00 ", " 2026-11-15T08:00", "2026-11-15T08:00:", "-2026-11-15T08:00", "1969-12-31T23:59",
                     "12026-11-15T08:00", "2026-11-15T08:00:0", "2026-11-15_08:00", "0000-01-01T00:00Z"):
            group.same(f"start '{text}'", (2, f"zikhrodan: the start '{text}' {form}\n"), moments(folder, "UTC", text, "60"))
        form = "is no number of seconds above 0, such as 60 or 0.5, of 1000000000 and nine decimals at most"
        for text in ("", "0", "0.0", "0.000000000", "-60", "+60", "60s", "1e3", "0x3c", ".5", "60.", "1.0000000001", "1 ", "1,5",
                     "1000000001", "18446744073709551676", "99999999999999999999999", "nan", "inf", "6.0.1"):
            group.same(f"period '{text}'", (2, f"zikhrodan: the period '{text}' {form}\n"),
                       moments(folder, "UTC", "2026-11-15T08:00", text))


def ends(folder, checks):
    with checks.group("an hour past the year 9999, in local time or in UTC, is an error, and nothing is told") as group:
        past = "is past the year 9999\n"
        for zone, start, period, position in (
                ("UTC", "2026-11-15T08:00", "1000000000", None), ("UTC", "9999-12-31T23:59", "1", None),
                ("UTC", "9999-12-31T23:59", "60", 1), ("UTC", "9999-12-31T23:59:59Z", "0.999999999", 2),
                ("UTC", "9999-12-31T23:59:59-00:01", "1", 0), ("Asia/Kolkata", "9999-12-31T18:29:59Z", "1", 1),
                ("America/St_Johns", "9999-12-31T23:59:59Z", "1", 1), ("UTC", "9990-01-01T00:00", "1000000000", 1)):
            hours = moments(folder, zone, start, period)
            if position is None:
                group.same(f"{zone}, {start}, {period}", on_paper(zone, local(zone, start), period), hours)
            else:
                group.same(f"{zone}, {start}, {period}", (2, f"zikhrodan: the hour of position {position} {past}"), hours)


def run(folder, checks):
    put(folder)
    for part in (zones, unknown, changes, days, ends):
        part(folder, checks)
