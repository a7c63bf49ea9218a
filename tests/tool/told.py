"""told.py: what `zikhrodan report` is to say of a log, by a plain reading of every sample."""
from datetime import datetime, timedelta, timezone
from itertools import groupby

import logs
from deaths import LANES, LINES, LOST, NAMES, NOTHING_LOST, has, power_ups, summary

LISTED = 300
NAMED = 4
# The built-in module's limits of light, Rx and Tx, from the highest down.
FACTORY = ("3.5481", "2.8184", "0.0501", "0.0251", "3.9811", "3.1623", "0.2512", "0.1995")
LEVELS = [(f"{side} power {channel}", first + 2 * channel) for side, first in (("Rx", 5), ("Tx", 21)) for channel in range(1, 5)]


def runs(samples, bit):
    """A line's dark stretches: the positions of their first and last samples."""
    at, found = 0, []
    for dark, group in groupby(samples, lambda one: has(one, bit)):
        length = len(list(group))
        if dark:
            found.append((at, at + length - 1))
        at += length
    return found


class Clock:
    """When samples were taken: the first, how many seconds lie between two, and how far local clocks are ahead of UTC."""

    def __init__(self, first, period, ahead=timedelta()):
        self.first, self.period, self.zone = first, timedelta(seconds=period), timezone(ahead)

    def __call__(self, position, later):
        moment = self.first + position * self.period
        local = moment.astimezone(self.zone)
        sign = local.strftime("%z")
        return f"{text(local)} {sign[:3]}:{sign[3:]}{' or later' if later else ''} ({text(moment)} UTC)"


def text(moment):
    whole = f"{moment:%Y-%m-%d %H:%M:%S}"
    return whole + (f".{moment.microsecond:06d}".rstrip("0") if moment.microsecond else "")


def utc(*numbers):
    return datetime(*numbers, tzinfo=timezone.utc)


class Told:
    """A log's file, read."""

    def __init__(self, path, clock=None):
        self.path, self.clock = path, clock
        self.blocks = logs.read(path.read_bytes())
        self.samples = [one for _, samples in self.blocks for one in samples]
        self.runs = [runs(self.samples, bit) for bit in range(LINES)]
        self.power_ups = power_ups(self.blocks)
        self.died = sorted((found[0][0], bit) for bit, found in enumerate(self.runs) if found)

    def when(self, position):
        return self.clock(position, self.before(position) > 0)

    def before(self, position):
        return sum(0 < at <= position for at in self.power_ups)

    def number(self, position):
        """Of the block that a sample is in."""
        for number, samples in self.blocks:
            if position < len(samples):
                return number
            position -= len(samples)
        return None

    def at(self, position):
        return f", at {self.when(position)}" if self.clock else ""

    def between(self, position, bit):
        """Between which two samples it was."""
        _, _, before, after = LOST[bit // LANES]
        lit = f"{before} in the sample before{self.at(position - 1)}; {after} in this one"
        dark = f"{after} in the log\u2019s first sample"
        maybe = "" if position else ", and maybe before the log began"
        off = "; while the station was off or after" if position > 0 and position in self.power_ups else ""
        return f"{lit if position else dark}{self.at(position)}{maybe}{off}"

    def death(self, position, bit, others=0):
        more = f" and {others} other{'s' if others > 1 else ''}" if others else ""
        return f"{NAMES[bit]}{more} at position {position}: {self.between(position, bit)}. "

    def dark_at_end(self):
        """The lines that are dark in the last sample, by name; four of a kind as one."""
        bits = [bit for bit, found in enumerate(self.runs) if found and found[-1][1] == len(self.samples) - 1]
        names = []
        for bit in bits:
            kind = range(bit // LANES * LANES, bit // LANES * LANES + LANES)
            if all(one in bits for one in kind):
                names += [NAMES[bit].replace("1", "1-4", 1)] if bit % LANES == 0 else []
            else:
                names.append(NAMES[bit])
        return len(bits), ", ".join(names)

    def lost(self):
        return summary(bit for _, bit in self.died)

    def answer(self):
        if not self.samples:
            return "There is nothing to tell: the log has no samples."
        if not self.died:
            return f"No status bit is 1 in {'the one' if len(self.samples) == 1 else 'any'} sample: {NOTHING_LOST}."
        count, dark = self.dark_at_end()
        end = f"there {'is' if count == 1 else 'are'}: {dark}" if count else "none is dark"
        others = sum(position == self.died[0][0] for position, _ in self.died) - 1
        deaths = "".join(self.death(*one) for one in self.died)
        if len(self.died) > NAMED:
            deaths = f"The first {'were' if others else 'was'} {self.death(*self.died[0], others)}"
        return (f"{self.lost()}. {deaths}In the last sample {end}. "
                "Before the log began a lane may have been dark, or at fault, too.")

    def deaths(self):
        """The rows of the first table, below its head."""
        rows = []
        for position, bit in self.died:
            found = self.runs[bit]
            rows.append([NAMES[bit], str(position), str(self.number(position)), self.between(position, bit)] +
                        [str(self.before(position)), str(len(found)), str(sum(last - first + 1 for first, last in found))])
        return rows

    def stretches(self):
        """The rows of the second table, and how many there would be."""
        found = sorted((first, bit, last) for bit, own in enumerate(self.runs) for first, last in own)
        rows = [[NAMES[bit], str(first), str(last), str(last - first + 1)] +
                ([self.when(first), self.when(last)] if self.clock else []) for first, bit, last in found[:LISTED]]
        return rows, len(found)

    def ups(self):
        """The rows of the table of power-ups."""
        rows, at, before = [], 0, logs.SAMPLES
        for number, samples in self.blocks:
            if not samples or before < logs.SAMPLES:
                when = self.when(at) if self.clock and at < len(self.samples) else "there is none yet"
                rows.append([str(at), str(number)] + ([when] if self.clock else []))
            at, before = at + len(samples), len(samples)
        return rows[:LISTED]

    def light(self, limits=FACTORY, measured=len(LEVELS)):
        """The rows of the table of light levels; a number of a sample is so many tenths of a microwatt."""
        rows = []
        for level, (name, at) in enumerate(LEVELS):
            own = [int.from_bytes(one[at:at + 2], "big") / 10000 for one in self.samples]
            ends = [f"{min(own):.4f}", f"{max(own):.4f}"] if level < measured else ["-", "-"]
            rows.append([name, *ends, *limits[level // 4 * 4:level // 4 * 4 + 4]])
        return rows

    def ranges(self):
        """What stands above the picture of each light level."""
        return [f"{name} {least} to {most} mW" for name, least, most, *_ in self.light()]

    def tables(self):
        """The rows of all tables, below their heads, in the page's order."""
        own = [self.light() if self.samples else [], self.deaths(), self.stretches()[0], self.ups()]
        return [rows for rows in own if rows]

    def seen(self):
        """What the words of the picture of the lines say last."""
        if not self.power_ups:
            return "No power-up is seen."
        one = len(self.power_ups) == 1
        return (f"{len(self.power_ups)} power-up{' is' if one else 's are'} seen,{'' if one else ' the last'} just before "
                f"position {self.power_ups[-1]}.")

    def said(self, page):
        """The one line that the tool prints."""
        if not self.samples:
            return f"{page}: the log has no samples\n"
        if not self.died:
            return f"{page}: {NOTHING_LOST}\n"
        return f"{page}: {self.lost()}; the first at position {self.died[0][0]}\n"
