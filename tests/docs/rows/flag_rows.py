"""flag_rows.py: the tables of samples and flags: what a sample stores and raises, and which mask holds a flag back."""
import re
import struct

from library import PORTS, SAMPLE, accepted, asks, byte, double, expect, flags_of, log_add, read, same, sample, write
from page import bit, covered, named, place, run
from states import all_raised, an_image, fresh, number, put, some, wide

QUANTITIES = {"temperature": 0, "supply": 1, "Rx power": 2, "Tx bias": 6, "Tx power": 10}  # their first monitors
UNITS = {"C": 1.0, "uV": 1e-6, "uW": 1e-3, "uA": 1e-3}  # in the monitor's: C, V, mW, mA
SHORT = {"loss of signal": "LOS", "loss of lock": "LOL", "fault": "FAULT", "equaliser fault": "EQ_FAULT"}
BOTH = 0x010100  # a sample's answer: 1 for each port
LIMITS = ("High alarm", "Low alarm", "High warning", "Low warning")
FLAGS = range(3, 15)
MASKS = (*range(100, 105), *range(242, 248))


def only(state, at, bits, words):
    """Exactly these bits of one flag byte are raised, for both ports."""
    for port in PORTS:
        same({flags: bits if flags == at else 0 for flags in FLAGS}, flags_of(state, port), f"{words}, port {port}")


def held_back(state, mask, bits, words):
    """Of one raised flag: with its mask bit alone the recorder counts none, with all the others 1; the operator counts 1."""
    for own, others, count in ((bits, 0x00, 0), (0xFF ^ bits, 0xFF, 1)):
        left = accepted(write(state, 2, 127, 3))
        for at in MASKS:
            answer, left = write(left, 2, at, own if at == mask else others)
        same((count, 1), (byte(answer, 1), byte(read(left, 1, 0)[0], 1)), f"{words}: counts with the mask")


# ---- the status bits

def status(row, _):
    """The bit alone in a sample raises the flag alone; its mask alone holds it back; the question of a log is of this bit."""
    own, (of, in_sample), (at, raised), (mask, held) = int(row["No."]), *(bit(row[c]) for c in ("In a sample", "Flag", "Mask"))
    named(row, own)
    line, what = re.fullmatch(r"([RT]x\d) (.*)", row["What"]).groups()
    same(f"`ZIKHRODAN_{line.upper()}_{SHORT[what]}`", row["Name"], "its name")
    values = put(bytes(SAMPLE), of, 1 << in_sample)
    answer, state = sample(fresh(wide(100)), values)
    same(BOTH, answer, "both ports' counts")
    only(state, at, 1 << raised, "the flag")
    held_back(state, mask, 1 << held, "the flag")
    log = accepted(log_add(bytes(512), 0, values))
    same([n == own for n in range(24)], [asks("log_first", log, 1, n) == 1 << 8 for n in range(24)], "the status bit in a log")


def all_status(table):
    same(list(range(24)), [int(row["No."]) for row in table.rows], "the bits of the table")


# ---- the numbers

def all_at(value, monitor, by):
    """A sample of this number everywhere, but one."""
    return put(bytes(3) + number(value) * 14, 3 + 2 * monitor, *number((value + by) % 65536))


def limit(row, _):
    """The supply's number below its threshold, at it and above it."""
    which, name = re.fullmatch(r"(\d), (.*)", row["Limit"]).groups()
    named(row, int(which))
    same(f"`ZIKHRODAN_{name.upper().replace(' ', '_')}`", row["Name"], "its name")
    state = fresh(put(wide(110), 528 + 2 * int(which), *number(0x4000)))
    raised = [sample(state, all_at(0x4000, 1, by))[0] == BOTH for by in (-1, 0, 1)]
    right = {"above it": [False, False, True], "below it": [True, False, False]}[row["Holds if the number is"]]
    same(right, raised, "below it, at it, above it")


def all_limits(table):
    same(["0", "1", "2", "3"], [row["Limit"][0] for row in table.rows], "the limits of the table")


def monitor_of(name):
    """'Rx power 3' is monitor 4."""
    of, channel = re.fullmatch(r"(\D+?)(?: (\d))?", name).groups()
    return QUANTITIES[of] + int(channel or 1) - 1


def outside(row, _):
    """By one past a threshold the number raises that flag alone; at it, or inside, none; and its mask holds it back."""
    for column in LIMITS:
        flag, sign, threshold = row[column].split()
        (at, raised), by, monitor = bit(flag), {">": 1, "<": -1}[sign], monitor_of(row["Number"])
        for value in (0x1234, 0xFFFF if row["Number"] == "temperature" else 0x8000):
            state = fresh(put(wide(120), place(int(threshold), 3), *number(value)))
            inside, equal, past = (all_at(value, monitor, by * turn) for turn in (-1, 0, 1))
            same([0, 0], [sample(state, one)[0] for one in (inside, equal)], f"{column}, inside it and at it")
            answer, left = sample(state, past)
            same(BOTH, answer, f"{column}, past it")
            only(left, at, 1 << raised, column)
            held_back(left, int(row["Masks"]), 1 << raised, column)
            measured = BOTH if monitor < 10 else 0
            same(measured, sample(put(state, 220, 0xFB), past)[0], "where 220.2 is 0")


def all_outside(table):
    """All 14 numbers, and every flag but the status bits'."""
    same(list(range(14)), [monitor_of(row["Number"]) for row in table.rows], "the numbers of the table")
    flags = [bit(row[column].split()[0]) for row in table.rows for column in LIMITS]
    raised = {at: sum(1 << n for b, n in flags if b == at) for at in range(6, 15)}
    same(raised, {at: bits for at, bits in flags_of(all_raised(), 1).items() if at > 5}, "all flags that there are, each once")


# ---- a sample

def part(row, _):
    """A status byte raises its flag byte; a number is stored there, and is in that unit."""
    first, last = run(row["Bytes"])
    named(row, first)
    if found := re.fullmatch(r"status, for flag byte (\d)", row["What"]):
        same(first, last, "one byte")
        left = accepted(sample(fresh(wide(130)), put(bytes(SAMPLE), first, 0xA5)))
        only(left, int(found.group(1)), 0xA5, row["What"])
        return
    of, channels = re.fullmatch(r"(.*?)(?:, signed| 1 to (\d))?", row["What"]).groups()
    same((2 * int(channels or 1), 3 + 2 * QUANTITIES[of]), (last - first + 1, first), "two bytes a number, in monitors' order")
    at, end = run(row["Stored at"])
    old, values = fresh(an_image(131)), some(132, SAMPLE)
    new, off = accepted(sample(old, values)), accepted(sample(put(old, 220, old[220] & ~4), values))
    same((end - at, values[first:last + 1]), (last - first, new[at:end + 1]), "what is stored")
    same((old if row["Stored at"].endswith(", if 220.2 is 1") else new)[at:end + 1], off[at:end + 1], "where 220.2 is 0")
    in_unit(row, new, values[first:last + 1])


def in_unit(row, state, stored):
    """The monitors of these numbers, by the unit."""
    many, unit = re.fullmatch(r"([\d./]+) (\w+)", row["Unit"]).groups()
    up, _, down = many.partition("/")
    step = float(up) / float(down or 1) * UNITS[unit]
    for channel, (value,) in enumerate(struct.iter_unpack(">h" if "signed" in row["What"] else ">H", stored)):
        told = double("monitor_value", state, (run(row["Bytes"])[0] - 3) // 2 + channel)
        expect(abs(told - value * step) <= 1e-9 * abs(told), f"the unit: {told} is not {value} times {step}")


def all_parts(table):
    same(list(range(SAMPLE)), covered(table, "Bytes"), "the bytes of the table")
    most = accepted(sample(fresh(an_image(1)), b"\xff" * SAMPLE))
    signed = [double("monitor_value", most, monitor) < 0 for monitor in QUANTITIES.values()]
    same(["signed" in row["What"] for row in table.rows[3:]], signed, "which are signed")
