"""readout_rows.py: the tables of identity, monitors and limits."""
import struct

from library import NAMES, PAGE, accepted, asks, byte, double, same, sample
from page import covered, named, run
from states import an_image, coded, fresh, number, put, some

FOUR = ("High alarm", "Low alarm", "High warning", "Low warning")


# ---- identity

def page_at(image):
    return image[NAMES["ZIKHRODAN_PAGE_00_AT"]:][:PAGE]


def identity(live, factory, field_number):
    """The refusal, the page, the start, the length."""
    answer = asks("identity", live, factory, field_number)
    return tuple(byte(answer, n) for n in range(4))


def refused(live):
    return identity(live, b"", 1)[0]


def more(page, *addresses):
    """The page with one more in these bytes."""
    for at in addresses:
        page = put(page, at - 128, (page[at - 128] + 1) % 256)
    return page


def check_code(row, _):
    """One more in a byte that is summed, or in the code, is seen; in both it is not."""
    live, code, (first, last) = page_at(an_image(200)), int(row["Check code"]), run(row["Is the sum, low eight bits, of"])
    same((0, 11), (refused(live), refused(more(live, code))), "another code")
    for at in range(first, last + 1):
        same((11, 0), (refused(more(live, at)), refused(more(live, at, code))), f"byte {at}, alone and with {code}")


def all_codes(table):
    """No other byte is summed."""
    live = page_at(an_image(200))
    told = sorted(covered(table, "Check code") + covered(table, "Is the sum, low eight bits, of"))
    same([at for at in range(128, 256) if refused(more(live, at))], told, "bytes that are summed, and codes")


def answered(row, _):
    """The page that is used, by which of the two are sound."""
    live, factory, which = page_at(an_image(201)), page_at(an_image(202)), int(row["Page answered"])
    named(row, which)
    bad = more(live, 128)
    pages = {
        "none, where it is refused": ((bad, bad), (live[1:], b"")),
        "the live one": ((live, factory), (live, bad), (live, b"")),
        "the factory's": ((bad, factory), (b"", factory), (live + b"\0", factory)),
    }[row["Which"]]
    for both in pages:
        same((0 if which else 11, which), identity(*both, 2)[:2], row["Which"])


def field(row, _):
    """Where it starts and how long it is: with blanks at its end, 00h there, and blanks before its end."""
    which, (first, last) = int(row["Field"]), run(row["Address"])
    size = last - first + 1
    named(row, which)

    def told(held):
        filled = bytes(b or 1 for b in some(203, PAGE)).replace(b" ", b"x")
        return identity(page_at(coded(bytes(128) + put(filled, first - 128, *held) + bytes(384))), b"", which)

    for blanks in (0, 1, 2, size - 1, size):
        left = size - {"left out": blanks, "kept": 0}[row["20h at its end"]]
        same((0, 1, first - 128, left), told((b"a" * size + b" " * blanks)[-size:]), f"{blanks} blanks at its end")
    same([size, size], [told(held)[3] for held in (b"a" + bytes(size - 1), b" " * (size - 1) + b"a")], "other ends")


def all_fields(table):
    same(list(range(1, 7)), [int(row["Field"]) for row in table.rows], "the fields of the table")


# ---- monitors and limits

def divided(memory, at, row):
    """The number there, as the row has it."""
    value = struct.unpack_from(">h" if "signed" in row["What"] else ">H", memory, at)[0]
    return value / int(row["Divided by"])


def told_of(state, monitor_number):
    return asks("monitor_kind", state, monitor_number), double("monitor_value", state, monitor_number)


def monitor(row, _):
    """Kind and value of each channel; and when nothing is measured."""
    (first, last), (at, end), kinds = run(row["Monitor"]), run(row["Stored at"]), int(row["Kind"]) << 8
    named(row, first)
    same(2 * (last - first + 1), end - at + 1, "two bytes a number")
    for seed in (210, 220):
        state = accepted(sample(fresh(an_image(seed)), put(some(seed, 31), 3, *b"\x80\x00\xff\xff")))
        for k, which in enumerate(range(first, last + 1)):
            same((kinds, divided(state, at + 2 * k, row)), told_of(state, which), f"monitor {which}")
            same((kinds, 0.0), told_of(put(state, at + 2 * k, 0, 0), which), "a number of 0")
            same((0, 0.0), told_of(put(state, 2, state[2] | 1), which), "while 2.0 is 1")
            offered = kinds if first < 10 else 0
            same(offered, told_of(put(state, 220, state[220] & ~4), which)[0], "where 220.2 is 0")


def all_monitors(table):
    same(list(range(14)), covered(table, "Monitor"), "the monitors of the table")


def kind(row, _):
    """A monitor that has 1 in the unit; or none, before the first sample."""
    which, one = {"nothing measured": (0, 0), "degrees C": (0, 256), "V": (1, 10000), "mW": (2, 10000), "mA": (6, 500)}[row["Unit"]]
    named(row, int(row["Kind"]))
    state = fresh(an_image(230))
    state = accepted(sample(state, bytes(3) + number(one) * 14)) if one else state
    same((int(row["Kind"]) << 8, 1.0 if one else 0.0), told_of(state, which), row["Unit"])


def limits(row, _):
    """Each of the four, before the first sample, and of Tx power that is not measured."""
    quantity = int(row["Quantity"])
    named(row, quantity)
    for seed in (240, 250):
        state = put(put(fresh(an_image(seed)), 220, 0), 512, *b"\x80\x00\xff\xff")
        same(0, asks("limits_refusal", state, quantity), "the limits are given")
        right = [divided(state, 384 + int(row[column]), row) for column in FOUR]
        same([*right, 0.0], [double("limit", state, quantity, which) for which in range(5)], "the four, and a fifth")


def all_quantities(table):
    same(list(range(5)), [int(row["Quantity"]) for row in table.rows], "the quantities of the table")
