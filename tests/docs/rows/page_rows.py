"""page_rows.py: the tables of byte 2, of the pages, and of the bits that decide."""
import re

from library import BASES, NAMES, PORTS, STATE, accepted, asks, byte, read, reset, same, sample, write
from page import bit, named, run
from state_rows import SEEDS
from states import an_image, fresh, put, some, wide

LOSS = b"\x01" + bytes(30)  # a sample in which Rx1 has lost its signal


def bits_of(row):
    """'7 to 3' is 7, 6, 5, 4 and 3."""
    first, last = run(row["Bit"])
    return range(first, last - 1, -1)


def status_bit(row, _):
    """Of byte 2: what each port reads, with an interrupt and without, and what a reset and a sample leave, over any byte stored."""
    if row["Name"]:
        named(row, sum(1 << number for number in bits_of(row)))
    for seed in SEEDS:
        image = put(an_image(seed), 2, some(seed, 1)[0])
        new = accepted(reset(some(seed + 1, STATE), image))
        for stored in (0x00, 0xFF, *some(seed + 2, 4)):
            quiet = put(new, 2, stored)
            after = accepted(sample(quiet, LOSS))
            masked = accepted(write(accepted(sample(put(fresh(wide(1)), 2, stored), LOSS)), 1, 100, 0xFF))  # by the operator
            for number in bits_of(row):
                def reads(state, stands, port=1):
                    right = {"0": 0, "as stored": state[2] >> number & 1, "1 while no interrupt stands": not stands}[row["Reads"]]
                    same(right, read(state, port, 2)[2][0] >> number & 1, f"bit {number} reads")
                reads(quiet, False)
                reads(after, True)
                reads(masked, False)
                reads(masked, True, 2)
                left = {"0": 0, "1": 1, "the image's": image[2] >> number & 1}[row["A reset leaves"]]
                same(left, new[2] >> number & 1, f"a reset leaves bit {number}")
                left = {"0": 0, "as stored": stored >> number & 1}[row["A sample leaves"]]
                same(left, after[2] >> number & 1, f"a sample leaves bit {number}")


def all_bits(table):
    same([7, 6, 5, 4, 3, 2, 1, 0], [number for row in table.rows for number in bits_of(row)], "the bits of the table")


def holds(condition, state):
    """'2.2 is 0 and 195.6 is 1', of bytes of lower memory and page 00h."""
    tests = re.findall(r"(\d+\.\d) is (\d)", condition)
    return condition == "always" or all(state[bit(at)[0]] >> bit(at)[1] & 1 == int(value) for at, value in tests)


def selectable(row, _):
    """The page can be selected exactly so, over every way that 2.2, 195.6 and 195.7 can be and two of the bits beside them."""
    number = int(row["Page"].removesuffix("h"), 16)
    for two, offered in ((two, offered) for two in (0x00, 0x04, 0xFB, 0xFF) for offered in range(0, 256, 0x40)):
        state = put(put(fresh(an_image(90)), 2, two), 195, offered | two & 0x3F)
        right = holds(row["Can be selected if"], state)
        for port in PORTS:
            left = accepted(write(state, port, 127, number))
            same(number if right else 0, read(left, port, 127)[2][0], f"page {number} is selected")
            poked = put(state, BASES[port] + NAMES["ZIKHRODAN_SELECTED_IN"], number)
            same(0 if right else 3, byte(read(poked, port, 0)[0], 0), f"a record with page {number}")


def all_pages(table):
    same(["00h", "01h", "02h", "03h"], [row["Page"] for row in table.rows], "the pages of the table")


def offers(row, _):
    """What the bit is said to offer is there with it alone, and not without it alone."""
    at, number = bit(row["Bit of page 00h"])
    named(row, 1 << number)
    page = re.fullmatch(r"there is a page 0(\d)h", row["If it is 1"])
    for value in (0, 1):
        for others in (0, 0xFF):
            state = put(fresh(an_image(91)), at, others & ~(1 << number) | value << number)
            state = accepted(sample(state, bytes(31)))
            if page:
                there = int(page.group(1))
                same(there * value, read(accepted(write(state, 1, 127, there)), 1, 127)[2][0], row["If it is 1"])
            else:
                same("Tx power is measured", row["If it is 1"], "what it offers")
                same(3 * value, byte(asks("monitor_kind", state, 10), 1), row["If it is 1"])
