"""log_rows.py: the tables of a log's block: its fields as the library writes them, and what makes it sound."""
import re
from functools import cache

from call_rows import checked, numbered
from library import BLOCK, SAMPLE, accepted, asks, log_add, log_power_up, same
from page import covered, run
from states import put, some

POSITION = 2 ** 64 - 1  # past the last sample of any log
NUMBER = 0xA1B2C3D4


@cache
def logged(blocks, many):
    """A log of so many blocks that the library made of samples at random, its first number NUMBER; and these samples."""
    samples, log, used = [some(400 + n, SAMPLE) for n in range(many)], numbered(NUMBER) + b"\xa5" * (BLOCK * (blocks - 1)), 1
    for one in samples:
        answer, log = log_add(log, used, one)
        used = answer >> 8
    same(blocks, used, "the blocks that are used")
    return log, samples


def ored(samples):
    """The OR of their status bytes."""
    found = [0, 0, 0]
    for one in samples:
        found = [a | b for a, b in zip(found, one)]
    return bytes(found)


def written(what, block, number, samples, size):
    """What the words say that so many bytes of a block are."""
    if found := re.match(r"room for samples of (\d+) bytes", what):
        same((SAMPLE, 16 * SAMPLE), (int(found.group(1)), size), what)
        return b"".join(samples).ljust(size, b"\0")
    if found := re.match(r"check: the sum of bytes (\d+) to (\d+)", what):
        return (sum(block[int(found.group(1)):int(found.group(2)) + 1]) % 65536).to_bytes(size, "big")
    if found := re.match(r"(\d+): there is a summary", what):
        return bytes([int(found.group(1))])
    return {
        "its number, the high byte first": lambda: number.to_bytes(size, "big"),
        "its count, how many samples it has": lambda: bytes([len(samples)]),
        "summary: the OR of the samples' three status bytes": lambda: ored(samples),
        "": lambda: bytes(size),
    }[what]()


def may_be(said, block, samples):
    """Whether a block of these samples may be so, by what its field is said to be."""
    if found := re.fullmatch(r"at most (\d+)", said):
        return block[4] <= int(found.group(1))
    return {
        "anything": lambda: True,
        "what the count leaves unused is 0": lambda: not any(block[5 + SAMPLE * len(samples):501]),
        "exact if byte 504 is 1, else 0": lambda: block[501:504] == (ored(samples) if block[504] == 1 else bytes(3)),
        "0 or 1": lambda: block[504] in (0, 1),
        "0": lambda: not any(block[505:510]),
        "exact": lambda: block == checked(block),
    }[said]()


def field(row, _):
    """What the library wrote there, in blocks of 16, 16 and 3 samples; and other bytes there, with the check right again."""
    first, last = run(row["Bytes of a block"])
    log, samples = logged(3, 35)
    for b in range(3):
        block = log[BLOCK * b:][:BLOCK]
        right = written(row["What"], block, NUMBER + b, samples[16 * b:16 * b + 16], last - first + 1)
        same(right, block[first:last + 1], f"block {b + 1}")
    one, three = logged(1, 3)
    others = [(one, three), (checked(put(one, 501, 0, 0, 0, 0)), three)]
    for whole, held in [(bytes(BLOCK), [])] if first == last else others:
        for at in range(5 + SAMPLE * 3 if first == 5 else first, last + 1):
            for value in range(256) if first == last else (0x00, 0x01, 0x02, 0x10, 0x11, 0xFF):
                other = put(whole, at, value)
                other = other if first >= 510 else checked(other)
                sound = asks("log_sample", other, 1, POSITION) == 17
                same(may_be(row["Sound if"], other, held), sound, f"byte {at} is {value:02X}h: sound")


def all_fields(table):
    same(list(range(BLOCK)), covered(table, "Bytes of a block"), "the bytes of the table")


def opened(row, _):
    """So many power-ups leave that block: zeros, but for the bytes told."""
    number, log, block = int(row["Block"]), b"\xa5" * (BLOCK * 3), bytes(BLOCK)
    for used in range(number):
        log = accepted(log_power_up(log, used))
    for column in ("Byte 3", "Byte 504", "Byte 511"):
        block = put(block, int(column[5:]), int(row[column], 16))
    same((block, b"\xa5" * (BLOCK * (3 - number))), (log[BLOCK * (number - 1):][:BLOCK], log[BLOCK * number:]), f"block {number}")
