"""logs.py: a log's file in plain Python: written, read, and laid beside what the tool leaves. station/logfile.h has the form.

  python3 tests/tool/logs.py FILE ROOM FIRST [COUNT ..]

makes a file with room for ROOM blocks, whose used blocks are numbered from FIRST on and have so many samples each. With `old`
after COUNT, as in 16old, the block has no summary.
"""
import struct
import sys
import zlib
from pathlib import Path

BLOCK, SAMPLE, SAMPLES, SLOT, MAGIC = 512, 31, 16, 2048, b"zikhrodan log 1\n"
HEAD = 2 * SLOT
SUMMARY_AT, STATUS = 501, 3
ROOM_AT = len(MAGIC) + 8


class Broken(Exception):
    """The bytes are no sound log."""


def summed(front, summary):
    body = (front.ljust(SUMMARY_AT, b"\0") + summary).ljust(BLOCK - 2, b"\0")
    return body + struct.pack(">H", sum(body) & 0xFFFF)


def old_block(number, samples):
    """A block without a summary, as they were before document 02's Ask 9."""
    return summed(struct.pack(">IB", number, len(samples)) + b"".join(samples), b"")


def block(number, samples):
    """A block with its summary, the OR of the samples' status bytes, and the mark that it has one."""
    summary = bytearray(STATUS)
    for sample in samples:
        for at in range(STATUS):
            summary[at] |= sample[at]
    return summed(struct.pack(">IB", number, len(samples)) + b"".join(samples), bytes(summary) + b"\1")


def slot(serial, room, used, place, copy):
    body = (MAGIC + struct.pack(">4Q", serial, room, used, place) + copy).ljust(SLOT - 4, b"\0")
    return body + struct.pack(">I", zlib.crc32(body))


def blocks_of(samples, number=1, one=block):
    """The blocks of samples that are added one after the other to an empty log."""
    parts = [samples[at:at + SAMPLES] for at in range(0, len(samples), SAMPLES)]
    return [one(number + at, part) for at, part in enumerate(parts)]


def file_of(room, blocks):
    """A file whose head has but one slot."""
    head = slot(1, room, len(blocks), 0, blocks[0] if blocks else bytes(BLOCK))
    return head.ljust(HEAD, b"\0") + b"".join(blocks).ljust(room * BLOCK, b"\0")


def slot_in(run, length):
    """The numbers and the copy of a slot that is right and fits a file's length; else nothing."""
    if run[:len(MAGIC)] != MAGIC or zlib.crc32(run[:-4]) != struct.unpack(">I", run[-4:])[0]:
        return None
    serial, room, used, place = struct.unpack_from(">4Q", run, len(MAGIC))
    fits = length == HEAD + room * BLOCK and used <= room and place < room
    return (serial, used, place, run[ROOM_AT + 24:ROOM_AT + 24 + BLOCK]) if fits else None


def samples_in(run, number):
    """The number and samples of a block, with a summary that is exact or with none; its number is this, unless that is none."""
    own, count = struct.unpack_from(">IB", run)
    samples = [run[5 + SAMPLE * at:5 + SAMPLE * (at + 1)] for at in range(min(count, SAMPLES))]
    if count > SAMPLES or run not in (block(own, samples), old_block(own, samples)) or number not in (None, own):
        raise Broken(f"block {own} is unsound")
    return own, samples


def read(run):
    """The blocks of a log's file as a reader has them: their numbers and samples. Raises Broken."""
    slots = [found for at in (0, SLOT) if (found := slot_in(run[at:at + SLOT], len(run)))]
    if not slots:
        raise Broken("neither slot is right")
    _, used, place, copy = max(slots)
    body, blocks, number = bytearray(run[HEAD:]), [], None
    if place < used:
        body[place * BLOCK:(place + 1) * BLOCK] = copy
    for at in range(used):
        number, samples = samples_in(bytes(body[at * BLOCK:(at + 1) * BLOCK]), number)
        blocks.append((number, samples))
        number += 1
    return blocks


def samples_of(path):
    """All samples of a file, in order."""
    return [sample for _, samples in read(Path(path).read_bytes()) for sample in samples]


def main(words):
    room, first = map(int, words[1:3])
    blocks = []
    for at, word in enumerate(words[3:]):
        samples = [bytes([at, number]).rjust(SAMPLE, b"\0") for number in range(int(word.removesuffix("old")))]
        blocks.append((old_block if word.endswith("old") else block)(first + at, samples))
    Path(words[0]).write_bytes(file_of(room, blocks))


if __name__ == "__main__":
    main(sys.argv[1:])
