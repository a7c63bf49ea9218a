"""days.py: logs for the page of a log: the built-in day, and others that are calm, wild or the worst that there can be."""
import random
import struct

import logs
from deaths import LINES, sample
from station import zikhrodan

ROWS = 31


def numbers(rx=(5000,) * 4, tx=(9000,) * 4):
    """The numbers of a sample: light as given, and the others as they are on a good day."""
    return struct.pack(">14H", 0x1E00, 33000, *rx, *(3000,) * 4, *tx)


def row(bits=(), **light):
    """A sample whose status bits are these."""
    return sample(*bits)[:3] + numbers(**light)


def kept(path, parts, number=1, room=3):
    """A log's file: its samples come in parts, with a power-up between two; an empty part is a power-up and no sample."""
    blocks = []
    for part in parts:
        blocks += logs.blocks_of(part, number + len(blocks)) if part else [logs.block(number + len(blocks), [])]
    path.write_bytes(logs.file_of(len(blocks) + room, blocks))
    return path


def day(folder, name="day.log", power_up_at=830):
    """The day that `demo` keeps, with a power-up: line Rx3 is dark in samples 827 to 858."""
    zikhrodan(folder, "demo", "--keep", "trial")
    run = (folder / "trial" / "day.rows").read_bytes()
    rows = [run[at:at + ROWS] for at in range(0, len(run), ROWS)]
    return kept(folder / name, [rows[:power_up_at], rows[power_up_at:]] if power_up_at else [rows])


def wild(path, seed, count):
    """Lines that die and are lit again, some of them often, some at once; light that goes with them; power-ups."""
    chance = random.Random(seed)
    rows, dark = [], [False] * LINES
    worse = [chance.choice((0, 0.0005, 0.01, 0.3)) for _ in range(LINES)]
    for _ in range(count):
        dark = [chance.random() >= 0.1 if one else chance.random() < worse[bit] for bit, one in enumerate(dark)]
        light = [0 if one else chance.randrange(65536) for one in dark[:4] + dark[8:12]]
        rows.append(row([bit for bit in range(LINES) if dark[bit]], rx=light[:4], tx=light[4:]))
    cuts = sorted(chance.sample(range(count), 5))
    parts = [rows[one:other] for one, other in zip([0] + cuts, cuts + [count])]
    return kept(path, parts, number=chance.randrange(1, 1000), room=chance.randrange(3))


def worst(path, count, dark):
    """All 24 lines are dark, or lit, in the samples that a test says, and all light jumps."""
    chance = random.Random(count)
    rows = []
    for at in range(count):
        light = [chance.choice((0, 1, 65535, chance.randrange(65536))) for _ in range(8)]
        rows.append(row(range(LINES) if dark(at) else (), rx=light[:4], tx=light[4:]))
    return kept(path, [rows])
