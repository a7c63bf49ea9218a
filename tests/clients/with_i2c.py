"""with_i2c.py: i2cget, i2cset, i2cdump, i2ctransfer and i2cdetect on the operator's bus (1) and the recorder's (2), at random."""
import random
import re

from feed import random_state
from paper import OPERATOR, RECORDER

MODULE_AT = "0x50"


def get(module, port, *words):
    """i2cget: the exit status and the numbers it prints."""
    status, text, complaint = module.run("i2cget", "-y", port, MODULE_AT, *words)
    return status, [int(word, 16) for word in text.split()] if status == 0 else complaint


def put(module, port, *words):
    """i2cset: the exit status and what it complains."""
    status, _, complaint = module.run("i2cset", "-y", port, MODULE_AT, *words)
    return status, complaint


def transfer(module, port, *words):
    """i2ctransfer: the exit status and the numbers it prints."""
    status, text, complaint = module.run("i2ctransfer", "-y", port, *words)
    return status, [int(word, 16) for word in text.split()] if status == 0 else complaint


def reads(module, checks):
    """Bytes, words, blocks, and a byte after an address was sent; some end past 255."""
    with checks.group("i2cget, 100 reads at random: bytes, words, blocks, past 255; the 688 bytes") as group:
        chance = random.Random(1)
        for number in range(100):
            module.lend(random_state(chance))
            port, mode = chance.choice((OPERATOR, RECORDER)), chance.choice("bwic")
            address = chance.choice((chance.randrange(256), chance.randrange(2, 15), chance.randrange(230, 256), 255))
            count = {"b": 1, "c": 1, "w": 2, "i": chance.choice((1, 2, 31, 32))}[mode]
            refusal, run = module.paper.read(port, address, count)
            shown = [run[0] | run[1] << 8] if mode == "w" and run else list(run)
            wanted = (2, "Error: Read failed\n") if refusal else (0, shown)
            what = f"bus {port}, {mode}, {count} at {address}"
            group.same(what, wanted, get(module, port, address, mode, *([count] if mode == "i" else [])))
            group.same(f"{what}: refusal", refusal, module.refusal())
            group.same(f"{what}: the 688 bytes", bytes(module.paper.state), module.look())


def writes(module, checks):
    """Bytes, words and blocks of up to 6 anywhere; most are refused to the recorder."""
    with checks.group("i2cset, 200 writes at random: bytes, words, blocks of 1 to 6, each refusal; the 688 bytes") as group:
        chance, refusals = random.Random(2), set()
        for _ in range(200):
            module.lend(random_state(chance))
            port, mode = chance.choice((OPERATOR, RECORDER)), chance.choice("bwi")
            address = chance.choice((chance.randrange(256), chance.randrange(84, 106), chance.randrange(122, 130),
                                     chance.randrange(232, 256), 127))
            data = bytes(chance.choice((chance.randrange(256), chance.randrange(5)))
                         for _ in range({"b": 1, "w": 2, "i": chance.randrange(1, 7)}[mode]))
            refusal = module.paper.write(port, address, data)
            refusals.add((port, refusal))
            words = [data[0] | data[1] << 8] if mode == "w" else list(data)
            what = f"bus {port}, {mode}, {data.hex()} at {address}"
            wanted = (1, "Error: Write failed\n") if refusal else (0, "")
            group.same(what, wanted, put(module, port, address, *words, mode))
            group.same(f"{what}: refusal", refusal, module.refusal())
            group.same(f"{what}: the 688 bytes", bytes(module.paper.state), module.look())
        seen = {(OPERATOR, 0), (OPERATOR, 4), (OPERATOR, 5), (RECORDER, 0), (RECORDER, 4), (RECORDER, 5), (RECORDER, 7)}
        group.same("which refusals came up", seen, refusals)


def dump_bytes(text, wide):
    """The bytes of i2cdump's table; None where it has XX."""
    size = 4 if wide else 2
    found = []
    for row in re.findall(r"^[0-9a-f]{2}: (.*)$", text, re.M):
        cells = row[:48].split() if not wide else row.split()
        found += [None if cell == "X" * size else int(cell, 16) for cell in cells]
    return found


def dumps(module, checks):
    """The whole of lower memory and the selected page, by each mode's own reads, in their order."""
    steps = {"b": [(at, 1) for at in range(256)], "c": [(at, 1) for at in range(256)], "w": [(at, 2) for at in range(256)],
             "W": [(at, 2) for at in range(0, 256, 2)], "i": [(at, 32) for at in range(0, 256, 32)]}
    with checks.group("i2cdump of each page on both buses, by bytes, words, blocks and on and on; the 688 bytes") as group:
        chance = random.Random(3)
        for port in (OPERATOR, RECORDER):
            for page in range(4):
                for mode, reading in steps.items():
                    state = bytearray(random_state(chance))
                    state[640 + 24 * (port - 1) + 23] = page
                    module.lend(state)
                    runs = [module.paper.read(port, at, count)[1] for at, count in reading]
                    wanted = [run[0] | run[1] << 8 if run else None for run in runs] if mode == "w" else list(b"".join(runs))
                    status, text, _ = module.run("i2cdump", "-y", port, MODULE_AT, mode)
                    group.same(f"bus {port}, page {page}, {mode}", (0, wanted), (status, dump_bytes(text, mode == "w")))
                    group.same("the 688 bytes", bytes(module.paper.state), module.look())


def transfers(module, checks):
    """Messages as they are: an address and bytes to write, then reads, several in a run."""
    with checks.group("i2ctransfer, 60 runs at random: a write, a read at an address, a read on; the 688 bytes") as group:
        chance = random.Random(4)
        for number in range(60):
            module.lend(random_state(chance))
            port, paper = chance.choice((OPERATOR, RECORDER)), module.paper
            own = chance.choice(([100], [101], [100, 101, 102, 103], [127], [86], [126, 127], [127, 128], [100] * 5))
            data = bytes(chance.randrange(4) for _ in own)
            first, count, more = chance.randrange(150), chance.choice((1, 5, 128, 129)), chance.randrange(1, 9)
            wanted = (paper.write(port, own[0], data), None)
            if wanted[0] == 0:
                wanted = paper.read(port, first, count)
            one = list(wanted[1] or b"")
            if wanted[0] == 0:
                wanted = paper.read(port, first + count, more)
            shown = (1, "Error: Sending messages failed: Remote I/O error\n") if wanted[0] else (0, one + list(wanted[1]))
            words = [f"w{1 + len(data)}@{MODULE_AT}", own[0], *data, "w1", first, f"r{count}", f"r{more}"]
            group.same(f"{number}: {words}", shown, transfer(module, port, *words))
            group.same(f"{number}: refusal", wanted[0], module.refusal())
            group.same(f"{number}: the 688 bytes", bytes(paper.state), module.look())


def run(module, checks):
    reads(module, checks)
    writes(module, checks)
    dumps(module, checks)
    transfers(module, checks)
