"""with_eight.py: i2c-tools on the eight-channel module: the operator's bus (1) and the recorder's (2), held to Ask 6's words; and
what ethtool, which is not for it, makes of it."""
import random

from bench import DEVICES, EIGHT_LEN
from paper_eight import BYTES, FIRST_FLAG, FIRST_MASK, FLAG_BITS, MASK_BITS, OPERATOR, RECORDER
from with_i2c import MODULE_AT, dump_bytes, get, put, transfer

ALL = b"\xFF" * BYTES
DARK = bytes([0x10, 0, 0x10] + [0] * (BYTES - 3))  # Rx5 has lost its signal and its lock


def random_state(chance):
    """Any conditions, and sound records: flags, masks and pending bits at random."""
    bits = [FLAG_BITS, MASK_BITS, FLAG_BITS] * 2
    return chance.randbytes(BYTES) + bytes(chance.randrange(256) & allowed for own in bits for allowed in own)


def start(module, *samples):
    module.lend(bytes(EIGHT_LEN))
    module.reset()
    for one in samples:
        module.sample(one)


def after(group, module, what, refusal):
    """The refusal of the last call, and the 98 bytes."""
    group.same(f"{what}: refusal", refusal, module.refusal())
    group.same(f"{what}: the 98 bytes", bytes(module.paper.state), module.look())


def reads(module, checks):
    with checks.group("eight channels: i2cget, 100 reads at random: bytes, words, blocks, past 127; the 98 bytes") as group:
        chance = random.Random(6)
        for _ in range(100):
            module.lend(random_state(chance))
            port, mode = chance.choice((OPERATOR, RECORDER)), chance.choice("bwic")
            address = chance.choice((chance.randrange(256), chance.randrange(2, 18), chance.randrange(100, 118), 127, 128))
            count = {"b": 1, "c": 1, "w": 2, "i": chance.choice((1, 2, 14, 31, 32))}[mode]
            refusal, run = module.paper.read(port, address, count)
            shown = [run[0] | run[1] << 8] if mode == "w" and run else list(run)
            what = f"bus {port}, {mode}, {count} at {address}"
            group.same(what, (2, "Error: Read failed\n") if refusal else (0, shown),
                       get(module, port, address, mode, *([count] if mode == "i" else [])))
            after(group, module, what, refusal)


def writes(module, checks):
    with checks.group("eight channels: i2cset, 150 writes at random: bytes, words, blocks, each refusal; the 98 bytes") as group:
        chance, refusals = random.Random(7), set()
        for _ in range(150):
            module.lend(random_state(chance))
            port, mode = chance.choice((OPERATOR, RECORDER)), chance.choice("bwi")
            address = chance.choice((chance.randrange(256), chance.randrange(99, 119), chance.randrange(99, 119), 127))
            data = chance.randbytes({"b": 1, "w": 2, "i": chance.randrange(1, 7)}[mode])
            refusal = module.paper.write(port, address, data)
            refusals.add((port, refusal))
            words = [data[0] | data[1] << 8] if mode == "w" else list(data)
            what = f"bus {port}, {mode}, {data.hex()} at {address}"
            group.same(what, (1, "Error: Write failed\n") if refusal else (0, ""), put(module, port, address, *words, mode))
            after(group, module, what, refusal)
        seen = {(OPERATOR, 0), (OPERATOR, 4), (OPERATOR, 5), (RECORDER, 0), (RECORDER, 4), (RECORDER, 5), (RECORDER, 7)}
        group.same("which refusals came up", seen, refusals)


def dumps(module, checks):
    """By bytes and words XX from 128 on; with a range, and by blocks, only what is there."""
    ways = {("b",): (1, 256), ("c",): (1, 256), ("w",): (1, 256), ("b", "-r", "0-127"): (1, 128), ("i", "-r", "0-127"): (32, 128)}
    with checks.group("eight channels: i2cdump on both buses, by bytes, words and blocks; the 98 bytes") as group:
        chance = random.Random(8)
        for port in DEVICES:
            for (mode, *limits), (step, end) in ways.items():
                module.lend(random_state(chance))
                count = 2 if mode == "w" else step
                runs = [module.paper.read(port, at, count)[1] for at in range(0, end, step)]
                wanted = [run[0] | run[1] << 8 if run else None for run in runs] if mode == "w" else \
                    [byte for run in runs for byte in run or [None]]
                status, text, _ = module.run("i2cdump", "-y", *limits, port, MODULE_AT, mode)
                group.same(f"bus {port}, {mode} {limits}", (0, wanted), (status, dump_bytes(text, mode == "w")))
                group.same(f"bus {port}, {mode} {limits}: the 98 bytes", bytes(module.paper.state), module.look())
    with checks.group("eight channels: i2cdump by blocks fails at 128 if no range ends it, and has cleared that port") as group:
        for port in DEVICES:
            start(module, ALL)
            module.paper.read(port, 0, 128)
            group.same(f"bus {port}", (1, ""), module.run("i2cdump", "-y", port, MODULE_AT, "i")[:2])
            group.same(f"bus {port}: the 98 bytes", bytes(module.paper.state), module.look())


def flags(module, checks):
    with checks.group("eight channels: i2cget of a flag byte clears it and its pending bits, for its port alone") as group:
        for port in DEVICES:
            for at in range(BYTES):
                start(module, ALL)
                before = bytearray(module.look())
                what = f"bus {port}, byte {FIRST_FLAG + at}"
                group.same(what, (0, [FLAG_BITS[at]]), get(module, port, FIRST_FLAG + at))
                for run in (0, 2):
                    before[BYTES * (1 + 3 * (port - 1) + run) + at] = 0
                group.same(f"{what}: the 98 bytes", bytes(before), module.look())
                group.same(f"{what} again", (0, [0]), get(module, port, FIRST_FLAG + at))


def masks(module, checks):
    with checks.group("eight channels: i2cset of FFh to 102 to 115: that port's alone, and the bits that have a flag") as group:
        for port, other in ((OPERATOR, RECORDER), (RECORDER, OPERATOR)):
            start(module)
            for at in range(BYTES):
                group.same(f"bus {port}, {FIRST_MASK + at}", (0, ""), put(module, port, FIRST_MASK + at, 0xFF))
            group.same(f"bus {port} reads", (0, MASK_BITS), get(module, port, FIRST_MASK, "i", BYTES))
            group.same(f"bus {other} reads", (0, [0] * BYTES), get(module, other, FIRST_MASK, "i", BYTES))
            for address in (0, 2, 17, 101, 116, 127):
                group.same(f"bus {port}, {address}", (0, [0]), get(module, port, address))


def lasting(module, checks):
    with checks.group("eight channels: a condition that lasts is read by both; after that it is raised, not pending") as group:
        start(module, DARK)
        for port in DEVICES:
            group.same(f"bus {port}", (0, [0x10, 0, 0x10]), get(module, port, FIRST_FLAG, "i", 3))
        group.same("the next sample", 0, module.sample(DARK)[0])
        left = module.look()
        group.same("raised for both", [DARK, DARK], [left[BYTES:BYTES * 2], left[BYTES * 4:BYTES * 5]])
        group.same("pending for neither", [bytes(BYTES)] * 2, [left[BYTES * 3:BYTES * 4], left[BYTES * 6:]])
        for port in DEVICES:
            group.same(f"bus {port} again", (0, [0x10, 0, 0x10]), get(module, port, FIRST_FLAG, "i", 3))


def refused(module, checks):
    unsound = bytearray(EIGHT_LEN)
    unsound[BYTES + 5] = 0x01  # the operator's byte 8 has a bit that is no flag
    rows = (("the operator's record is unsound", OPERATOR, 3, get, (3,), unsound),
            ("a write of it", OPERATOR, 3, put, (FIRST_MASK, 1), unsound),
            ("read of 129", OPERATOR, 4, transfer, (f"w1@{MODULE_AT}", 0, "r129"), None),
            ("5 bytes", RECORDER, 4, put, (FIRST_MASK, 1, 1, 1, 1, 1, "i"), None),
            ("read of 2 at 127", OPERATOR, 5, get, (127, "w"), None), ("read at 128", RECORDER, 5, get, (128,), None),
            ("write of 2 at 127", OPERATOR, 5, put, (127, 0x0101, "w"), None),
            ("recorder at 101 and 102", RECORDER, 7, put, (101, 0x0101, "w"), None),
            ("recorder at 116", RECORDER, 7, put, (116, 1), None), ("recorder at 127", RECORDER, 7, put, (127, 0), None),
            ("recorder at a flag", RECORDER, 7, put, (3, 0), None))
    for name, port, refusal, how, words, state in rows:
        start(module, ALL)
        if state:
            module.lend(state)
        before = module.look()
        status, _ = how(module, port, *words)
        checks.same(f"eight channels, refused, {name}: number {refusal}, an error to the tool, nothing changed",
                    (True, refusal, True), (status != 0, module.refusal(), module.look() == before))
    with checks.group("eight channels, accepted beside them: the recorder's read; the operator's write of 1 at 127") as group:
        module.lend(unsound)
        group.same("the recorder, where the operator's record is unsound", (0, [0]), get(module, RECORDER, 3))
        start(module)
        group.same("127", (0, ""), put(module, OPERATOR, 127, 1))
        group.same("the 98 bytes", bytes(EIGHT_LEN), module.look())


def history(module, checks):
    with checks.group("eight channels: 200 samples and calls of i2c-tools on both ports; the 98 bytes after each") as group:
        chance = random.Random(106)
        start(module)
        sample = bytes(BYTES)
        for step in range(200):
            port = chance.choice((OPERATOR, RECORDER))
            if chance.randrange(2):
                sample = bytes(byte ^ (chance.randrange(256) & chance.randrange(256) & chance.randrange(256)) for byte in sample)
                group.same(f"step {step}: sample", (0, 0), module.sample(sample))
            elif chance.randrange(2):
                address, count = chance.randrange(0, 18), chance.choice((1, 4, 14))
                group.same(f"step {step}: i2cget", (0, list(module.paper.read(port, address, count)[1])),
                           get(module, port, address, "i", count))
            else:
                address, data = chance.randrange(FIRST_MASK, 113), chance.randbytes(chance.randrange(1, 4))
                module.paper.write(port, address, data)
                group.same(f"step {step}: i2cset", (0, ""), put(module, port, address, *data, "i"))
            group.same(f"step {step}: the 98 bytes", bytes(module.paper.state), module.look())


def with_ethtool(module, checks):
    """Byte 0 reads 0, which is no identifier: ethtool shows bytes and names nothing, or by ioctl fails."""
    with checks.group("eight channels: ethtool does not know it: over netlink bytes, and that port's flags are cleared") as group:
        for port, device in DEVICES.items():
            start(module, ALL)
            bytes_read = module.paper.read(port, 0, 128)[1]
            status, text, _ = module.run("ethtool", "-m", device)
            shown = [int(word, 16) for line in text.splitlines()[2:] for word in line.split()[1:]]
            group.same(device, (0, list(bytes_read)), (status, shown))
            group.same(f"{device}: the 98 bytes", bytes(module.paper.state), module.look())
    with checks.group("eight channels: ethtool does not know it: over ioctl an error, and it names nothing") as group:
        for device in DEVICES.values():
            start(module, ALL)
            group.same(device, (1, ""), module.run("ethtool", "-m", device, way="ioctl")[:2])


def run(module, checks):
    for part in (reads, writes, dumps, flags, masks, lasting, refused, history, with_ethtool):
        part(module, checks)
