"""history.py: one module, and all tools on both ports in turn, at random: what each shows, and the 688 bytes after it."""
import random

import listing
from bench import DEVICES, WAYS
from feed import random_image, random_sample
from paper import OPERATOR, RECORDER
from with_ethtool import expected, show
from with_i2c import get, put, transfer


def with_ethtool(group, module, chance, port):
    way = chance.choice(WAYS)
    lines = show(module, port, way)
    listing.compare(group, f"ethtool on {DEVICES[port]} over {way}", expected(module, port), lines)


def with_i2cget(group, module, chance, port):
    address, count = chance.choice((2, 3, 6, 9, 13, 22, 86, 98, 100, 127, 128, 200, 234, 242)), chance.choice((1, 2, 12, 32))
    refusal, run = module.paper.read(port, address, count)
    wanted = (2, "Error: Read failed\n") if refusal else (0, list(run))
    group.same(f"i2cget, bus {port}, {count} at {address}", wanted, get(module, port, address, "i", count))


def with_i2cset(group, module, chance, port):
    address, data = chance.choice(((127, [chance.randrange(5)]), (100, chance.randbytes(4)), (242, chance.randbytes(4)),
                                   (86, chance.randbytes(3)), (103, chance.randbytes(2)), (234, chance.randbytes(4)),
                                   (128, chance.randbytes(1)), (126, chance.randbytes(3))))
    refusal = module.paper.write(port, address, bytes(data))
    wanted = (1, "Error: Write failed\n") if refusal else (0, "")
    group.same(f"i2cset, bus {port}, {bytes(data).hex()} at {address}", wanted, put(module, port, address, *data, "i"))


def with_i2ctransfer(group, module, chance, port):
    page = chance.randrange(4)
    module.paper.write(port, 127, bytes([page]))
    wanted = module.paper.read(port, 120, 128)[1]
    seen = transfer(module, port, "w2@0x50", 127, page, "w1", 120, "r128")
    group.same(f"i2ctransfer, bus {port}, across 127 and 128 with page {page}", (0, list(wanted)), seen)


def run(module, checks):
    with checks.group("a history of 300 samples, resets, ethtool and i2c-tools on both ports; the 688 bytes after each") as group:
        chance = random.Random(300)
        image = random_image(chance)
        module.reset(image)
        module.sample(random_sample(chance, image))
        tools = (with_ethtool, with_i2cget, with_i2cset, with_i2ctransfer)
        for step in range(300):
            if step % 60 == 59:
                image = random_image(chance)
                group.same("reset", (0, 0), module.reset(image))
                module.sample(random_sample(chance, image))
            elif chance.randrange(5) < 2:
                group.same("sample", (0, 0), module.sample(random_sample(chance, image)))
            else:
                chance.choice(tools)(group, module, chance, chance.choice((OPERATOR, RECORDER)))
            group.same(f"step {step}: the 688 bytes", bytes(module.paper.state), module.look())
