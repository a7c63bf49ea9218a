"""with_dumps.py: `ethtool -m` with raw and hex output: 640 bytes over ioctl, parts of pages over netlink; and its errors."""
import random
import re

from bench import DEVICES, WAYS
from feed import random_state, sample
from paper import OPERATOR, RECORDER


def page_bytes(paper, port, page):
    """A page as the port sees it: it selects the page, reads, and selects the old one again."""
    before = paper.page(port)
    paper.write(port, 127, bytes([page]))
    seen = paper.read(port, 128, 128)[1] if paper.page(port) == page else bytes(128)
    paper.write(port, 127, bytes([before]))
    return seen


def everything(paper, port):
    """Lower memory and the pages in turn; a page that is not there is zeros."""
    return paper.read(port, 0, 128)[1] + b"".join(page_bytes(paper, port, page) for page in range(4))


def from_hex(text):
    """The bytes of a hex dump, which has its offset before each line."""
    return bytes.fromhex("".join(re.findall(r"^0x[0-9a-f]{4}:\t\t(.*)$", text, re.M)))


def whole(module, checks):
    with checks.group("ethtool -m raw on, hex on: the 640 bytes in 20 states; the 688 bytes") as group:
        chance = random.Random(640)
        for number in range(20):
            module.lend(random_state(chance))
            port, form = 1 + number % 2, ("raw", "hex")[number // 2 % 2]
            status, text, _ = module.run("ethtool", "-m", DEVICES[port], form, "on")
            seen = text.encode("latin-1") if form == "raw" else from_hex(text)
            group.same(f"state {number}, {form}", (0, everything(module.paper, port)), (status, seen))
            group.same(f"state {number}: the 688 bytes", bytes(module.paper.state), module.look())


def missing_pages(module, checks):
    """What is not offered: 01h and 02h by byte 195, all but 00h in a flat module."""
    rows = (("01h is not offered", 2, 0x00, 195, 0x80, {1}, 640), ("02h is not offered", 2, 0x00, 195, 0x40, {2}, 640),
            ("flat memory", 2, 0x04, 195, 0xC0, {1, 2, 3}, 256))
    for name, at, bits, options_at, options, absent, length in rows:
        with checks.group(f"{name}: {length} bytes in all, zeros for the page, an error over netlink; no change") as group:
            module.reset()
            module.sample(sample())
            state = bytearray(module.paper.state)
            state[at], state[options_at] = bits, options
            state[640 + 23] = 0 if bits else 3
            state[256:640] = random.Random(256).randbytes(384)
            module.lend(state)
            status, text, _ = module.run("ethtool", "-m", "operator", "raw", "on")
            group.same("raw", (0, everything(module.paper, OPERATOR)[:length]), (status, text.encode("latin-1")))
            for page in (1, 2, 3):
                status, text, complaint = module.run("ethtool", "-m", "operator", "raw", "on", "page", page)
                seen = (status, text.encode("latin-1"), complaint)
                found = (1, b"", "netlink error: Invalid argument\n")
                group.same(f"page {page}", found if page in absent else (0, page_bytes(module.paper, OPERATOR, page), ""), seen)
            group.same("the 688 bytes", bytes(state), module.look())


def parts(module, checks):
    with checks.group("ethtool -m page P offset O length L, over netlink: 60 parts of pages; the 688 bytes") as group:
        chance = random.Random(128)
        for number in range(60):
            module.lend(random_state(chance))
            port, page = chance.choice((OPERATOR, RECORDER)), chance.randrange(4)
            first = 0 if page == 0 and chance.randrange(2) else 128
            offset = first + chance.randrange(128) if first else chance.randrange(1, 128)
            length = chance.randrange(1, first + 128 - offset + 1)
            status, text, _ = module.run("ethtool", "-m", DEVICES[port], "page", page, "offset", offset, "length", length)
            wanted = module.paper.read(port, offset, length)[1] if first == 0 else \
                page_bytes(module.paper, port, page)[offset - 128:offset - 128 + length]
            group.same(f"page {page}, offset {offset}, length {length}", (0, wanted), (status, from_hex(text)))
            group.same("the 688 bytes", bytes(module.paper.state), module.look())


def errors(module, checks):
    invalid, absent, no_device = "Invalid argument", "No such device or address", "No such device"
    rows = (("another device", ("nobody",), "netlink", no_device), ("another device", ("nobody",), "ioctl", no_device),
            ("a page that no module has", ("operator", "page", "4"), "netlink", invalid),
            ("a bank", ("operator", "page", "3", "bank", "1"), "netlink", invalid),
            ("another bus address", ("operator", "i2c", "0x51", "length", "1"), "netlink", absent),
            ("across 127 and 128", ("operator", "offset", "120", "length", "20"), "netlink", invalid),
            ("past 255", ("operator", "offset", "250", "length", "20"), "netlink", invalid))
    with checks.group("what ethtool -m cannot have is an error: other devices, pages, banks, bus addresses, lengths") as group:
        module.reset()
        module.sample(sample(status=(1, 2, 3)))
        for name, words, way, error in rows:
            status, text, complaint = module.run("ethtool", "-m", *words, way=way)
            group.same(f"{name} over {way}", (1, "", True), (status, text, complaint.splitlines()[0].endswith(f": {error}")))
        for option in ("-i", "-g", "-a"):
            for way in WAYS:
                status, _, complaint = module.run("ethtool", option, "operator", way=way)
                group.same(f"ethtool {option} over {way}", (True, True), (status != 0, "Operation not supported" in complaint))
        group.same("the 688 bytes", bytes(module.paper.state), module.look())


def run(module, checks):
    whole(module, checks)
    missing_pages(module, checks)
    parts(module, checks)
    errors(module, checks)
