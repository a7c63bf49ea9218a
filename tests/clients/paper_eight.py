"""paper_eight.py: an eight-channel module as document 02's Ask 6 describes it, in Python, written from its words and document
002's tables (eight-flags.txt), and not from the library.

Its 98 bytes are the conditions of the last sample, then for each port its flags, its masks and its pending bits, 14 bytes each.
"""
from pathlib import Path

OPERATOR, RECORDER = 1, 2
BYTES, FIRST_FLAG, FIRST_MASK, ADDRESSES = 14, 3, 102, 128


def table():
    """Each flag: its byte and bit, its mask's byte and bit or None, its name."""
    rows = []
    for line in (Path(__file__).parent / "eight-flags.txt").read_text(encoding="ascii").splitlines():
        if not line.startswith("#"):
            flag, mask, name = line.split(maxsplit=2)
            place = tuple(map(int, flag.split(".")))
            rows.append((*place, None if mask == "-" else tuple(map(int, mask.split("."))), name))
    return rows


FLAGS = table()
FLAG_BITS = [sum(1 << bit for byte, bit, _, _ in FLAGS if byte == FIRST_FLAG + at) for at in range(BYTES)]
MASK_BITS = [sum(1 << mask[1] for _, _, mask, _ in FLAGS if mask and mask[0] == FIRST_MASK + at) for at in range(BYTES)]


class Eight:
    """The 98 bytes, and the calls. Each call gives its refusal; a refused one changes nothing."""

    def __init__(self):
        self.state = bytearray(BYTES * 7)

    # ---- a port's three runs of bytes, as slices of the state

    def run(self, port, which):
        start = BYTES * (1 + 3 * (port - 1) + ("flags", "masks", "pending").index(which))
        return slice(start, start + BYTES)

    def sound(self, port):
        bits = {"flags": FLAG_BITS, "masks": MASK_BITS, "pending": FLAG_BITS}
        return not any(byte & ~allowed for which, own in bits.items()
                       for byte, allowed in zip(self.state[self.run(port, which)], own))

    def count(self, port):
        """The pending bits that the port's masks let through."""
        return sum(bin(pending & ~mask).count("1") for pending, mask in
                   zip(self.state[self.run(port, "pending")], self.state[self.run(port, "masks")]))

    # ---- the calls

    def reset(self, _image=b""):
        self.state[:] = bytes(len(self.state))
        return 0

    def sample(self, sample):
        if not self.sound(OPERATOR) or not self.sound(RECORDER):
            return 3
        if len(sample) != BYTES:
            return 8
        now = bytes(byte & allowed for byte, allowed in zip(sample, FLAG_BITS))
        onset = bytes(new & ~old for new, old in zip(now, self.state[:BYTES]))
        for port in (OPERATOR, RECORDER):
            for which, bits in (("flags", now), ("pending", onset)):
                own = self.run(port, which)
                self.state[own] = bytes(old | new for old, new in zip(self.state[own], bits))
        self.state[:BYTES] = now
        return 0

    def read(self, port, address, count):
        """The refusal and the bytes."""
        if not self.sound(port):
            return 3, b""
        if not 1 <= count <= 128:
            return 4, b""
        if address + count > ADDRESSES:
            return 5, b""
        whole = bytearray(ADDRESSES)
        whole[FIRST_FLAG:FIRST_FLAG + BYTES] = self.state[self.run(port, "flags")]
        whole[FIRST_MASK:FIRST_MASK + BYTES] = self.state[self.run(port, "masks")]
        for at in range(max(address, FIRST_FLAG), min(address + count, FIRST_FLAG + BYTES)):
            for which in ("flags", "pending"):
                self.state[self.run(port, which).start + at - FIRST_FLAG] = 0
        return 0, bytes(whole[address:address + count])

    def write(self, port, address, data):
        if not self.sound(port):
            return 3
        if not 1 <= len(data) <= 4:
            return 4
        if address + len(data) > ADDRESSES:
            return 5
        places = [at - FIRST_MASK for at in range(address, address + len(data))]
        if port == RECORDER and not all(0 <= at < BYTES for at in places):
            return 7
        for at, byte in zip(places, data):
            if 0 <= at < BYTES:
                self.state[self.run(port, "masks").start + at] = byte & MASK_BITS[at]
        return 0
