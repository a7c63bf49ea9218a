"""paper.py: a module as document 01 describes it, in Python, written from its words and not from the library.

What the tools print, and the 688 bytes after them, are held to this.
"""

OPERATOR, RECORDER = 1, 2
KINDS = ("high alarm", "low alarm", "high warning", "low warning")
# quantity: its first threshold on page 03h, its first flag byte, where its numbers are stored, their places in a sample
QUANTITIES = {
    "temperature": (128, 6, 22, (0,)),
    "supply": (144, 7, 26, (1,)),
    "Rx power": (176, 9, 34, (2, 3, 4, 5)),
    "Tx bias": (184, 11, 42, (6, 7, 8, 9)),
    "Tx power": (192, 13, 50, (10, 11, 12, 13)),
}
FIELDS = {"vendor name": (148, 163), "OUI": (165, 167), "part number": (168, 183), "revision": (184, 185),
          "serial": (196, 211), "date": (212, 219)}
MASK_OF = {3: 100, 4: 101, 5: 102, 6: 103, 7: 104, 9: 242, 10: 243, 11: 244, 12: 245, 13: 246, 14: 247}
CODES = ((128, 190), (192, 222))  # each is summed up in the byte after it
FLAGS = range(3, 15)


def flag_at(quantity, channel, kind):
    """The flag's byte and bit: four bits from bit 7 down, an even channel's from bit 3 down."""
    pair, even = divmod(channel - 1, 2)
    return QUANTITIES[quantity][1] + pair, 7 - KINDS.index(kind) - 4 * even


def signed(number):
    return number - 0x10000 if number >= 0x8000 else number


def word(run, at):
    return run[at] << 8 | run[at + 1]


def with_codes(image):
    """The image with its check codes made right."""
    image = bytearray(image)
    for first, last in CODES:
        image[last + 1] = sum(image[first:last + 1]) & 0xFF
    return bytes(image)


class Paper:
    """The 688 bytes and the calls on them; a call gives its refusal number first."""

    def __init__(self):
        self.state = bytearray(688)

    # ---- the state

    @staticmethod
    def record(port):
        return 640 + 24 * (port - 1)

    def pages(self):
        paged, offered = not self.state[2] & 4, self.state[195]
        return {0} | ({3} if paged else set()) | ({1} if paged and offered & 64 else set()) | \
            ({2} if paged and offered & 128 else set())

    def page(self, port):
        return self.state[self.record(port) + 23]

    def sound(self, port):
        own = self.state[self.record(port):self.record(port) + 24]
        return own[23] in self.pages() and own[5] == 0 and not any(own[at] & 15 for at in (3, 4, 15, 16))

    def place(self, port, address):
        """Where a host address of this port lies."""
        page = self.page(port)
        if address in FLAGS:
            return self.record(port) + address - 3
        if 100 <= address <= 104:
            return self.record(port) + 12 + address - 100
        if address == 127:
            return self.record(port) + 23
        if page == 3 and 242 <= address <= 247:
            return self.record(port) + 17 + address - 242
        return address if address < 128 else address + 128 * page

    def limits(self, quantity):
        first = 512 + QUANTITIES[quantity][0] - 128
        return [word(self.state, first + 2 * i) for i in range(4)]

    def count(self, port):
        """The raised flags that the port's masks let through."""
        own = self.record(port)
        masks = {flag: own + 12 + at for at, flag in enumerate(MASK_OF)}
        return sum(bin(self.state[own + flag - 3] & ~self.state[mask] & 0xFF).count("1") for flag, mask in masks.items())

    # ---- the calls

    def reset(self, image):
        if len(image) != 640:
            return 9
        if with_codes(image) != bytes(image):
            return 10
        kept = self.state[384:512]
        self.state[:] = bytes(image) + bytes(48)
        self.state[384:512] = kept
        self.state[2] = image[2] & 4 | 1
        for first, last in ((3, 14), (22, 57), (100, 104), (119, 127), (512 + 242 - 128, 512 + 247 - 128)):
            self.state[first:last + 1] = bytes(last + 1 - first)
        return 0

    def sample(self, sample):
        if not self.sound(OPERATOR) or not self.sound(RECORDER):
            return 3
        if len(sample) != 31:
            return 8
        raised = dict(zip(FLAGS, bytes(sample[:3]) + bytes(9)))
        for quantity, (_, _, stored, places) in QUANTITIES.items():
            if quantity == "Tx power" and not self.state[220] & 4:
                continue
            value = signed if quantity == "temperature" else int
            high_alarm, low_alarm, high_warning, low_warning = map(value, self.limits(quantity))
            for channel, at in enumerate(places, 1):
                self.state[stored + 2 * channel - 2:stored + 2 * channel] = sample[3 + 2 * at:5 + 2 * at]
                number = value(word(sample, 3 + 2 * at))
                holds = (number > high_alarm, number < low_alarm, number > high_warning, number < low_warning)
                for kind, held in zip(KINDS, holds):
                    byte, bit = flag_at(quantity, channel, kind)
                    raised[byte] |= held << bit
        self.state[2] &= 0xFE
        for port in (OPERATOR, RECORDER):
            for byte, bits in raised.items():
                self.state[self.record(port) + byte - 3] |= bits
        return 0

    def read(self, port, address, count):
        """The refusal and the bytes."""
        if not self.sound(port):
            return 3, b""
        if not 1 <= count <= 128:
            return 4, b""
        if address + count > 256:
            return 5, b""
        level = 2 if self.count(port) == 0 else 0
        out = bytearray()
        for at in range(address, address + count):
            byte = self.state[self.place(port, at)]
            out.append(byte & 5 | level if at == 2 else 0 if 119 <= at <= 126 else byte)
        for at in set(FLAGS) & set(range(address, address + count)):
            self.state[self.place(port, at)] = 0
        return 0, bytes(out)

    def writable(self, port, address):
        """The bits that the port may write; None where the byte is not the recorder's own."""
        page = self.page(port)
        own = {100: 255, 101: 255, 102: 255, 103: 0xF0, 104: 0xF0, 127: 255}
        if address in own:
            return own[address]
        if page == 3 and 242 <= address <= 247:
            return 255
        if port == RECORDER:
            return None
        if address >= 128:
            return 255 if page == 2 or (page == 3 and 234 <= address <= 241) else 0
        return {86: 15, 87: 255, 88: 255, 98: 255, 93: 7}.get(address, 0)

    def write(self, port, address, data):
        if not self.sound(port):
            return 3
        if not 1 <= len(data) <= 4:
            return 4
        if address + len(data) > 256 or address <= 127 < address + len(data) - 1:
            return 5
        run = [(self.place(port, at), self.writable(port, at), at) for at in range(address, address + len(data))]
        if any(bits is None for _, bits, _ in run):
            return 7
        for (place, bits, at), byte in zip(run, data):
            byte = byte if at != 127 or byte in self.pages() else 0
            self.state[place] = self.state[place] & ~bits | byte & bits
        return 0
