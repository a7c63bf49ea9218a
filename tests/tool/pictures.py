"""pictures.py: a picture in a PNG file, in plain Python: the colours of its points."""
import struct
import zlib

SIGNATURE = b"\x89PNG\r\n\x1a\n"
CHANNELS = {2: 3, 6: 4}  # of eight bits each: colours, or colours and how opaque they are


class NoPicture(Exception):
    """The bytes are no such file."""


def parts_of(run):
    """The kinds and bytes of its parts."""
    at, parts = len(SIGNATURE), []
    if not run.startswith(SIGNATURE):
        raise NoPicture("it is no PNG file")
    while at < len(run):
        length, kind = struct.unpack_from(">I4s", run, at)
        parts.append((kind, run[at + 8:at + 8 + length]))
        at += 12 + length
    return parts


def nearest(left, above, corner):
    """Of three neighbours the one that is nearest to left + above - corner."""
    guess = left + above - corner
    return min((left, above, corner), key=lambda value: abs(guess - value))


def unfiltered(way, line, before, step):
    """A line of points, of which each byte was written as what it differs by from a guess."""
    line = bytearray(line)
    if way == 2:
        return bytearray((one + other) & 255 for one, other in zip(line, before))
    for at in range(len(line)) if way else ():
        left, corner = (line[at - step], before[at - step]) if at >= step else (0, 0)
        guess = left if way == 1 else (left + before[at]) // 2 if way == 3 else nearest(left, before[at], corner)
        line[at] = (line[at] + guess) & 255
    return line


class Picture:
    """A picture: its width and height, and the colour at a point, from its left upper corner on."""

    def __init__(self, run):
        parts = parts_of(run)
        self.width, self.height, depth, colours, _, _, woven = struct.unpack(">2I5B", dict(parts).get(b"IHDR", bytes(13)))
        if depth != 8 or colours not in CHANNELS or woven:
            raise NoPicture("it has points of another kind")
        self.step = CHANNELS[colours]
        points, wide = zlib.decompress(b"".join(part for kind, part in parts if kind == b"IDAT")), self.width * self.step
        self.lines, before = [], bytearray(wide)
        for at in range(0, len(points), wide + 1):
            before = unfiltered(points[at], points[at + 1:at + 1 + wide], before, self.step)
            self.lines.append(before)

    def at(self, x, y):
        return tuple(self.lines[y][x * self.step:x * self.step + 3])

    def across(self, y, colours):
        """The places of a line at which the colour is one of these, by a test."""
        return [x for x in range(self.width) if colours(*self.at(x, y))]
