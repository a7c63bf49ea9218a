"""states.py: states, images and samples to make calls on. They come about by calls, but for bytes that no call can put there."""
import random
from functools import cache

from library import IMAGE, PORTS, SAMPLE, STATE, ROOT, accepted, read, reset, sample, write

FACTORY = bytes.fromhex((ROOT / "data" / "factory-image.hex").read_text(encoding="ascii"))
DEAD = (*range(3, 15), *range(100, 105), *range(119, 128), *range(626, 632))
HIGHEST, LOWEST = (0xFF, 0xFF), (0, 0)


def put(memory, at, *values):
    memory = bytearray(memory)
    memory[at:at + len(values)] = bytes(values)
    return bytes(memory)


def some(seed, count):
    """Bytes at random, the same for the same seed."""
    return random.Random(seed).randbytes(count)


def number(value):
    return value.to_bytes(2, "big")


# ---- images

def coded(image):
    """The image with the check codes of its page 00h right."""
    image = put(image, 191, sum(image[128:191]) % 256)
    return put(image, 223, sum(image[192:223]) % 256)


@cache
def an_image(seed):
    """Bytes at random, in which every page can be selected and Tx power is measured."""
    image = bytearray(some(seed, IMAGE))
    image[2] &= ~0x04
    image[195] |= 0xC0
    image[220] |= 0x04
    return coded(image)


def limited(image, high, low):
    """The image with these two bytes in each high and each low threshold; temperature's, which are signed, with bit 15 turned."""
    for at in (144, 176, 184, 192):
        image = put(image, 384 + at, *high, *low, *high, *low)
    high, low = ((one[0] ^ 0x80, one[1]) for one in (high, low))
    return put(image, 512, *high, *low, *high, *low)


@cache
def wide(seed):
    """An image whose limits no number is outside of."""
    return limited(an_image(seed), HIGHEST, LOWEST)


# ---- states

@cache
def fresh(image):
    return accepted(reset(bytes(STATE), image))


@cache
def a_state(seed, pages=(0, 0)):
    """A sound state of bytes at random: each port with flags, masks and a page of its own; dead places and bits are filled."""
    state = accepted(reset(some(seed, STATE), an_image(seed + 1)))
    state = accepted(sample(state, some(seed + 2, SAMPLE)))
    state = accepted(read(state, 1, 3, 12))
    state = accepted(sample(state, some(seed + 3, SAMPLE)))
    for port, page in zip(PORTS, pages):
        state = accepted(write(state, port, 127, 3))
        for at, mask in zip((*range(100, 105), *range(242, 248)), some(seed + 3 + port, 11)):
            state = accepted(write(state, port, at, mask))
        state = accepted(write(state, port, 127, page))
    for at, value in zip(DEAD, some(seed + 6, len(DEAD))):
        state = put(state, at, value)
    return put(state, 2, 0xA0 | seed & 0x1A)


@cache
def all_raised():
    """Every flag is raised for both ports and none masked: each number is outside all four of its limits."""
    state = fresh(limited(an_image(1), LOWEST, HIGHEST))
    return accepted(sample(state, b"\xff" * 3 + number(0x1234) * 14))
