"""feed.py: samples and factory images for the tests, some at random."""
import struct

from bench import IMAGE
from paper import FIELDS, QUANTITIES, with_codes, word

# numbers inside every limit of the factory image: 30 degrees, 3.3 V, 0.8 mW, 6 mA, 0.9 mW
IN_RANGE = [0x1E00, 33000] + [8000] * 4 + [3000] * 4 + [9000] * 4
STOPS = (0x0000, 0xFFFF)  # the temperatures at which ethtool stops; departures.py has them


def sample(numbers=None, status=(0, 0, 0), **changes):
    """A sample of 31 bytes; a change is a place in the sample, as in at2=501."""
    numbers = list(IN_RANGE if numbers is None else numbers)
    for place, number in changes.items():
        numbers[int(place.removeprefix("at"))] = number
    return bytes(status) + struct.pack(">14H", *numbers)


def beyond_all(image=IMAGE):
    """A sample that is above every high limit and has every status bit."""
    numbers = [0] * 14
    for first, _, _, places in QUANTITIES.values():
        for place in places:
            numbers[place] = word(image, 512 + first - 128) + 1
    return sample(numbers, (0xFF, 0xFF, 0xFF))


def random_sample(chance, image):
    """Each number at, or one beside, one of its limits, or anywhere; status bits in a third of the samples."""
    numbers = [0] * 14
    for first, _, _, places in QUANTITIES.values():
        for place in places:
            limit = word(image, 512 + first - 128 + 2 * chance.randrange(4))
            near = (limit + chance.choice((-1, 0, 1))) & 0xFFFF
            edge = chance.choice((0, 1, 0x7FFF, 0x8000, 0xFFFF))
            numbers[place] = chance.choice((near, near, chance.randrange(0x10000), edge))
    while numbers[0] in STOPS:
        numbers[0] = chance.randrange(0x10000)
    status = [chance.randrange(256) & chance.randrange(256) for _ in range(3)] if chance.randrange(3) == 0 else (0, 0, 0)
    return sample(numbers, status)


def random_image(chance):
    """The factory image with limits at random, in a third of the images; a low one may lie above a high one."""
    image = bytearray(IMAGE)
    if chance.randrange(3) == 0:
        for first, _, _, _ in QUANTITIES.values():
            image[512 + first - 128:512 + first - 120] = chance.randbytes(8)
    return bytes(image)


def random_identity(chance):
    """The factory image with other fields: letters and inner blanks, then blanks, or blanks alone; check codes are right."""
    image = bytearray(IMAGE)
    for field, (first, last) in FIELDS.items():
        length = last + 1 - first
        text = bytes(chance.choice(b"ABCxyz019 -./~!") for _ in range(chance.randrange(length + 1))).ljust(length)
        image[first:last + 1] = chance.randbytes(3) if field == "OUI" else text
    return with_codes(image)


def random_state(chance):
    """A state of a paged module with all pages, anything else at random, with sound records."""
    state = bytearray(chance.randbytes(688))
    state[0], state[2], state[195] = 0x11, state[2] & 0xFB, state[195] | 0xC0
    for own in (640, 664):
        state[own + 5] = 0
        for at in (3, 4, 15, 16):
            state[own + at] &= 0xF0
        state[own + 23] = chance.randrange(4)
    return bytes(state)
