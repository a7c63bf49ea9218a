"""with_ethtool.py: `ethtool -m` on the operator's and the recorder's device, over netlink and over ioctl."""
import random

import listing
from bench import DEVICES, IMAGE, WAYS
from feed import beyond_all, random_identity, random_image, random_sample, sample
from paper import FLAGS, OPERATOR, RECORDER

FLAG_PLACES = {port: range(640 + 24 * (port - 1), 652 + 24 * (port - 1)) for port in DEVICES}


def show(module, port, way):
    """What `ethtool -m` prints of a port's device, as lines; what it complains is an error here."""
    status, text, complaint = module.run("ethtool", "-m", DEVICES[port], way=way)
    if status != 0 or complaint:
        raise RuntimeError(f"ethtool over {way}: exit status {status}, {complaint.strip()!r}")
    return listing.parse(text)


def expected(module, port):
    """The monitor lines, from the paper; they are then read there too."""
    return listing.monitors(module.paper.read(port, 0, 128)[1], module.paper)


def before_monitors(lines):
    return lines[:len(lines) - len(listing.monitor_part(lines))]


def identities(module, checks):
    with checks.group("identity: the factory image's six fields, both devices, netlink and ioctl") as group:
        module.reset()
        for port in DEVICES:
            for way in WAYS:
                lines = dict(show(module, port, way))
                for name, text in listing.identity(IMAGE).items():
                    group.same(f"{DEVICES[port]}, {way}, {name}", text, lines.get(name))
    with checks.group("identity: 20 factory images with other fields") as group:
        chance = random.Random(20)
        for number in range(20):
            image = random_identity(chance)
            group.same("reset", (0, 0), module.reset(image))
            lines = dict(show(module, 1 + number % 2, WAYS[number // 2 % 2]))
            for name, text in listing.identity(image).items():
                group.same(f"image {number}, {name}", text, lines.get(name))


def ways(module, checks):
    """ethtool's own word of what it sends; without generic netlink it goes on by ioctl."""
    with checks.group("each way is the way it is said to be: five netlink messages, four for the module; or none") as group:
        module.reset()
        for way, messages in (("netlink", 5), ("ioctl", 0)):
            status, text, _ = module.run("ethtool", "--debug", "3", "-m", "operator", way=way)
            sent = text.count("sending genetlink packet"), text.count(" ETHTOOL_MSG_MODULE_EEPROM_GET\n")
            group.same(way, (0, messages, max(messages - 1, 0)), (status, *sent))
            lines = dict(listing.parse(text))
            group.same(f"{way}: the listing", listing.identity(IMAGE)["Vendor name"], lines.get("Vendor name"))


def samples(module, checks, way):
    chance = random.Random(way)
    module.reset()
    front = before_monitors(show(module, OPERATOR, way))
    with checks.group(f"150 samples and more over {way}: readings, flags since its last read, limits; 688 bytes") as group:
        for number in range(150):
            if number % 15 == 0:
                image = random_image(chance)
                group.same("reset", (0, 0), module.reset(image))
            for _ in range(chance.choice((1, 1, 2))):
                group.same("sample", (0, 0), module.sample(random_sample(chance, image)))
            for port in (OPERATOR, RECORDER) if number % 3 == 2 else (OPERATOR,):
                lines = show(module, port, way)
                listing.compare(group, f"sample {number}, {DEVICES[port]}", expected(module, port), lines)
                group.same(f"sample {number}, {DEVICES[port]}: the lines before", front, before_monitors(lines))
            group.same(f"sample {number}: the 688 bytes", bytes(module.paper.state), module.look())


def marked(module, checks):
    """The flags of byte 9, and M8 and M9, as document 01's marked examples have them."""
    rows = (("M1", 9, {"at2": 251}, 0x10), ("M2", 9, {"at2": 250}, 0x50), ("M3", 9, {"at2": 35481}, 0x20),
            ("M4", 9, {"at2": 35482}, 0xA0), ("M5", 9, {"at3": 500}, 0x01), ("M6", 9, {}, 0), ("M6", 10, {}, 0),
            ("M8", 6, {"at0": 0xFFFE}, 0x10), ("M9", 7, {"at1": 0x7A75}, 0x10), ("M9", 7, {"at1": 0x7A76}, 0))
    with checks.group("marked examples M1 to M6, M8 (at FFFEh: ethtool stops at FFFFh), M9, by the names of the flags") as group:
        for name, byte, changes, bits in rows:
            module.reset()
            module.sample(sample(**{"at2": 501, "at3": 501, "at4": 501, "at5": 501, **changes}))
            lines = dict(show(module, OPERATOR, "netlink"))
            on = {flag for flag, at, _ in listing.flag_names() if at == byte and lines.get(flag) == "On"}
            group.same(name, {flag for flag, at, bit in listing.flag_names() if at == byte and bits >> bit & 1}, on)


def apart(module, checks, reader, other, way):
    """One port's ethtool takes nothing of the other's."""
    name = f"ethtool -m {DEVICES[reader]} over {way}: clears its own flags and no other byte; {DEVICES[other]} then sees them all"
    with checks.group(name) as group:
        for page in (0, 1, 2, 3):
            module.reset()
            for port in DEVICES:
                module.paper.write(port, 127, bytes([(page + port) % 4]))
            module.lend(module.paper.state)
            module.sample(beyond_all())
            before = module.look()
            group.same("flags stand", [True, True], [any(before[place] for place in FLAG_PLACES[port]) for port in DEVICES])
            listing.compare(group, "first", expected(module, reader), show(module, reader, way))
            after = bytearray(before)
            for place in FLAG_PLACES[reader]:
                after[place] = 0
            group.same(f"page {page}: the 688 bytes", bytes(after), module.look())
            gone = dict(show(module, reader, way))
            group.same("second: flags on", [], [flag for flag, _, _ in listing.flag_names() if gone.get(flag) != "Off"])
            lines = expected(module, other)
            group.same("all high flags", 28, sum(texts == {"On"} for _, texts in lines))
            listing.compare(group, f"{DEVICES[other]}", lines, show(module, other, way))
            group.same("the other's too are read now", True, module.agrees())
            module.sample(beyond_all())
            listing.compare(group, "raised again", expected(module, reader), show(module, reader, way))


def every_flag(module, checks, port, way):
    """Each bit of bytes 3 to 14 alone, in a lent state."""
    named = {(byte, bit): name for name, byte, bit in listing.flag_names()}
    module.reset()
    module.sample(sample())
    state = bytes(module.paper.state)
    name = f"each flag bit alone, {DEVICES[port]}, {way}: ethtool names it as document 01, or (bytes 3 to 5) not at all"
    with checks.group(name) as group:
        for byte in FLAGS:
            for bit in range(8):
                raised = bytearray(state)
                raised[FLAG_PLACES[port][byte - 3]] = 1 << bit
                module.lend(raised)
                status, text, _ = module.run("ethtool", "-m", DEVICES[port], way=way)
                on = {line for line, value in listing.parse(text) if value == "On"}
                if module.paper.sound(port):
                    wanted = {named[byte, bit]} if (byte, bit) in named else set()
                    group.same(f"byte {byte} bit {bit}", (0, wanted), (status, on))
                    group.same(f"byte {byte} bit {bit}: the 688 bytes", state, module.look())
                else:  # byte 8 and the low halves of 6 and 7 make the record unsound: the read is refused
                    group.same(f"byte {byte} bit {bit}", (1, set(), 3), (status, on, module.refusal()))
                    group.same(f"byte {byte} bit {bit}: the 688 bytes", bytes(raised), module.look())


def run(module, checks):
    ways(module, checks)
    identities(module, checks)
    for way in WAYS:
        samples(module, checks, way)
    marked(module, checks)
    for way in WAYS:
        apart(module, checks, OPERATOR, RECORDER, way)
        apart(module, checks, RECORDER, OPERATOR, way)
        for port in DEVICES:
            every_flag(module, checks, port, way)
