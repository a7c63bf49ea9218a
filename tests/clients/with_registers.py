"""with_registers.py: i2c-tools on what document 01 gives each port: flags, interrupt, masks, pages, shared bytes."""
import listing
from bench import DEVICES
from feed import beyond_all, sample
from paper import FLAGS, OPERATOR, RECORDER
from with_i2c import MODULE_AT, get, put, transfer


def start(module, *samples):
    module.reset()
    for one in samples:
        module.sample(one)


def write(module, group, port, address, *data):
    """i2cset, accepted, and the same on paper."""
    group.same(f"bus {port}, write at {address}", (0, 0, ""), (module.paper.write(port, address, bytes(data)),
                                                              *put(module, port, address, *data, "i")))


def flags(module, checks):
    with checks.group("i2cget of a flag byte, 3 to 14, clears that byte for its port alone") as group:
        for port in DEVICES:
            for byte in FLAGS:
                start(module, beyond_all())
                before = bytearray(module.look())
                place = 640 + 24 * (port - 1) + byte - 3
                group.same(f"bus {port}, byte {byte}", (0, [before[place]]), get(module, port, byte))
                before[place] = 0
                group.same(f"bus {port}, byte {byte}: the 688 bytes", bytes(before), module.look())
                group.same(f"bus {port}, byte {byte} again", (0, [0]), get(module, port, byte))


def marked(module, checks):
    """FFFFh is -1/256 degree: below the low warning of 0000h, and no alarm."""
    start(module, sample(at0=0xFFFF))
    checks.same("M8 by i2cget: FFFFh raises the low warning of byte 6, and no alarm, for both ports", [(0, [0x10])] * 2,
                [get(module, port, 6) for port in DEVICES])


def interrupt(module, checks):
    """Byte 2: bit 0 Data_Not_Ready, bit 1 the level of the port's IntL pin, 1 when no interrupt stands."""
    def level(port):
        return get(module, port, 2)

    with checks.group("byte 2 by i2cget: Data_Not_Ready, the port's interrupt, which masks hold back; clears nothing") as group:
        start(module)
        group.same("before a sample", [(0, [3]), (0, [3])], [level(1), level(2)])
        start(module, sample())
        group.same("nothing raised", [(0, [2]), (0, [2])], [level(1), level(2)])
        start(module, sample(status=(1, 0, 0)))
        group.same("Rx1 loss", [(0, [0]), (0, [0])], [level(1), level(2)])
        group.same("byte 2 cleared nothing", [(0, [0]), (0, [0])], [level(1), level(2)])
        group.same("the operator masks it", (0, ""), put(module, OPERATOR, 100, 0x01))
        group.same("masked for the operator alone", [(0, [2]), (0, [0])], [level(1), level(2)])
        group.same("a masked flag reads 1", (0, [1]), get(module, OPERATOR, 3))
        group.same("the recorder reads a run with byte 2: the level before", (0, [0, 1]), get(module, RECORDER, 2, "i", 2))
        group.same("and after", [(0, [2]), (0, [2])], [level(1), level(2)])


def masks(module, checks):
    with checks.group("masks by i2cset, 100 to 104, page 03h 242 to 247: that port's alone; 103, 104 take bits 7 to 4") as group:
        for port, other in ((OPERATOR, RECORDER), (RECORDER, OPERATOR)):
            start(module, sample())
            for one in DEVICES:
                write(module, group, one, 127, 3)
            for address in (*range(100, 105), *range(242, 248)):
                write(module, group, port, address, 0xA5)
                taken = 0xA0 if address in (103, 104) else 0xA5
                group.same(f"{address} seen", [(0, [taken]), (0, [0])], [get(module, port, address), get(module, other, address)])
            group.same("the 688 bytes", bytes(module.paper.state), module.look())


def pages(module, checks):
    with checks.group("a page number at 127, by i2cset: selects it for that port; one that is not offered selects 00h") as group:
        start(module, sample())
        for port in DEVICES:
            for page in (3, 1, 4, 2, 255, 0):
                write(module, group, port, 127, page)
                selected = page if page < 4 else 0
                wanted = list(module.paper.state[128 + 128 * selected:136 + 128 * selected])
                group.same(f"bus {port}, {page}: selected", (0, [selected]), get(module, port, 127))
                group.same(f"bus {port}, {page}: its bytes", (0, wanted), get(module, port, 128, "i", 8))
                group.same("the 688 bytes", bytes(module.paper.state), module.look())


def shared(module, checks):
    """86 bits 3-0; 87, 88, 98; 93 bits 2-0; all of page 02h; page 03h 234 to 241: the operator writes, both see."""
    rows = ((0, 86, (0xFF, 0x12, 0x34), (0x0F, 0x12, 0x34)), (0, 93, (0xFF,), (0x07,)), (0, 98, (0x5A,), (0x5A,)),
            (2, 128, (1, 2, 3, 4), (1, 2, 3, 4)), (2, 252, (5, 6, 7, 8), (5, 6, 7, 8)),
            (3, 234, (9, 10, 11, 12), (9, 10, 11, 12)), (3, 238, (13, 14, 15, 16), (13, 14, 15, 16)))
    with checks.group("shared bytes by i2cset on the operator's bus: both ports see them, ethtool too (byte 93)") as group:
        start(module, sample())
        for page, address, data, taken in rows:
            for port in DEVICES:
                write(module, group, port, 127, page)
            write(module, group, OPERATOR, address, *data)
            for port in DEVICES:
                group.same(f"bus {port}, {address}", (0, list(taken)), get(module, port, address, "i", len(taken)))
        group.same("the 688 bytes", bytes(module.paper.state), module.look())
        for port in DEVICES:
            lines = dict(listing.parse(module.run("ethtool", "-m", DEVICES[port])[1]))
            group.same("power set, override", ["On", "On"], [lines.get("Power set"), lines.get("Power override")])


def refused(module, checks):
    """Each with its refusal number; the tool fails, and nothing is changed."""
    rows = (("M12: recorder at 86", RECORDER, 7, put, (86, 1)), ("recorder at 242 of page 00h", RECORDER, 7, put, (242, 1)),
            ("operator across 127 and 128", OPERATOR, 5, put, (127, 0x0101, "w")),
            ("M11: recorder across 127 and 128", RECORDER, 5, put, (127, 1, 1, "i")),
            ("recorder's 5 bytes at 86", RECORDER, 4, put, (86, 1, 1, 1, 1, 1, "i")),
            ("operator's 5 bytes", OPERATOR, 4, put, (86, 1, 1, 1, 1, 1, "i")),
            ("operator past 255", OPERATOR, 5, put, (255, 0x0101, "w")), ("M10: read of 2 at 255", OPERATOR, 5, get, (255, "w")),
            ("read of 129", OPERATOR, 4, transfer, (f"w1@{MODULE_AT}", 0, "r129")))
    for name, port, refusal, how, words in rows:
        start(module, sample(status=(1, 2, 3)))
        before = module.look()
        status, _ = how(module, port, *words)
        checks.same(f"refused, {name}: number {refusal}, an error to the tool, nothing changed", (True, refusal, True),
                    (status != 0, module.refusal(), module.look() == before))
    with checks.group("accepted beside them: M10, read of 1 at 255; M11, write of 1 at 127 by either port; read of 128") as group:
        start(module, sample())
        group.same("M10", (0, [0]), get(module, OPERATOR, 255))
        group.same("M11", [(0, ""), (0, "")], [put(module, port, 127, 1) for port in DEVICES])
        group.same("read of 128", 128, len(transfer(module, OPERATOR, f"w1@{MODULE_AT}", 0, "r128")[1]))


def run(module, checks):
    for part in (flags, marked, interrupt, masks, pages, shared, refused):
        part(module, checks)
