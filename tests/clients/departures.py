"""departures.py: where ethtool shows another thing than document 01 says.

Each check expects exactly what ethtool 6.1 does, and its name says what that is. docs/CLIENTS.md has the list.
"""
import listing
from bench import DEVICES, IMAGE, WAYS
from feed import STOPS, beyond_all, sample
from paper import FLAGS, OPERATOR, RECORDER, with_codes
from with_ethtool import expected, show


def stops(module, checks):
    """Document 01: these are readings like any other, and flags stand whatever the temperature is."""
    for temperature in STOPS:
        name = f"ethtool departs: at {temperature:04X}h it shows no other reading, flag or limit; the flags are cleared, unseen"
        with checks.group(name) as group:
            for port in DEVICES:
                for way in WAYS:
                    module.reset()
                    module.sample(beyond_all())
                    module.sample(sample(at0=temperature))
                    lower = module.paper.read(port, 0, 128)[1]
                    group.same("flags stood", True, all(lower[byte] for byte in FLAGS if byte != 8))
                    listing.compare(group, f"{DEVICES[port]}, {way}", listing.head(lower), show(module, port, way))
                    group.same("the 688 bytes", bytes(module.paper.state), module.look())


def not_ready(module, checks):
    """Document 01: nothing is measured while Data_Not_Ready is 1."""
    with checks.group("ethtool departs: with Data_Not_Ready, before a sample, it shows 0 degrees and 0 V") as group:
        for way in WAYS:
            module.reset()
            group.same("Data_Not_Ready", 1, module.look()[2] & 1)
            shown = [("Module temperature", "0.00 degrees C / 32.00 degrees F"), ("Module voltage", "0.0000 V")]
            group.same(way, shown, listing.monitor_part(show(module, OPERATOR, way)))
    with checks.group("ethtool departs: with Data_Not_Ready, numbers in a lent state are shown as readings") as group:
        module.sample(sample())
        state = bytearray(module.paper.state)
        state[2] |= 1
        module.lend(state)
        for way in WAYS:
            listing.compare(group, way, expected(module, OPERATOR), show(module, OPERATOR, way))


def no_tx_power(module, checks):
    """Document 01: nothing is measured, nothing is stored and no flag is raised; the limits are there all the same."""
    image = bytearray(IMAGE)
    image[220] &= ~4
    with checks.group("ethtool departs: where byte 220 offers no Tx power it shows 0 mW, -inf dBm, as if measured") as group:
        for way in WAYS:
            group.same("reset", (0, 0), module.reset(with_codes(image)))
            module.sample(beyond_all())
            lines = show(module, OPERATOR, way)
            shown = [value for name, value in lines if name.startswith("Transmit avg optical power")]
            group.same(f"{way}: Tx power", ["0.0000 mW / -inf dBm"] * 4, shown)
            listing.compare(group, way, expected(module, OPERATOR), lines)


def check_codes(module, checks):
    """Document 01: a live page with a wrong check code is unsound, and identity is taken from the factory page."""
    with checks.group("ethtool departs: it tests no check code, and shows a damaged page 00h without a word") as group:
        module.reset()
        module.sample(sample())
        for field, at in (("Vendor name", 148), ("Vendor SN", 196)):
            state = bytearray(module.paper.state)
            state[at] ^= 0x20
            group.same("unsound", True, with_codes(state) != bytes(state))
            module.lend(state)
            for way in WAYS:
                lines = dict(show(module, OPERATOR, way))
                group.same(f"{field}, {way}", listing.identity(bytes(state))[field], lines.get(field))
                group.same("not the factory's", False, lines.get(field) == listing.identity(IMAGE)[field])


def unprintable(module, checks):
    """Document 01: the field's bytes as they are; only trailing blanks go."""
    image = bytearray(IMAGE)
    image[184:186], image[196:200] = b"\0\0", b"\x80\xe9\x7f "
    with checks.group("ethtool departs: each byte of a field that is not printable ASCII is shown as _") as group:
        group.same("reset", (0, 0), module.reset(with_codes(image)))
        for way in WAYS:
            lines = dict(show(module, OPERATOR, way))
            group.same(way, ("__", "___ 000"), (lines.get("Vendor rev"), lines.get("Vendor SN")))


def status_bytes(module, checks):
    """Document 01: the flags of bytes 3 to 5 read 1. ethtool reads them, which clears them, and has no line for them."""
    with checks.group("ethtool departs: flags of bytes 3 to 5 (loss, fault, lock) are read and cleared, and not shown") as group:
        for port, other in ((OPERATOR, RECORDER), (RECORDER, OPERATOR)):
            for way in WAYS:
                module.reset()
                module.sample(sample())
                without = show(module, port, way)
                module.sample(sample(status=(0xFF, 0xFF, 0xFF)))
                group.same("raised for both", [b"\xff" * 3] * 2, [module.look()[640 + 24 * i:643 + 24 * i] for i in (0, 1)])
                group.same(f"{DEVICES[port]}, {way}: the listing", without, show(module, port, way))
                state = module.look()
                own, kept = (state[640 + 24 * (one - 1):643 + 24 * (one - 1)] for one in (port, other))
                group.same(f"{DEVICES[port]}, {way}: cleared, and kept for the other", (bytes(3), b"\xff" * 3), (own, kept))


def flat(module, checks):
    """Document 01: a flat module has no page 03h to select; its flags are raised and read all the same."""
    image = bytearray(IMAGE)
    image[2] |= 4
    with checks.group("ethtool departs: of a flat module it shows readings, but no flags; they are cleared, unseen") as group:
        for way in WAYS:
            module.reset(bytes(image))
            module.sample(beyond_all())
            lower = module.paper.read(OPERATOR, 0, 128)[1]
            group.same("flags stood", True, all(lower[byte] for byte in FLAGS if byte != 8))
            lines = listing.head(lower) + [("Alarm/warning flags implemented", {"No"})]
            for quantity in ("Tx bias", "Tx power", "Rx power"):
                lines += listing.readings(lower, quantity)
            listing.compare(group, way, lines, show(module, OPERATOR, way))
            group.same(f"{way}: the 688 bytes", bytes(module.paper.state), module.look())


def beside(module, checks):
    """SFF-8636's matter, not document 01's: its revision 2.8 is 08h; byte 146 at 850 nm is the length on OM4, in units of 2 m."""
    with checks.group("ethtool departs from SFF-8636: revision 08h is 'Unallocated', 100 m of OM4 are 50 m of copper") as group:
        module.reset()
        lines = dict(show(module, OPERATOR, "netlink"))
        group.same("revision", "Unallocated", lines.get("Revision Compliance"))
        group.same("byte 146", "50m", lines.get("Length (Copper or Active cable)"))


def run(module, checks):
    for part in (stops, not_ready, no_tx_power, check_codes, unprintable, status_bytes, flat, beside):
        part(module, checks)
