"""listing.py: what `ethtool -m` prints, taken apart, and what it has to print of a module on paper.

A value is a set of texts, of which one has to be printed: one text, but two where a number in degrees F lies halfway between two
hundredths, for then both are as near. The words are ethtool's; which number and which flag stands beside them is document 01's.
"""
import functools
import re
from decimal import Decimal, localcontext
from fractions import Fraction

from paper import FIELDS, KINDS, QUANTITIES, flag_at, signed, word

LINE = re.compile(r"\t(.{41}) : ?(.*)")
FIELD_NAMES = {"vendor name": "Vendor name", "OUI": "Vendor OUI", "part number": "Vendor PN", "revision": "Vendor rev",
               "serial": "Vendor SN", "date": "Date code"}


def parse(text):
    """The lines as names and values; a line of another form is kept whole."""
    found = (LINE.fullmatch(line) for line in text.splitlines())
    return [(m[1].rstrip(), m[2]) if m else (line, None) for m, line in zip(found, text.splitlines())]


# ---- numbers

def degrees(number):
    number = signed(number)
    fahrenheit = Fraction(number, 256) * 9 / 5 + 32
    below = fahrenheit * 100 // 1
    near = [below + i for i in (0, 1) if abs(fahrenheit * 100 - below - i) <= Fraction(1, 2)]
    # the division by 256 is exact, and the text of an exact number is one: halves go to the even hundredth
    return {f"{number / 256:.2f} degrees C / {sign(n)}{abs(n) // 100}.{abs(n) % 100:02} degrees F" for n in near}


def sign(number):
    return "-" if number < 0 else ""


def volts(number):
    return {f"{number // 10000}.{number % 10000:04} V"}


def milliamperes(number):
    return {f"{number // 500}.{number % 500 * 2:03} mA"}


@functools.lru_cache(maxsize=None)
def milliwatts(number):
    if number == 0:
        return {"0.0000 mW / -inf dBm"}
    with localcontext() as context:
        context.prec = 40
        decibels = (Decimal(number) / 10000).log10() * 10
        assert abs(abs(decibels * 100) % 1 - Decimal("0.5")) > Decimal("1e-9")  # far from a half, so that no error can matter
        return {f"{number // 10000}.{number % 10000:04} mW / {decibels:.2f} dBm"}


TEXT = {"temperature": degrees, "supply": volts, "Rx power": milliwatts, "Tx bias": milliamperes, "Tx power": milliwatts}

# ---- names

READING = {"temperature": "Module temperature", "supply": "Module voltage", "Tx bias": "Laser tx bias current (Channel {})",
           "Tx power": "Transmit avg optical power (Channel {})", "Rx power": "Rcvr signal avg optical power(Channel {})"}
FLAG = {"Tx bias": "Laser bias current {:12} (Chan {})", "temperature": "Module temperature {}", "supply": "Module voltage {}",
        "Tx power": "Laser tx power {:12} (Channel {})", "Rx power": "Laser rx power {:12} (Channel {})"}
LIMIT = {"Tx bias": "Laser bias current {} threshold", "Tx power": "Laser output power {} threshold",
         "temperature": "Module temperature {} threshold", "supply": "Module voltage {} threshold",
         "Rx power": "Laser rx power {} threshold"}


def flag_names():
    """Every flag that ethtool has a name for, in its order: the name, and the byte and bit that document 01 gives it."""
    return [(FLAG[quantity].format(kind, channel), *flag_at(quantity, channel, kind)) for quantity in FLAG
            for channel in range(1, len(QUANTITIES[quantity][3]) + 1) for kind in KINDS]


# ---- listings

def identity(image):
    """The six fields of a page 00h, without trailing blanks; the OUI whole."""
    shown = {}
    for field, (first, last) in FIELDS.items():
        run = image[first:last + 1]
        shown[FIELD_NAMES[field]] = run.hex(":") if field == "OUI" else run.rstrip(b" ").decode("ascii")
    return shown


def readings(lower, quantity):
    """The lines of a quantity's numbers, from lower memory as the port reads it."""
    stored, places = QUANTITIES[quantity][2:]
    return [(READING[quantity].format(channel), TEXT[quantity](word(lower, stored + 2 * channel - 2)))
            for channel in range(1, len(places) + 1)]


def head(lower):
    return readings(lower, "temperature") + readings(lower, "supply")


def monitors(lower, paper):
    """All lines from the temperature on, for a paged module."""
    lines = head(lower) + [("Alarm/warning flags implemented", {"Yes"})]
    for quantity in ("Tx bias", "Tx power", "Rx power"):
        lines += readings(lower, quantity)
    lines += [(name, {"On" if lower[byte] >> bit & 1 else "Off"}) for name, byte, bit in flag_names()]
    for quantity, name in LIMIT.items():
        lines += [(name.format(kind), TEXT[quantity](limit)) for kind, limit in zip(KINDS, paper.limits(quantity))]
    return lines


def monitor_part(lines):
    """The lines from the temperature on."""
    names = [name for name, _ in lines]
    return lines[names.index("Module temperature"):] if "Module temperature" in names else []


def compare(group, what, expected, lines):
    """Holds the monitor part to what is expected, line by line: names and order, then each value."""
    seen = monitor_part(lines)
    group.same(f"{what}: the lines", [name for name, _ in expected], [name for name, _ in seen])
    for (name, texts), (_, value) in zip(expected, seen):
        group.among(f"{what}: {name}", texts, value)
