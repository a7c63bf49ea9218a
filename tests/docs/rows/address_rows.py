"""address_rows.py: the tables of what a host sees: what each port reads and writes at an address, and what a reset leaves there."""
import re

from library import BASES, NAMES, PORTS, STATE, accepted, byte, expect, read, reset, same, write
from page import bit, covered, named, page_of, place, run
from state_rows import SEEDS
from states import a_state, all_raised, an_image, put, some

COLUMNS = {1: "Operator writes", 2: "Recorder writes"}


def own_bytes(page):
    """By address and page, 0 for lower memory, the byte of a record: as the page's own table has it."""
    found = {}
    for row in (row for table in page for row in table.rows if table.columns[0] == "Byte of a record"):
        (first, last), (at, _), on = run(row["Byte of a record"]), run(row["Address"]), page_of(row["Address"])
        found.update({(at + k, on): first + k for k in range(last - first + 1)})
    return found


class Seen:
    """A row of such a table: its addresses, the page that they are on, and where they lead."""

    def __init__(self, row, table, page):
        self.row, self.page, self.own = row, page_of(table.heading.lower()), own_bytes(page)
        self.first, self.last = run(row["Address"])
        self.run = range(self.first, self.last + 1)

    def in_record(self, at):
        return self.own[at, self.page if at > 127 else 0]

    def place(self, at, port):
        """Where the address leads, for the port."""
        return BASES[port] + self.in_record(at) if self.row["Reads"] == "own" else place(at, self.page)

    def state(self, seed):
        return a_state(seed, (self.page, self.page))


def reads(seen):
    said = seen.row["Reads"]
    expect(said in ("stored", "own", "0") or said == "by bit" and seen.run == range(2, 3), f"reads {said}")
    for seed in SEEDS:
        state = seen.state(seed)
        for port in PORTS:
            answer, left, out = read(state, port, seen.first, len(seen.run))
            same(0, byte(answer, 0), "a read is refused")
            if said != "by bit":
                same([0 if said == "0" else state[seen.place(at, port)] for at in seen.run], list(out), f"port {port} reads")
            flags = [at for at in seen.run if 3 <= at <= 14]
            same(put(state, BASES[port] + flags[0] - 3, *bytes(len(flags))) if flags else state, left, "what the read leaves")
            expect(said != "by bit" or out[0] != state[2], "it is as stored")


def writes(seen, few):
    """Each address, or the ends alone, by each port: just the bits told take what is written."""
    state = seen.state(70)
    for at in {seen.first, seen.last} if few else seen.run:
        for port, column in COLUMNS.items():
            said, k = seen.row[column], seen.place(at, port)
            for value in (0x00, 0xFF, 0xA5):
                done = write(state, port, at, value)
                if said == "refused":
                    same((7, state), done, f"port {port} writes {at}")
                    continue
                bits = int(said.removesuffix("h"), 16)
                same(put(state, k, state[k] & ~bits | value & bits), accepted(done), f"port {port} writes {at}")


def selects(seen):
    """Every number written to 127, by either port."""
    same([127, "a page", "a page"], [seen.first, *(seen.row[column] for column in COLUMNS.values())], "a page is selected at")
    state = a_state(71)
    for port in PORTS:
        for value in range(256):
            left = accepted(write(state, port, 127, value))
            same(put(state, BASES[port] + NAMES["ZIKHRODAN_SELECTED_IN"], value if value <= 3 else 0), left, f"{value} is selected")


def after_reset(seen):
    said = seen.row["After a reset"]
    expect(said in ("image", "0", "kept") or said == "by bit" and seen.run == range(2, 3), f"after a reset {said}")
    for seed in SEEDS:
        old, image = some(seed, STATE), an_image(seed + 5)
        new = accepted(reset(old, image))
        for at in seen.run if said != "by bit" else ():
            k = place(at, seen.page)
            same({"image": image[k], "0": 0, "kept": old[k]}[said], new[k], f"place {k} after a reset")
            if seen.row["Reads"] == "own":
                same([0, 0], [new[base + seen.in_record(at)] for base in BASES.values()], f"{at} in the records")


# ---- what the words name

def mask_of(seen, served):
    """With the flags of one byte raised alone, the recorder's mask byte lets none through."""
    state = accepted(read(all_raised(), 2, 2, served - 2))
    state = accepted(read(state, 2, served + 1, 15 - served))
    before, state = write(state, 2, 127, 3)
    expect(byte(before, 1) > 0, f"{served} has no flags")
    same(0, byte(write(state, 2, seen.first, 0xFF)[0], 1), f"masks of {served}")


def names(seen, page):
    what = seen.row["What"]
    if found := re.fullmatch(r"(?:Rx power|Tx bias|Tx power) (\d) to (\d)", what):
        same((1, len(seen.run) // 2), tuple(map(int, found.groups())), what)
    if found := re.fullmatch(r"masks of (\d+)", what):
        mask_of(seen, int(found.group(1)))
    if found := re.fullmatch(r"flags: (?:(\w+ \w+) (\d) and (\d)|temperature|supply)", what):
        kind, *both = found.groups()
        measured = [row for table in page for row in table.rows if table.columns[0] == "Number"]
        here = [row["Number"] for row in measured if bit(row["High alarm"].split()[0])[0] == seen.first]
        same([f"{kind} {one}" for one in both] if kind else [what[7:]], here, f"whose flags {seen.first} has")


def address(row, table, page, few):
    seen = Seen(row, table, page)
    named(row, seen.first)
    reads(seen)
    if "a page" in (row[column] for column in COLUMNS.values()):
        selects(seen)
    else:
        writes(seen, few)
    after_reset(seen)
    names(seen, page)


def all_addresses(table):
    """The rows are all addresses, each once and in order."""
    same(list(range(128) if table.heading == "Lower memory" else range(128, 256)), covered(table, "Address"), "the addresses")
