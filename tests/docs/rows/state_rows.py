"""state_rows.py: the tables of places: the ports, the state, a record, dead places."""
import re
from functools import cache

from library import BASES, PAGE, PORTS, RECORD, SAMPLE, accepted, byte, expect, read, reset, same, sample, write
from page import covered, named, page_of, place, run
from states import a_state, an_image, put, some

SEEDS = (10, 20, 30)
WHOSE = {"operator's": 1, "recorder's": 2}


def port(row, _):
    """The port's read shows its own record."""
    number, base, state = int(row["Port"]), BASES[WHOSE[row["Whose"]]], a_state(7)
    named(row, number)
    same(state[base:base + 12], read(state, number, 3, 12)[2], "the port's flags")


def places(row, _):
    """Addresses at each end lead there."""
    (first, last), what = run(row["Places"]), row["What"]
    named(row, first)
    for seed in SEEDS:
        state = a_state(seed, (page_of(what),) * 2)
        if what == "lower memory":
            same((state[first:first + 2], PAGE), (read(state, 1, 0, 2)[2], last - first + 1), what)
        elif what.startswith("page"):
            same((state[first:first + 100], PAGE), (read(state, 1, 128, 100)[2], last - first + 1), what)
        else:
            caller = WHOSE[what.removesuffix(" record")]
            same(RECORD, last - first + 1, "a record's length")
            same((state[first], state[last]), (read(state, caller, 3)[2][0], read(state, caller, 127)[2][0]), what)


# ---- a record

def may_be(said, value):
    if said in ("anything", "it can be selected"):
        return said == "anything" or value <= 3
    high, low = map(int, re.fullmatch(r"bits ([0-7]) to ([0-7]) are 0", said).groups())
    return not value & ((2 << high) - (1 << low))


def shown(row, page, first, at, count):
    """The bytes are what the port reads there; a read clears flags and nothing else."""
    for seed in SEEDS:
        state = a_state(seed, (page, page))
        for caller in PORTS:
            base = BASES[caller] + first
            answer, left, out = read(state, caller, at, count)
            same((0, state[base:base + count]), (byte(answer, 0), out), "what the port reads")
            same(bytes(count) if row["What"] == "flags" else out, left[base:base + count], "what the read leaves")


def record(row, _):
    """Each byte is what the port reads at its address; each value that it may have, and no other, is sound."""
    (first, last), (at, end), page = run(row["Byte of a record"]), run(row["Address"]), page_of(row["Address"])
    named(row, first)
    same(last - first, end - at, "as many bytes as addresses")
    shown(row, page, first, at, last - first + 1)
    if row["What"] == "masks":
        same(0xF0, accepted(write(a_state(10, (page, page)), 2, at, 0xF0))[BASES[2] + first], "a mask is written there")
    for k in range(first, last + 1):
        for value in (0, 1, 2, 3, 4, 8, 16, 32, 64, 128, 255):
            for caller in PORTS:
                poked = put(a_state(40), BASES[caller] + k, value)
                right = 0 if may_be(row["Sound if"], value) else 3
                same((right, 0), tuple(byte(read(poked, one, 0)[0], 0) for one in (caller, 3 - caller)), f"byte {k} is {value}")


# ---- dead places

def all_reads(state):
    """All that both ports see."""
    selected = [(accepted(write(state, port, 127, page)), port) for port in PORTS for page in range(4)]
    return [read(one, port, at, 128)[2] for one, port in selected for at in (0, 128)]


def dead(row, _):
    """What is there makes no difference, stays, and is 0 after a reset; the address has that place."""
    (first, last), (at, end), page = run(row["Dead places"]), run(row["Address"]), page_of(row["Address"])
    same((place(at, page), place(end, page)), (first, last), "the places of the addresses")
    state, values = a_state(50, (page, page)), some(51, SAMPLE)
    same(bytes(last - first + 1), accepted(reset(state, an_image(52)))[first:last + 1], "after a reset")
    answer, fed = sample(state, values)
    for k in range(first, last + 1):
        other = put(state, k, state[k] ^ 0xFF)
        same(all_reads(state), all_reads(other), f"reads, with another byte at {k}")
        same((answer, put(fed, k, other[k])), sample(other, values), f"a sample, with another byte at {k}")
        for caller in PORTS:
            same(other[k], write(other, caller, at + k - first, 0x5A)[1][k], "a write leaves it")


@cache
def unseen():
    """The places below 640 whose lowest bit the operator does not see at their address."""
    found = []
    for k in range(640):
        page = max(k - 128, 0) // 128
        state, at = a_state(60, (page, page)), k if k < 128 else 128 + k % 128
        if read(state, 1, at)[2] == read(put(state, k, state[k] ^ 1), 1, at)[2]:
            found.append(k)
    return found


def all_dead(table):
    """There is no other."""
    expect(unseen() == covered(table, "Dead places"), f"the places that nobody sees are {unseen()}")
