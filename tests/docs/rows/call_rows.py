"""call_rows.py: the tables of the calls: what each refuses and in which order, what its answer has in it, and lengths."""
from functools import cache

from library import (BASES, BLOCK, PORTS, SAMPLE, STATE, accepted, byte, caller, log_add, log_power_up, read, reset, same, sample,
                     write)
from page import named
from states import FACTORY, a_state, an_image, coded, fresh, put, some, wide


def unsound(state, *ports):
    """The flags of byte 8 are raised in these ports' records."""
    for port in ports:
        state = put(state, BASES[port] + 5, 1)
    return state


def checked(block):
    """A block of a log with its check right."""
    return put(block, 510, *(sum(block[:510]) % 65536).to_bytes(2, "big"))


def numbered(number):
    """A block of this number with no samples, and none of a summary."""
    return checked(put(bytes(BLOCK), 0, *number.to_bytes(4, "big")))


@cache
def full_log(blocks, number=1):
    """A log whose one used block, of this number, is full, in memory of so many."""
    log = numbered(number) + bytes(BLOCK * (blocks - 1))
    for _ in range(16):
        log = accepted(log_add(log, 1, some(300, SAMPLE)))
    return log


# ---- a call as its arguments, and what brings a refusal about: other arguments

def arguments(call):
    """Those of a call that is accepted."""
    state, log, live, factory = a_state(310), full_log(2), an_image(311)[128:256], FACTORY[128:256]
    return {
        "reset": {"state": state, "image": an_image(311)},
        "sample": {"state": state, "sample": bytes(SAMPLE)},
        "read": {"state": state, "port": 1, "address": 0, "count": 4, "out": bytes(4)},
        "write": {"state": state, "port": 1, "address": 100, "data": bytes(2)},
        "identity": {"live": live, "factory": factory, "field": 1},
        "monitor_kind": {"state": state, "monitor": 0},
        "limits_refusal": {"state": state, "quantity": 0},
        "log_add": {"log": log, "used": 1, "sample": bytes(SAMPLE)},
        "log_power_up": {"log": log, "used": 1},
        "log_sample": {"log": log, "used": 1, "position": 0},
        "log_first": {"log": log, "used": 1, "bit": 0},
    }[call]


# By refusal, the argument that a call must have for it, and what is changed; the first that a call has applies.
CAUSES = {
    1: (("state", lambda a: {"state": a["state"] + b"\0"}),),
    2: (("port", lambda a: {"port": 3}),),
    3: (("port", lambda a: {"state": unsound(a["state"], *PORTS)}),
        ("sample", lambda a: "state" in a and {"state": unsound(a["state"], 2)})),
    4: (("out", lambda a: {"count": 129}), ("data", lambda a: {"data": bytes(5)})),
    5: (("address", lambda a: {"address": 256}),),
    6: (("out", lambda a: {"out": b""}),),
    7: (("data", lambda a: {"port": 2, "address": 86}),),
    8: (("sample", lambda a: {"sample": a["sample"][1:]}),),
    9: (("image", lambda a: {"image": a["image"][:-1]}),),
    10: (("image", lambda a: {"image": put(a["image"], 191, a["image"][191] ^ 1)}),),
    11: (("live", lambda a: {"live": b"", "factory": b""}),),
    12: (("field", lambda a: {"field": 7}),),
    13: (("monitor", lambda a: {"monitor": 14}), ("quantity", lambda a: {"quantity": 5})),
    14: (("log", lambda a: not {"position", "bit"} & set(a) and {"log": full_log(1)}),),
    15: (("log", lambda a: {"log": put(a["log"], 4, 17)}),),
    17: (("position", lambda a: {"position": 16}), ("bit", lambda a: {"bit": 24})),
}
LATE = (5, 15)  # brought about last: an address past the end, whoever writes; damage to whichever log
APART = {(2, 7)}  # a write by nobody is not the recorder's


def cause(number, given):
    return next((change(given) for has, change in CAUSES[number] if has in given), None)


def caused(call, *refusals):
    given = arguments(call)
    for number in sorted(refusals, key=lambda n: n in LATE):
        given.update(cause(number, given))
    return given


def make(call, given):
    """The answer, and whether every memory is as it was."""
    answer, left = caller.make(call, *given.values())
    return answer, left == [bytes(one) for one in given.values() if not isinstance(one, int)]


def order(call, listed):
    """Exactly these are given, the first of any two that apply, with nothing changed and 0 beside it."""
    same([n for n in CAUSES if cause(n, arguments(call))], sorted(listed), f"what {call} can refuse")
    same(0, byte(make(call, arguments(call))[0], 0), f"{call} is accepted")
    for i, first in enumerate(listed):
        same((first, True), make(call, caused(call, first)), f"{call} refuses {first}")
        for later in listed[i + 1:]:
            if (first, later) not in APART:
                same((first, True), make(call, caused(call, first, later)), f"{call} refuses {first} before {later}")


def listed(row):
    return [int(number) for number in row["Refuses, in this order"].split(", ")]


# ---- what an answer has in it

@cache
def counted():
    """The operator's count is 3 and the recorder's 2."""
    return accepted(write(accepted(sample(fresh(wide(320)), b"\x15" + bytes(30))), 2, 100, 0x01))


def told(call):
    """A call's answer, and what is right for its bytes, by the words."""
    if call == "reset":
        return reset(counted(), an_image(321))[0], {"operator's count": 0, "recorder's count": 0, "0": 0}
    if call == "sample":
        return sample(counted(), bytes(SAMPLE))[0], {"operator's count": 3, "recorder's count": 2, "0": 0}
    if call in ("read", "write"):
        done = read(counted(), 2, 0) if call == "read" else write(counted(), 2, 101, 0)
        return done[0], {"the port's count": 2, "operator's count": 3, "0": 0}
    if call == "identity":
        page = coded(bytes(128) + put(bytes(128), 184 - 128, *b"A ") + bytes(384))[128:256]
        return caller.make(call, b"", page, 4)[0], {"the page": 2, "where the field starts": 56, "its length": 1, "0": 0}
    return caller.make(call, counted(), 6 if call == "monitor_kind" else 1)[0], {"the kind": 4, "0": 0}


def of_call(row, _):
    call = row["Call"].strip("`").removeprefix("zikhrodan_")
    order(call, listed(row))
    answer, right = told(call)
    said = [row[column] for column in ("Bits 8 to 15", "Bits 16 to 23", "Bits 24 to 31")]
    same([0] + [right[words] for words in said], [byte(answer, n) for n in range(4)], "the answer's bytes")
    if call == "reset":  # both are 0: which is which does not show
        same(["operator's count", "recorder's count", "0"], said, "as of a sample")


def of_log_call(row, _):
    call = row["Call on a log"].strip("`").removeprefix("zikhrodan_")
    order(call, listed(row))
    log, last, before = full_log(3), b"\x80" + bytes(30), bytes(4 * BLOCK)
    for used in (0, 1):
        before = accepted(log_add(before, used, bytes(SAMPLE)))
    answer = {
        "log_add": lambda: log_add(log, 1, last)[0],
        "log_power_up": lambda: log_power_up(log, 1)[0],
        "log_sample": lambda: caller.make(call, log, 1, 3)[0],
        "log_first": lambda: caller.make(call, accepted(log_add(before, 1, last)), 1, 7)[0],
    }[call]()
    right = {"blocks used after it": 2, "where the sample starts": 5 + 31 * 3, "its position + 1, 0 for none": 3}
    same((0, right[row["Bits 8 to 63"]]), (byte(answer, 0), answer >> 8), "the answer")
    if call == "log_first":
        same(0, caller.make(call, bytes(BLOCK), 1, 7)[0], "none")


# ---- lengths

def refused(call, **changed):
    return byte(make(call, dict(arguments(call), **changed))[0], 0)


def length(row, _):
    """Just this length is taken."""
    size = int(row["Length"])
    named(row, size)
    taken = {
        "a state": lambda n: refused("read", state=(a_state(340) + b"\0")[:n]) == 0,
        "a record": lambda n: BASES[2] - BASES[1] == n and STATE - BASES[2] == n,
        "a factory image": lambda n: refused("reset", image=(an_image(341) + b"\0")[:n]) == 0,
        "a page": lambda n: refused("identity", live=(an_image(341)[128:256] + b"\0")[:n], factory=b"") == 0,
        "a sample": lambda n: refused("sample", sample=bytes(n)) == 0,
        "the longest read": lambda n: [refused("read", count=k, out=bytes(k)) for k in (n, n + 1)] == [0, 4],
        "the longest write": lambda n: [refused("write", data=bytes(k)) for k in (n, n + 1)] == [0, 4],
        "a block of a log": lambda n: refused("log_power_up", log=bytes(n), used=0) == 0,
        "the samples of a full block": lambda n: [refused("log_sample", position=k) for k in (n - 1, n)] == [0, 17],
    }[row["Of"]]
    same([False, True, False], [taken(size + by) for by in (-1, 0, 1)], row["Of"])
