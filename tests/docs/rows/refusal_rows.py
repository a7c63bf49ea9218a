"""refusal_rows.py: the table of refusals, each at its bounds: what is just refused, and what just isn't."""
import re

from call_rows import CAUSES, full_log, numbered, refused, unsound
from library import BLOCK, PORTS, same
from page import named
from states import a_state, an_image, put

MANY = 2 ** 64 - 1
STATEFUL = ("reset", "sample", "read", "write", "monitor_kind", "limits_refusal")
LOGS = ("log_add", "log_power_up", "log_sample", "log_first")
AROUND = (-1, 0, 1)


# Each takes the numbers of the row's words, and gives (refusal, call, changed arguments).

def state_size(size):
    for call in STATEFUL:
        for by in AROUND:
            yield (1 if by else 0), call, {"state": (a_state(330) + b"\0")[:size + by]}
        yield 1, call, {"state": b""}


def no_port(first, second):
    for call in ("read", "write"):
        for port in (0, 1, 2, 3, MANY):
            yield (0 if port in (first, second) else 2), call, {"port": port}


def unsound_record():
    for port in PORTS:
        for call in STATEFUL:
            asked = call == "sample" or port == 1 and call in ("read", "write")
            yield (3 if asked else 0), call, {"state": unsound(a_state(330), port)}


def transfer_size(least_read, most_read, least_written, most_written):
    for count in (0, least_read - 1, least_read, most_read, most_read + 1):
        yield (0 if least_read <= count <= most_read else 4), "read", {"count": count, "out": bytes(count)}
    for count in (0, least_written - 1, least_written, most_written, most_written + 1):
        yield (0 if least_written <= count <= most_written else 4), "write", {"data": bytes(count)}
    yield 4, "read", {"count": MANY}


def out_of_range(last, below, past):
    """Of two bytes, from the addresses around those told."""
    for at in (last - 1, last, last + 1, MANY, past - 1, past, below - 1, below):
        yield (5 if at >= last else 0), "read", {"address": at, "count": 2, "out": bytes(2)}
        yield (5 if at >= last or at < below and at + 1 > past else 0), "write", {"address": at, "data": bytes(2)}
    yield 0, "read", {"address": last, "count": 1}
    yield 0, "write", {"address": last, "data": bytes(1)}
    yield 0, "write", {"address": past, "data": bytes(1)}


def output_short():
    for room in (0, 3, 4, 5):
        yield (6 if room < 4 else 0), "read", {"out": bytes(room)}


def not_its_own():
    for at, count, right in ((86, 1, 7), (99, 2, 7), (100, 4, 0), (101, 4, 0), (102, 4, 7), (124, 4, 7), (127, 1, 0), (242, 1, 7)):
        yield right, "write", {"port": 2, "address": at, "data": bytes(count)}
        yield 0, "write", {"port": 1, "address": at, "data": bytes(count)}


def sample_size(size):
    for call in ("sample", "log_add"):
        for by in AROUND:
            yield (8 if by else 0), call, {"sample": bytes(size + by)}


def image_size(size):
    for by in AROUND:
        yield (9 if by else 0), "reset", {"image": (an_image(331) + b"\0")[:size + by]}


def check_code():
    image = an_image(331)
    for at in (130, 191, 200, 223, 300):
        yield (10 if at < 300 else 0), "reset", {"image": put(image, at, image[at] ^ 0x40)}


def no_sound_page(size):
    for by in AROUND:
        page = (an_image(331)[128:256] + b"\0")[:size + by]
        yield (11 if by else 0), "identity", {"live": page, "factory": b""}
        yield (11 if by else 0), "identity", {"live": b"", "factory": page}


def no_field(first, last):
    for field in (first - 1, first, last, last + 1, MANY):
        yield (0 if first <= field <= last else 12), "identity", {"field": field}


def no_monitor(monitor, quantity):
    for by in (0, 1):
        yield 13 * by, "monitor_kind", {"monitor": monitor + by}
        yield 13 * by, "limits_refusal", {"quantity": quantity + by}


def log_full(last):
    """A last block of that number takes a sample while it has room, and no block follows it."""
    for by in (0, 1):
        block = numbered(last - by) + bytes(BLOCK)
        yield 14 - 14 * by, "log_add", {"log": full_log(2, last - by)}
        yield 14 - 14 * by, "log_power_up", {"log": block}
        yield 0, "log_add", {"log": block}
    for call in ("log_add", "log_power_up"):
        yield 14, call, {"log": full_log(1)}
        yield 14, call, {"log": b"", "used": 0}
        yield 0, call, {"log": bytes(BLOCK), "used": 0}


def unsound_log(block, most):
    for call in LOGS:
        yield (17 if call == "log_sample" else 0), call, {"log": bytes(2 * block), "used": 0}
        yield 15, call, {"log": bytes(2 * block + 1), "used": 0}
        yield 15, call, {"log": full_log(2), "used": 3}
        yield 15, call, {"log": full_log(2), "used": MANY}
        yield (0 if call == "log_first" else 15), call, {"log": put(full_log(2), 5, 0xFF)}
        yield (0 if call == "log_first" else 15), call, {"log": numbered(1) + numbered(3) + bytes(BLOCK), "used": 2}
        yield (17 if call == "log_sample" else 0), call, {"log": numbered(7) + numbered(8) + bytes(BLOCK), "used": 2}
        yield 15, call, {"log": put(bytes(2 * BLOCK), 4, most + 1)}
    yield 0, "log_first", {"log": put(bytes(2 * BLOCK), 4, most)}


def no_sample(last):
    for position in (15, 16, MANY):
        yield (0 if position < 16 else 17), "log_sample", {"position": position}
    for number in (last, last + 1, MANY):
        yield (0 if number <= last else 17), "log_first", {"bit": number}


BOUNDS = dict(zip(CAUSES, (state_size, no_port, unsound_record, transfer_size, out_of_range, output_short, not_its_own, sample_size,
                           image_size, check_code, no_sound_page, no_field, no_monitor, log_full, unsound_log, no_sample)))


def refusal(row, _):
    number = int(row["No."])
    named(row, number)
    if number == 0:
        same(0, refused("read"), "an accepted call")
        return
    for right, call, changed in BOUNDS[number](*map(int, re.findall(r"\b\d+\b", row["Given exactly when"]))):
        same(right, refused(call, **changed), f"{call}, {', '.join(changed)} changed")


def all_refusals(table):
    same([0, *BOUNDS], [int(row["No."]) for row in table.rows], "the refusals of the table")
