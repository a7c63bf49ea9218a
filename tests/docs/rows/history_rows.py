"""history_rows.py: the table of a history: calls one after the other, and what each answers."""
import re

from library import STATE, byte, read, reset, same, sample, write
from states import FACTORY, number, put, some

CALM = bytes(3) + bytes.fromhex("1900 80E8") + number(501) * 4 + number(3000) * 4 + number(10000) * 4


def sampled(changed):
    """The sample with these numbers in it: Rx1=250."""
    values = CALM
    for one in changed:
        line, value = re.fullmatch(r"Rx([1-4])=(\d+)", one).groups()
        values = put(values, 5 + 2 * int(line), *number(int(value)))
    return values


def outcome(state, words):
    """The state after a call, and what it answers, in the page's words."""
    call, *rest = words.strip("`").split()
    out = b""
    if call == "read":
        answer, state, out = read(state, *map(int, rest))
    elif call == "write":
        answer, state = write(state, int(rest[0]), int(rest[1]), *bytes.fromhex("".join(rest[2:])))
    else:
        answer, state = {"reset": lambda: reset(state, FACTORY), "sample": lambda: sample(state, sampled(rest))}[call]()
    if byte(answer, 0):
        return state, f"`refused {answer}`"
    if call in ("reset", "sample"):
        return state, f"`counts {byte(answer, 1)} {byte(answer, 2)}`"
    return state, f"`count {byte(answer, 1)}{': ' + out.hex(' ').upper() if out else ''}`"


def history(table):
    state = some(350, STATE)
    for row in table.rows:
        state, told = outcome(state, row["Call"])
        same(row["Answer"], told, row["Call"])
