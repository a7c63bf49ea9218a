"""eight.py: what the tool says of an eight-channel module, beside a plain reading of the state's 98 bytes: all forms of show, at
random states; each flag by its name, one after the other; states of every other length."""
import json
import random
import re

from paper_eight import BYTES, FIRST_FLAG, FLAG_BITS, FLAGS, MASK_BITS, OPERATOR, RECORDER, Eight
from station import zikhrodan
from with_eight import random_state

STATES = 30
PORTS = {OPERATOR: "operator", RECORDER: "recorder"}
WORDS = ("raised", "pending", "masked")


# In the order in which they are listed: byte by byte, and in a byte by channel, else from bit 7 down.
SHOWN = sorted(FLAGS, key=lambda flag: (flag[0], flag[1] if re.match(r"[RT]x\d", flag[3]) else -flag[1]))


def marks(state, port, byte, bit):
    """What a port has of a flag: raised, pending, masked; read from the bytes."""
    at = BYTES * (1 + 3 * (port - 1)) + byte - FIRST_FLAG
    raised, masked, pending = (state[at + BYTES * run] >> bit & 1 for run in range(3))
    return tuple(map(bool, (raised, pending, masked)))


def condition(state, byte, bit):
    return bool(state[byte - FIRST_FLAG] >> bit & 1)


def on_paper(state):
    paper = Eight()
    paper.state[:] = state
    return paper


def states():
    """A module that was reset, one with all flags and masks, and others at random; also ones that no calls lead to."""
    chance = random.Random(98)
    full = bytes(FLAG_BITS) + (bytes(FLAG_BITS) + bytes(MASK_BITS) + bytes(FLAG_BITS)) * 2
    sparse = [bytes(a & b & c for a, b, c in zip(*(random_state(chance) for _ in range(3)))) for _ in range(STATES)]
    return [bytes(len(full)), full, *sparse, *(random_state(chance) for _ in range(STATES))]


def shown(folder, state, *words, port=None):
    """What show prints of a state, which it leaves as it is."""
    (folder / "e.state").write_bytes(state)
    status, text, complaint = zikhrodan(folder, "show", "e.state", *words, *(("--port", PORTS[port]) if port else ()))
    left = (folder / "e.state").read_bytes()
    return (status, complaint, left == state), text


def as_json(folder, checks):
    with checks.group("show --json: each flag's name, address, bit and mask, and what it is, by the state's bytes") as group:
        for number, state in enumerate(states()):
            done, text = shown(folder, state, "--json")
            group.same(f"{number}", (0, "", True), done)
            ports = json.loads(text)
            group.same(f"{number}: keys", [["zikhrodan"]] * 2, [list(one) for one in ports])
            for port, one in zip(PORTS, (one["zikhrodan"] for one in ports)):
                count = on_paper(state).count(port)
                flags = one.pop("flags")
                group.same(f"{number}, {port}", {"channels": 8, "port": PORTS[port], "refusal": 0, "words": "accepted",
                                                 "count": count, "interrupt": count > 0}, one)
                group.same(f"{number}, {port}: flags", [
                    {"name": name, "address": byte, "bit": bit, "mask_address": mask[0] if mask else None,
                     "condition": condition(state, byte, bit), **dict(zip(WORDS, marks(state, port, byte, bit)))}
                    for byte, bit, mask, name in SHOWN], flags)
            alone = shown(folder, state, "--json", port=RECORDER)[1]
            group.same(f"{number}: one port alone", json.loads(text)[1:], json.loads(alone))


def rows_in(text, ports):
    """The rows of a table: name, condition, a cell for each port; what stands for eight channels is eight rows."""
    wide = 25
    rows = []
    for line in re.findall(r"^  (?!\d+ other)(\S.*)$", text, re.M):
        name, stands, rest = line[:27].strip(), line[27:38].strip(), line[38:]
        cells = tuple(rest[wide * at:wide * (at + 1) if at + 1 < ports else None].strip() for at in range(ports))
        names = [name.replace("1-8", str(channel), 1) for channel in range(8, 0, -1)] if "1-8" in name else [name]
        rows += [(one, stands, *cells) for one in names]
    return rows


def row_of(state, ports, byte, bit, name):
    cells = [", ".join(word for word, is_so in zip(WORDS, marks(state, port, byte, bit)) if is_so) or "-" for port in ports]
    return (name, "stands" if condition(state, byte, bit) else "-", *cells)


def as_text(folder, checks):
    with checks.group("show, --all, --raised: the rows are those of the state's bytes, and the other flags are counted") as group:
        for number, state in enumerate(states()):
            for port in (None, RECORDER):
                ports = [port] if port else list(PORTS)
                whole = [row_of(state, ports, byte, bit, name) for byte, bit, _, name in SHOWN]
                telling = [row for row in whole if set(row[1:]) != {"-"}]
                raised = [row for row in whole if any("raised" in cell for cell in row[2:])]
                for words, expected in ((("--all",), whole), ((), telling), (("--raised",), raised)):
                    done, text = shown(folder, state, *words, port=port)
                    what = f"{number}, {port}, {words}"
                    group.same(what, (0, "", True), done)
                    seen = rows_in(text, len(ports))
                    group.same(f"{what}: rows", sorted(expected), sorted(seen))
                    if words == ("--all",):
                        group.same(f"{what}: their order", expected, seen)
                    others = re.findall(r"^  (\d+) other flags?: ", text, re.M)
                    left = len(whole) - len(telling) if words == () and telling and len(telling) < len(whole) else None
                    group.same(f"{what}: others", [str(left)] if left else [], others)
                    group.same(f"{what}: counts", [str(on_paper(state).count(one)) for one in ports],
                               re.findall(r"^(?:operator|recorder) \(eight channels\): (\d+) pending flag", text, re.M))


def dumped(text):
    """The bytes of a dump."""
    lines = re.findall(r"^ +\d+ [0-9A-F]{3} ((?: [0-9A-F]{2})+)", text, re.M)
    return bytes(int(byte, 16) for line in lines for byte in line.split())


def as_hex(folder, checks):
    with checks.group("show --hex: the 98 bytes as they lie; of a port the 128 that it reads") as group:
        for number, state in enumerate(states()):
            done, text = shown(folder, state, "--hex")
            group.same(number, ((0, "", True), state), (done, dumped(text)))
            for port in PORTS:
                done, text = shown(folder, state, "--hex", port=port)
                group.same(f"{number}, {port}", ((0, "", True), on_paper(state).read(port, 0, 128)[1]), (done, dumped(text)))


def unsound(folder, checks):
    """Each bit of a record that is no flag, or no paired mask."""
    with checks.group("show, where a record has a bit that is none: that port is refused, the other is shown, status 1") as group:
        for port, other in ((OPERATOR, RECORDER), (RECORDER, OPERATOR)):
            for run, bits in enumerate((FLAG_BITS, MASK_BITS, FLAG_BITS)):
                for at, bit in ((at, bit) for at in range(BYTES) for bit in range(8) if not bits[at] >> bit & 1):
                    state = bytearray(states()[1])
                    state[BYTES * (1 + 3 * (port - 1) + run) + at] |= 1 << bit
                    (status, complaint, left), text = shown(folder, bytes(state), "--json")
                    what = f"{port}, run {run}, byte {at}, bit {bit}"
                    group.same(what, (1, True, f"zikhrodan: e.state: refused 3, the {PORTS[port]}'s record in the state is "
                                      "unsound\n"), (status, left, complaint))
                    seen = {one["zikhrodan"]["port"]: one["zikhrodan"] for one in json.loads(text)}
                    group.same(f"{what}: refused", (3, None, None), tuple(seen[PORTS[port]][key] for key in
                                                                           ("refusal", "count", "interrupt")))
                    group.same(f"{what}: its flags", {(None, None, None)}, {tuple(flag[word] for word in WORDS)
                                                                             for flag in seen[PORTS[port]]["flags"]})
                    group.same(f"{what}: the other", (0, 1), tuple(seen[PORTS[other]][key] for key in ("refusal", "count")))


def names(folder, checks):
    with checks.group("watch: each condition alone, of 112 bits: its flag by its name for both ports, or nothing") as group:
        named = {(byte, bit): name for byte, bit, _, name in FLAGS}
        for byte, bit in ((byte, bit) for byte in range(FIRST_FLAG, FIRST_FLAG + BYTES) for bit in range(8)):
            (folder / "n.state").write_bytes(bytes(7 * BYTES))
            row = bytearray(BYTES)
            row[byte - FIRST_FLAG] = 1 << bit
            (folder / "n.rows").write_bytes(row)
            name = named.get((byte, bit))
            count = 1 if name else 0
            told = "".join(f"n.rows row 1, {port}: INTERRUPT, {name}\n" for port in PORTS.values()) if name else ""
            ends = "1 row taken\n" + "".join(f"{port} (eight channels): {count} pending flag{'' if count else 's'} let through, "
                                             f"{'interrupt' if count else 'no interrupt'}\n" for port in PORTS.values())
            group.same(f"{byte}.{bit}", (0, told + ends, ""), zikhrodan(folder, "watch", "n.state", "n.rows"))


def lengths(folder, checks):
    complaint = "zikhrodan: l.state: refused 1, the state is neither 688 bytes nor, of an eight-channel module, 98\n"
    (folder / "l.rows").write_bytes(bytes(14))
    with checks.group("a state of another length: every command refuses it in one line that names both, and leaves it") as group:
        for length in (0, 1, 14, 42, 97, 99, 105, 196, 640, 687, 689, 690, 5000):
            state = bytes(length)
            for words in (("sample", "l.state", "l.rows"), ("watch", "l.state", "l.rows"), ("read", "l.state", 1, 3, 1),
                          ("write", "l.state", 1, 102, 1), ("show", "l.state"), ("show", "l.state", "--json"),
                          ("sample", "l.state", "/dev/null")):
                (folder / "l.state").write_bytes(state)
                group.same(f"{length}, {words}", (1, "", complaint), zikhrodan(folder, *words))
                group.same(f"{length}, {words}: the state", state, (folder / "l.state").read_bytes())


def run(folder, checks):
    for part in (as_json, as_text, as_hex, unsound, names, lengths):
        place = folder / part.__name__
        place.mkdir()
        part(place, checks)
