"""plainly.py: flags stand in one order, whatever command lists them; masks are those that a port would read, and bits that a write
did not take those that it reads back. plain_json.py and plain_words.py have what else the commands have in common."""
import json
import random
import re

import logs
from bench import IMAGE
from deaths import LINES, NAMES, WORDS, sample
from paper import FLAGS, MASK_OF, Paper
from station import zikhrodan


def module(folder, name="module.state", *rows):
    """A module that was reset and has taken these rows."""
    path = folder / name
    zikhrodan(folder, "reset", name)
    if rows:
        (folder / "in.rows").write_bytes(b"".join(rows))
        zikhrodan(folder, "sample", name, "in.rows")
    return path


def log(folder, name, blocks, spare=1):
    path = folder / name
    path.write_bytes(logs.file_of(len(blocks) + spare, blocks))
    return path


def order(folder, checks):
    with checks.group("flags stand in one order: show, its JSON, watch, log show, died") as group:
        row = b"\xff" * 3 + b"\x7f\xff" + b"\xff" * 26
        module(folder, "module.state")
        (folder / "all.rows").write_bytes(row)
        watched = zikhrodan(folder, "watch", "module.state", "all.rows")[1]
        risen = re.search(r"operator: INTERRUPT, (.*)", watched).group(1).split(", ")
        table = re.findall(r"^  ([A-Zst][\w ]*?)  ", zikhrodan(folder, "show", "module.state", "--all")[1], re.M)
        group.same("there are flags", True, len(risen) > 50)
        group.same("show and watch", [name for name in table if name in risen], risen)
        group.same("status flags", NAMES, [name for name in table if name in NAMES])
        for address in range(100, 105):
            zikhrodan(folder, "write", "module.state", "operator", address, 255)
        (one, _) = json.loads(zikhrodan(folder, "show", "module.state", "--json")[1])
        masked = one["zikhrodan"]["masked_flags"]
        group.same("masked, in JSON", [name for name in table if name in masked], masked)
        group.same("outside, in JSON", [name for name in table if name in one["zikhrodan"]["outside"]], one["zikhrodan"]["outside"])
        log(folder, "all.log", logs.blocks_of([sample(*range(LINES))]))
        group.same("log show --json", NAMES,
                   json.loads(zikhrodan(folder, "log", "show", "all.log", "--json")[1])["samples"][0]["status"])
        group.same("log show --csv", NAMES, zikhrodan(folder, "log", "show", "all.log", "--csv")[1].strip().split(",")[-1].split("; "))
        died = zikhrodan(folder, "died", "all.log")[1]
        group.same("died", NAMES, [line[11:35].strip() for line in died.split("\n") if line[:11].strip() in WORDS])


def masks(folder, checks):
    with checks.group("masks are those of the record, also of a module that offers page 00h alone") as group:
        chance = random.Random(242)
        for number in range(24):
            path = module(folder)
            state = bytearray(path.read_bytes())
            state[2] |= 4 * (number % 2)
            port = 1 + number // 2 % 2
            at = Paper.record(port) + len(FLAGS)
            own = [chance.randrange(256) & (0xF0 if i in (3, 4) else 0xFF) for i in range(11)]
            state[at:at + 11] = own
            path.write_bytes(state)
            shown = json.loads(zikhrodan(folder, "show", path.name, "--json")[1])
            counts = [sum(byte.bit_count() for byte in (own if one == port else bytes(11))) for one in (1, 2)]
            group.same(number, counts, [len(one["zikhrodan"]["masked_flags"]) for one in shown])
            group.same(f"{number}: the state", bytes(state), path.read_bytes())
            raised = bytearray(state)
            for flag, mask in zip(MASK_OF, own):
                raised[Paper.record(port) + flag - FLAGS.start] = mask
            path.write_bytes(raised)
            again = json.loads(zikhrodan(folder, "show", path.name, "--json")[1])[port - 1]["zikhrodan"]
            group.same(f"{number}: they hold back just these flags", 0, again["count"])


def taken(folder, checks):
    with checks.group("write says which bits did not take, by what is read back, and nothing where all did") as group:
        chance = random.Random(86)
        paper = Paper()
        for number in range(160):
            path = module(folder)
            paper.reset(IMAGE)
            page = chance.choice((0, 0, 2, 3))
            for port in (1, 2):
                zikhrodan(folder, "write", path.name, port, 127, page)
                paper.write(port, 127, bytes([page]))
            address = chance.choice((chance.randrange(124), chance.randrange(84, 128), chance.randrange(128, 252)))
            data = bytes(chance.choice((0, 255, chance.randrange(256))) for _ in range(chance.randrange(1, 3)))
            if paper.write(1, address, data) != 0:
                continue
            wanted = []
            for at, byte in enumerate(data, address):
                now = read_back(paper, at)
                differs = [str(bit) for bit in range(8) if (now ^ byte) >> bit & 1]
                if at == 127 and differs:
                    wanted.append(f"at 127: page {byte:02X}h is not supported, {now:02X}h is selected")
                elif differs:
                    wanted.append((at, byte, now, len(differs)))
            lines = zikhrodan(folder, "write", path.name, 1, address, *data)[1].splitlines()[1:]
            group.same(f"{number}: {page}, {address}, {data.hex()}", len(wanted), len(lines))
            for line, told in zip(lines, wanted):
                if isinstance(told, str):
                    group.same(number, told, line)
                    continue
                at, byte, now, count = told
                none = re.fullmatch(rf"at {at}: {byte:02X}h did not take, it reads {now:02X}h: no writable bit there", line)
                some = re.fullmatch(rf"at {at}: of {byte:02X}h bits? ([\d ,-]+) did not take, it reads {now:02X}h", line)
                group.same(f"{number}, {at}: {line}", True, bool(none or some))
                if some:
                    runs = [[int(one) for one in run.split("-")] for run in some.group(1).split(", ")]
                    bits = [bit for run in runs for bit in range(run[-1], run[0] + 1)]
                    group.same(f"{number}, {at}: bits", (count, byte ^ now), (len(bits), sum(1 << bit for bit in bits)))
                    group.same(f"{number}, {at}: others can be written", True, writable(page, at))
                if none:
                    group.same(f"{number}, {at}: none can be written", False, writable(page, at))


def read_back(paper, address):
    return paper.read(1, address, 1)[1][0]


def writable(page, at):
    """Whether a byte has a bit that the operator can write, on paper."""
    seen = []
    for value in (0, 255):
        paper = Paper()
        paper.reset(IMAGE)
        paper.write(1, 127, bytes([page]))
        paper.write(1, at, bytes([value]))
        seen.append(read_back(paper, at))
    return seen[0] != seen[1]


def run(folder, checks):
    for part in (order, masks, taken):
        place = folder / part.__name__
        place.mkdir()
        part(place, checks)
