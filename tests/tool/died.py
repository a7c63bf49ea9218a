"""died.py: `zikhrodan died` beside a plain reading of every sample: all 24 lines, block borders, logs without summaries, damage,
power-ups. died_hours.py has the hours, log_outputs.py and log_hardships.py what cannot be printed or read."""
import json
import random

import logs
from deaths import LINES, NAMES, WORDS, first, sample, sentence, table, told
from station import zikhrodan

UNSOUND = "refused 15, block {} of the 2 used is unsound\n"
NO_LINE = "refused 17, the status bit is above 23\n"
NO_NUMBER = "is no number, in decimal or after 0x in hex, of 64 bits at most\n"
NO_LOG = "it is no log; `zikhrodan log new` makes one, under another name\n"
RANDOM_LOGS = 60


def put(folder, blocks, spare=1):
    path = folder / "kept.log"
    path.write_bytes(logs.file_of(len(blocks) + spare, blocks))
    return path


def agrees(group, name, path, room, one=None):
    """All three forms of the whole, and of one line if it is given, are as a plain reading has them."""
    status, text, complaint = zikhrodan(path.parent, "died", path.name, "--json")
    group.same(f"{name}: --json", (0, told(path), ""), (status, json.loads(text or "null"), complaint))
    group.same(f"{name}: the table", (0, table(path, room), ""), zikhrodan(path.parent, "died", path.name))
    if one is not None:
        group.same(f"{name}: line {one}", (0, sentence(path, one), ""), zikhrodan(path.parent, "died", path.name, WORDS[one]))


def words(folder, checks):
    with checks.group("each line by its word, its name and its number, in any case of letters; with --json it alone") as group:
        for bit in range(LINES):
            died = bit * 7 % 37
            path = put(folder, logs.blocks_of([sample(bit) if at >= died else sample() for at in range(40)]))
            group.same(f"{bit}: on paper", died, first(logs.read(path.read_bytes()), bit)[0])
            for word in (WORDS[bit], WORDS[bit].upper(), NAMES[bit], NAMES[bit].lower(), str(bit), hex(bit)):
                group.same(f"{bit}: {word}", (0, sentence(path, bit), ""), zikhrodan(folder, "died", path.name, word))
            other = (bit + 5) % LINES
            group.same(f"{bit}: another line", (0, sentence(path, other), ""), zikhrodan(folder, "died", path.name, other))
            seen = zikhrodan(folder, "died", path.name, WORDS[bit], "--json")
            group.same(f"{bit}: --json", (0, told(path, [bit]), ""), (seen[0], json.loads(seen[1]), seen[2]))
    with checks.group("a number above 23 is asked of the library, which refuses 17; past 64 bits it is no number") as group:
        path = put(folder, logs.blocks_of([sample(*range(LINES))]))
        for word in ("24", "0x18", "255", "256", "4294967296", "18446744073709551615"):
            group.same(word, (1, "", f"zikhrodan: kept.log: line {int(word, 0)}: {NO_LINE}"),
                       zikhrodan(folder, "died", path.name, word, "--json"))
        word = "18446744073709551616"
        group.same("65 bits", (2, "", f"zikhrodan: the line '{word}' {NO_NUMBER}"), zikhrodan(folder, "died", path.name, word))


def borders(folder, checks):
    with checks.group("first and last position, and both sides of each block's border; with summaries and without") as group:
        for name, one in (("with", logs.block), ("without", logs.old_block)):
            for count in (1, 2, 15, 16, 17, 32, 33, 48):
                for died in sorted({0, 14, 15, 16, 17, 31, 32, count - 1} & set(range(count))):
                    bit = (died * 5 + count) % LINES
                    rows = [sample(bit, tail=255) if at == died else sample(tail=255) for at in range(count)]
                    path = put(folder, logs.blocks_of(rows, one=one))
                    group.same(f"{name}, {count}, {died}: on paper", died, first(logs.read(path.read_bytes()), bit)[0])
                    group.same(f"{name}, {count}, {died}", (0, sentence(path, bit), ""),
                               zikhrodan(folder, "died", path.name, bit))
    with checks.group(f"{RANDOM_LOGS} random logs: blocks of 0 to 16 samples, some with summaries, some without") as group:
        chance = random.Random(9)
        for number in range(RANDOM_LOGS):
            rare, start = chance.choice((0.003, 0.03, 0.3)), chance.choice((0, 1, 77, 2 ** 32 - 9))
            blocks = [chance.choice((logs.block, logs.old_block))(start + at, [
                sample(*(bit for bit in range(LINES) if chance.random() < rare), tail=chance.randrange(256))
                for _ in range(chance.choice((0, 1, 15, 16, 16, 16)))]) for at in range(chance.randrange(9))]
            agrees(group, f"log {number}", put(folder, blocks), len(blocks) + 1, chance.randrange(LINES))


def old(folder, checks):
    with checks.group("an old block that is added to gets a summary over all its samples; the full ones before it stay") as group:
        for count in (5, 16, 21, 32):
            rows = [sample(at % LINES, tail=at) for at in range(count)]
            blocks = logs.blocks_of(rows, one=logs.old_block)
            path = put(folder, blocks, 2)
            agrees(group, f"{count}, before", path, len(blocks) + 2)
            (folder / "new.rows").write_bytes(sample(23))
            group.same(f"{count}: add", (0, ""), zikhrodan(folder, "log", "add", path.name, "new.rows")[::2])
            group.same(f"{count}: power-up", (0, ""), zikhrodan(folder, "log", "power-up", path.name)[::2])
            full = count // logs.SAMPLES
            expected = blocks[:full] + [logs.block(full + 1, rows[full * logs.SAMPLES:] + [sample(23)]), logs.block(full + 2, [])]
            held = path.read_bytes()[logs.HEAD:]
            group.same(f"{count}: the blocks", b"".join(expected), held[:logs.BLOCK * len(expected)])
            agrees(group, f"{count}, after", path, len(blocks) + 2, 23)


def mended(block):
    """A block with the sum that its bytes have."""
    return block[:-2] + (sum(block[:-2]) & 0xFFFF).to_bytes(2, "big")


def changed(block, changes):
    run = bytearray(block)
    for at, value in changes.items():
        run[at] = value
    return bytes(run)


def damaged(folder, checks):
    good = logs.blocks_of([sample(2, 11) for _ in range(20)])
    cases = {f"byte {at} is 1": {at: 1} for at in range(505, 510)}
    cases.update({"a bit too many": {501: 5}, "a bit too few": {502: 0}, "another bit": {501: 8}, "a third byte": {503: 128},
                  "mark 2": {504: 2}, "mark 255": {504: 255}, "a summary without its mark": {504: 0},
                  "a mark without its summary": {501: 0, 502: 0}, "count 17": {4: 17}, "unused room": {500: 1}})
    with checks.group("an unsound log is refused 15, in every form, and nothing is told; its sums right or wrong") as group:
        for name, changes in cases.items():
            for place in (1,) if name == "unused room" else (0, 1):  # a full block has none
                run = changed(good[place], changes)
                for mend in (mended, bytes):
                    blocks = [mend(run) if at == place else block for at, block in enumerate(good)]
                    path = put(folder, blocks)
                    for form in ((), ("rx3",), ("--json",), ("tx4-fault", "--json"), ("24",)):
                        group.same(f"{name}, block {place}, {mend.__name__}, {form}", (1, "", f"zikhrodan: kept.log: {UNSOUND.format(place + 1)}"),
                                   zikhrodan(folder, "died", path.name, *form))
        path = put(folder, good)
        agrees(group, "undamaged", path, 3, 2)
        path.write_bytes(path.read_bytes().replace(logs.MAGIC, b"zikhrodan log 0\n"))
        group.same("no log", (2, "", f"zikhrodan: kept.log: {NO_LOG}"), zikhrodan(folder, "died", path.name))


def ups(folder, checks):
    with checks.group("power-ups by the tool: seen where a block had room, or stays empty; else not, as the help says") as group:
        path = put(folder, [], 12)
        agrees(group, "no block is used", path, 12, 0)
        expected = {"P": [0], "P3": [], "P3P": [3], "P3P2": [3], "P3P13": [3], "P3P13P": [3, 16], "P3P16P": [3, 19],
                    "P3P16P5": [3], "PP": [0, 0], "PP1": [0, 0], "PPP1P": [0, 0, 0, 1], "16P": [16], "16P16": [],
                    "16PP16": [16, 16]}
        for script, positions in expected.items():
            path = put(folder, [], 12)
            for step in script.replace("P", " P ").split():
                (folder / "new.rows").write_bytes(b"".join([sample(0)] * (0 if step == "P" else int(step))))
                done = ("power-up", path.name) if step == "P" else ("add", path.name, "new.rows")
                group.same(f"{script}: {step}", (0, ""), zikhrodan(folder, "log", *done)[::2])
            group.same(f"{script}: seen", positions, json.loads(zikhrodan(folder, "died", path.name, "--json")[1])["power_ups"])
            agrees(group, script, path, 12, 0)
    with checks.group("power-ups between the first sample and a line's are told with it: how many, and the last") as group:
        for counts, died in (((3, 4, 5), 2), ((3, 4, 5), 3), ((3, 4, 5), 6), ((3, 4, 5), 7), ((0, 3, 0, 0, 5), 0),
                             ((0, 3, 0, 0, 5), 3), ((16, 16, 5), 35), ((16, 0, 16, 5), 16), ((1, 1, 1, 1), 3)):
            rows = [sample(7) if at == died else sample() for at in range(sum(counts))]
            blocks = [logs.block(at + 1, rows[sum(counts[:at]):sum(counts[:at + 1])]) for at in range(len(counts))]
            agrees(group, f"{counts}, {died}", put(folder, blocks), len(blocks) + 1, 7)


def slots(folder, checks):
    path = put(folder, logs.blocks_of([sample(2)]))
    with checks.group("died: a slot of the log's head is damaged: it is said, in --json too, and the rest is told") as group:
        run = bytearray(path.read_bytes())
        run[logs.SLOT:logs.SLOT + len(logs.MAGIC)] = logs.MAGIC
        path.write_bytes(run)
        status, text, complaint = zikhrodan(folder, "died", path.name, "--json")
        group.same("--json", (0, dict(told(path), damaged_slot=True)), (status, json.loads(text)))
        group.same("one line", (1, True), (complaint.count("\n"), "a slot of its head is damaged" in complaint))


def run(folder, checks):
    for number, part in enumerate((words, borders, old, damaged, ups, slots)):
        place = folder / str(number)
        place.mkdir()
        part(place, checks)
