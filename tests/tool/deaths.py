"""deaths.py: what `zikhrodan died` is to tell of a log, by a plain reading of every sample; without the hours."""
import logs

KINDS = (("rx", "", "Rx{} loss of signal"), ("tx", "", "Tx{} loss of signal"), ("tx", "-fault", "Tx{} fault"),
         ("tx", "-eq", "Tx{} equaliser fault"), ("rx", "-lock", "Rx{} loss of lock"), ("tx", "-lock", "Tx{} loss of lock"))
WORDS = [f"{side}{channel}{kind}" for side, kind, _ in KINDS for channel in range(1, 5)]
NAMES = [name.format(channel) for _, _, name in KINDS for channel in range(1, 5)]
LINES = len(WORDS)
LANES = 4
# Of each kind: which lanes, what befell them, how such a lane was in the sample before, and is in this one.
LOST = (("receive", "lost light", "lit", "dark"), ("transmit", "lost signal", "with a signal", "without a signal"),
        ("transmit", "had a fault", "without a fault", "with a fault"),
        ("transmit", "had an equaliser fault", "without an equaliser fault", "with an equaliser fault"),
        ("receive", "lost lock", "in lock", "out of lock"), ("transmit", "lost lock", "in lock", "out of lock"))
NO_SAMPLES = "nothing is known: the log has no samples\n"
NOTHING_LOST = "no lane lost light, signal or lock, and none had a fault"


def sample(*bits, tail=0):
    """A sample whose status bits are these."""
    status = sum(1 << bit for bit in set(bits))
    return status.to_bytes(3, "little") + bytes([tail]) * (logs.SAMPLE - 3)


def has(one, bit):
    return one[bit // 8] >> bit % 8 & 1 == 1


def first(blocks, bit):
    """The position of the first sample that has the bit, and its block's number; or none of both."""
    position = 0
    for number, samples in blocks:
        for one in samples:
            if has(one, bit):
                return position, number
            position += 1
    return None, None


def power_ups(blocks):
    """The position of the first sample after each power-up that can be seen: its block is empty, or the one before has room."""
    counts = [len(samples) for _, samples in blocks]
    return [sum(counts[:at]) for at, count in enumerate(counts)
            if count == 0 or (at > 0 and counts[at - 1] < logs.SAMPLES)]


def summary(bits):
    """How many lanes of how many lost what; nothing of no bits."""
    kinds = [bit // LANES for bit in bits]
    counts = [kinds.count(kind) for kind in range(len(LOST))]
    return "; ".join(f"{count} of {LANES} {side} lanes {lost}" for count, (side, lost, _, _) in zip(counts, LOST) if count)


def told(path, bits=range(LINES)):
    """What --json is to tell of a log's file, with no hours."""
    run = path.read_bytes()
    blocks = logs.read(run)
    seen, lines = power_ups(blocks), []
    for bit in bits:
        position, number = first(blocks, bit)
        died = position is not None
        before = [at for at in seen if died and 0 < at <= position]
        lines.append({"bit": bit, "line": WORDS[bit], "name": NAMES[bit], "position": position, "block": number,
                      "lit_at": None, "lit_at_local": None,
                      "lit_or_later": any(at < position for at in before) if died and position else None,
                      "dark_at": None, "dark_at_local": None, "or_later": bool(before) if died else None,
                      "while_off": position in before if died else None,
                      "in_first_sample": position == 0 if died else None, "maybe_before_log": True if died else None,
                      "power_ups_before": len(before) if died else None})
    return {"log": path.name, "room": (len(run) - logs.HEAD) // logs.BLOCK, "used": len(blocks),
            "sample_count": sum(len(samples) for _, samples in blocks), "damaged_slot": False,
            "summary": summary(line["bit"] for line in lines if line["position"] is not None) or None,
            "power_ups": seen, "lines": lines}


def plural(number):
    return "" if number == 1 else "s"


def sentence(path, bit):
    """What is to be told of one line, for people, with no hours."""
    whole = told(path, [bit])
    line, samples = whole["lines"][0], whole["sample_count"]
    if samples == 0:
        return f"{NAMES[bit]}: {NO_SAMPLES}"
    if line["position"] is None:
        return f"{NAMES[bit]}: not in any of the {samples} sample{plural(samples)}\n"
    before = [at for at in whole["power_ups"] if 0 < at <= line["position"]]
    return lost_text(bit, line, samples) + between_text(bit, line["position"]) + off_text(line) + seen_text(before, " before it")


def lost_text(bit, line, samples):
    side, lost, _, _ = LOST[bit // LANES]
    return (f"{NAMES[bit]}: {side} lane {bit % LANES + 1} {lost} at position {line['position']}, in block {line['block']}"
            f"{'' if line['position'] else ', or before the log began'}; the log has {samples} sample{plural(samples)}\n")


def between_text(bit, position, lit="", dark=""):
    """Between which two samples it was; with hours, if they are given."""
    _, _, before, after = LOST[bit // LANES]
    if position == 0:
        return f"{after} in the log's first sample{dark}\n"
    return (f"{before} in the sample before{lit};{chr(10) if lit else ' '}{after} in this one{dark}\n"
            f"before the log began it may have been {after} too\n")


def off_text(line):
    return "that came while the station was off or after: a power-up is seen between the two\n" if line["while_off"] else ""


def seen_text(before, of=""):
    if not before:
        return ""
    one = len(before) == 1
    return (f"{len(before)} power-up{' is' if one else 's are'} seen{of},{'' if one else ' the last'} just before position "
            f"{before[-1]}: nobody knows how long the station was off\n")


def table(path, room):
    """The same of all lines."""
    whole = told(path)
    text = (f"{path.name}: {whole['sample_count']} sample{plural(whole['sample_count'])} in {whole['used']} of {room} "
            f"block{plural(room)}\n{seen_text(whole['power_ups'])}")
    if whole["sample_count"] == 0:
        return text + NO_SAMPLES
    text += f"{whole['summary'] or NOTHING_LOST}\n"
    if whole["summary"]:
        text += "before the log began a lane may have been dark, or at fault, too\n"
    if any(line["position"] == 0 for line in whole["lines"]):
        text += "position 0: it was so in the log's first sample already\n"
    text += "\nline       name                    position      block  power-ups before\n"
    for line in whole["lines"]:
        position, number, before = ("-" if line[key] is None else line[key] for key in ("position", "block", "power_ups_before"))
        text += f"{line['line']:<11}{line['name']:<24}{position:>8}{number:>11}{before:>18}\n"
    return text
