"""plain_json.py: one key of JSON has one type, whatever command prints it; what is printed is UTF-8, and what was asked for."""
import json
from itertools import product

import logs
from deaths import LINES, sample
from plainly import log, module
from station import zikhrodan

ODD = (("d\udcff\u00e9\".log", "d\ufffd\u00e9\".log"), ("\udcc3(\udced\udca0\udc80.log", "\ufffd(\ufffd\ufffd\ufffd.log"),
       ("a\n\x1b\x7f\\.log", "a\n\x1b\x7f\\.log"))


def kind_of(value):
    return "number" if isinstance(value, (int, float)) and not isinstance(value, bool) else type(value).__name__


def types(value, found):
    """The types that each key has, null apart; and what an array's values are."""
    pairs = value.items() if isinstance(value, dict) else (("[]", one) for one in value) if isinstance(value, list) else ()
    for key, one in pairs:
        if one is not None and key != "[]":
            found.setdefault(key, set()).add(kind_of(one))
        types(one, found)
    return found


def keys(folder, checks):
    with checks.group("one key of JSON has one type in all commands") as group:
        module(folder, "module.state", sample(*range(LINES)))
        zikhrodan(folder, "write", "module.state", "operator", 100, 255)
        zikhrodan(folder, "reset", "--eight", "eight.state")
        (folder / "e.rows").write_bytes(b"\xff" * 14)
        zikhrodan(folder, "sample", "eight.state", "e.rows")
        log(folder, "kept.log", logs.blocks_of([sample()] * 3) + [logs.block(2, [sample(2)]), logs.block(3, [])])
        found, told = {}, {}
        hours = ("--period", "60", "--start", "2026-11-15T08:00Z")
        for words in (("show", "module.state"), ("show", "eight.state"), ("log", "show", "kept.log"), ("died", "kept.log"),
                      ("died", "kept.log", *hours), ("died", "kept.log", "rx3", *hours)):
            status, text, complaint = zikhrodan(folder, *words, "--json")
            group.same(words, (0, ""), (status, complaint))
            told[words[:2]] = json.loads(text)
            types(told[words[:2]], found)
        group.same("keys with two types", {}, {key: seen for key, seen in found.items() if len(seen) > 1})
        group.same("there are keys", True, len(found) > 60)
        same = ("log", "room", "used", "sample_count", "damaged_slot")
        one, other = told["log", "show"], told["died", "kept.log"]
        group.same("what both say of a log", [one[key] for key in same], [other[key] for key in same])
    with checks.group("a name that is no UTF-8 gives JSON that is") as group:
        for name, shown in ODD:
            path = folder / name
            path.write_bytes((folder / "kept.log").read_bytes())
            for words in (("log", "show", name, "--json"), ("died", name, "--json")):
                status, text, _ = zikhrodan(folder, *words)
                group.same(repr(words), (0, shown), (status, json.loads(text.encode("latin-1").decode("utf-8"))["log"]))
    with checks.group("log show --json with --from or --count: those samples, and the blocks that they are in") as group:
        counts = (3, 16, 0, 5)
        blocks = [logs.block(at + 7, [sample(tail=at)] * count) for at, count in enumerate(counts)]
        log(folder, "kept.log", blocks)
        whole = [at + 7 for at, count in enumerate(counts) for _ in range(count)]
        for start, count in product(range(24), (0, 1, 2, 4, 17, 24, 99)):
            text = zikhrodan(folder, "log", "show", "kept.log", "--json", "--from", start, "--count", count)[1]
            seen, wanted = json.loads(text), whole[start:start + count]
            group.same(f"{start}, {count}", (wanted, sorted(set(wanted))),
                       ([one["block"] for one in seen["samples"]], [one["block"] for one in seen["blocks"]]))


def run(folder, checks):
    keys(folder, checks)
