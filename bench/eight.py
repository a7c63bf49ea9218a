"""eight.py: what the calls on the eight-channel module cost, beside plain C and beside tuned C. Imported by measure.py."""
import re

import counting
import store
from counting import agree, costs, marks, program, shown, stop, table, times

ENGINES = counting.ENGINES | {"tuned": "tuned C"}
# By how a case's name begins, instructions.
LIMITS = {"eight reset": 80, "eight sample": 300, "eight read 128": 400, "eight write 1": 200}
SECTION = "The eight-channel module"  # of the stored text
RANDOM = "100000"  # calls


def check(cases):
    """Ends all if an engine leaves or answers something else than another, in a case or in calls that a generator chooses."""
    agree(cases, ENGINES)
    seen = {engine: program(engine, "random", RANDOM) for engine in ENGINES}
    for engine in ENGINES:
        if seen[engine] != seen["library"]:
            stop(1, f"{RANDOM} calls on the eight-channel module: {ENGINES[engine]} and the library differ")
    print(f"-- the engines agree on {RANDOM} calls on the eight-channel module")


def tables(cases):
    cost, time = costs(ENGINES, cases), times(cases, ENGINES)
    others = [title.replace("C -", "-").replace(" C", "") for title in list(ENGINES.values())[1:]]
    head = ["Eight-channel call", *ENGINES.values(), *(f"to {other}" for other in others)]
    rows = []
    for case in cases:
        each = [cost[engine, case] for engine in ENGINES]
        row = [case[0], *map(shown, each), *(f"{float(each[0] / other):.2f}" for other in each[1:])]
        rows.append(row + [f"{time[engine, case]:.1f}" for engine in ENGINES])
    print()
    table(head + [f"{what} ns" for what in ("library", *others)], rows)
    marks(cost.values())
    reached = {start: {cost["library", case] for case in cases if case[0].startswith(start)} for start in LIMITS}
    print()
    table(["Eight-channel limit", "at most", "reached"],
          [[start, str(LIMITS[start]), " to ".join(map(shown, sorted({min(seen), max(seen)})))] for start, seen in reached.items()])


def growth():
    lengths, names = "1 2 4 8 16 32 64 127 128".split(), ("eight read 128, at 0", "eight read 14, the flags at 3")
    cases = [(name, length) for length in lengths for name in names if name == names[0] or int(length) <= 64]
    agree(cases, ENGINES)
    engines = [engine for engine in ENGINES if engine != "direct-O3"]
    cost = costs(engines, cases)
    heads = [re.sub(r"\d+", "n", name, count=1) + ": " + ENGINES[engine] for name in names for engine in engines]
    cells = [[shown(cost[e, (name, n)]) if (e, (name, n)) in cost else "" for name in names for e in engines] for n in lengths]
    print()
    table(["n", *heads], [[n, *row] for n, row in zip(lengths, cells)])
    marks(cost.values())


def limits(cases, toolchain):
    """{what is said: whether it is so}."""
    most = {case: LIMITS[start] for case in cases for start in LIMITS if case[0].startswith(start)}
    if not all(any(case[0].startswith(start) for case in most) for start in LIMITS):
        stop(2, "a limit of the eight-channel module has no case")
    for case in most:
        program("library", "show", case[0], "1")  # ends all if the refusal is another
    cost = costs(["library"], most)
    verdicts = {f"{case[0]}: {shown(cost['library', case])} instructions, at most {most[case]}": cost["library", case] <= most[case]
                for case in most}
    text = store.of(SECTION, toolchain)
    if text:
        rows = dict(re.findall(r"^\| (eight [^|]+?) +\| +(\d+) \|(?: +\S+ \|){6}", text, re.M))
        verdicts[f"these are the numbers of {store.STORED}, {SECTION}"] = all(
            rows.get(case[0]) == shown(cost["library", case]) for case in most)
    marks(cost.values())
    return verdicts
