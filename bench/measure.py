"""measure.py: counts and times the calls of the programs that bench/run has built, and prints the tables.

  python3 -B bench/measure.py --table | --check | --limits | --growth | --store | --store-eight TOOLCHAIN COMPILER COUNTER

TOOLCHAIN is what the library was compiled by, COMPILER what plain C was, COUNTER what counts. Exit status as bench/run says.
"""
import re
import signal
import sys

import counting
import eight
import logs
import store
from counting import ENGINES, agree, costs, is_eight, is_log, marks, program, shown, stop, table, times

LIMITS = {"reset": 500, "sample": 1500, "read 128": 1300, "write 1": 350}  # by how a case's name begins; logs and eight have more
SECTION = "The table"  # of the stored text, that says what its tables are by, but for eight.SECTION's
MODE, TOOLCHAIN, COMPILER, COUNTER = sys.argv[1:]


def the_table(cases):
    cost, time = costs(ENGINES, cases), times(cases)
    head = ["Call", *ENGINES.values(), "to -O2", "to -O3", "library ns", "-O2 ns", "-O3 ns"]
    rows = []
    for case in cases:
        each = [cost[engine, case] for engine in ENGINES]
        row = [case[0], *map(shown, each), *(f"{float(each[0] / other):.2f}" for other in each[1:])]
        rows.append(row + [f"{time[engine, case]:.1f}" for engine in ENGINES])
    table(head, rows)
    marks(cost.values())
    return {start: [cost["library", case] for case in cases if case[0].startswith(start)] for start in LIMITS}


def reached(costs):
    """What LIMITS and logs.LIMITS are held against, least and most: {how the names begin, or what it is: the costs}."""
    rows = [[what, str(most), " to ".join(map(shown, sorted({min(costs[what]), max(costs[what])})))]
            for what, most in (LIMITS | logs.LIMITS).items()]
    print()
    table(["Limit", "at most", "reached"], rows)


def growth():
    reads, writes = "1 2 4 8 16 32 64 127 128".split(), "1 2 3 4".split()
    engines = list(ENGINES)[:2]
    for lengths, names in ((reads, ("read 128, lower memory", "read 128, page 02h")), (writes, ("write 4, page 02h",))):
        cases = [(name, length) for length in lengths for name in names]
        agree(cases, ENGINES)
        cost = costs(engines, cases)
        heads = [name.replace(lengths[-1], "n") + ": " + ENGINES[engine] for name in names for engine in engines]
        table(["n", *heads], [[n, *(shown(cost[e, (name, n)]) for name in names for e in engines)] for n in lengths])
        marks(cost.values())


def limits(cases, names_of_logs, cases_of_eight):
    most = {case: LIMITS[start] for case in cases for start in LIMITS if case[0].startswith(start)}
    if set(most.values()) != set(LIMITS.values()):
        stop(2, "a limit has no case")
    for case in most:
        program("library", "show", case[0], "1")  # ends all if the call is refused, which costs little
    cost = costs(["library"], most)
    verdicts = {}
    for case in most:
        said = f"{case[0]}: {shown(cost['library', case])} instructions, at most {most[case]}"
        verdicts[said] = cost["library", case] <= most[case]
    of_logs, log_numbers = logs.limits(names_of_logs)
    verdicts |= of_logs
    text = store.of(SECTION, TOOLCHAIN)
    if text:
        rows = re.findall(r"^\| ([^|]+?) +\| +(\d+) \|(?: +\S+ \|){4}", text, re.M)
        table_has = {(name,): number for name, number in rows if (name,) in most}
        right = table_has == {case: shown(cost["library", case]) for case in most}
        verdicts[f"these are the numbers of {store.STORED}, {SECTION} and of logs"] = right and log_numbers.items() <= logs.stored(text).items()
    verdicts |= eight.limits(cases_of_eight, TOOLCHAIN)
    for said, right in verdicts.items():
        print(f"{'ok' if right else 'FAILED'} {said}")
    marks(cost.values())
    failed = list(verdicts.values()).count(False)
    print(f"{len(verdicts) - failed} passed, {failed} failed")
    sys.exit(1 if failed else 0)


signal.signal(signal.SIGPIPE, signal.SIG_DFL)
every = [(name,) for name in program("library", "list").splitlines()]
names_of_logs, cases_of_eight = [case[0] for case in every if is_log(case)], [case for case in every if is_eight(case)]
cases = [case for case in every if not is_log(case) and not is_eight(case)]
if MODE == "--limits":
    limits(cases, names_of_logs, cases_of_eight)
print(f"-- the library by {TOOLCHAIN}\n-- plain C by {COMPILER}\n-- counted by {COUNTER}", flush=True)
if MODE not in ("--growth", "--store-eight"):
    agree(cases + logs.cases(names_of_logs), ENGINES)
if MODE != "--growth":
    eight.check(cases_of_eight)
if MODE in ("--table", "--store"):
    reached(the_table(cases) | logs.tables(names_of_logs))
if MODE in ("--growth", "--store"):
    growth()
OTHERS = len(counting.PRINTED)
if MODE in ("--table", "--store", "--store-eight"):
    eight.tables(cases_of_eight)
if MODE in ("--growth", "--store", "--store-eight"):
    eight.growth()
if MODE.startswith("--store"):
    tables = {SECTION: counting.PRINTED[:OTHERS]} if MODE == "--store" else {}
    store.put(tables | {eight.SECTION: counting.PRINTED[OTHERS:]}, TOOLCHAIN, COMPILER, COUNTER)
