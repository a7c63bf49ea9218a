"""counting.py: runs the programs that bench/run has built, counts and times their calls, and lays the numbers out. Imported by
measure.py, eight.py, logs.py and store.py.

A run of some repeats less a run of fewer is the calls between and what the program does around each; the program with the idle
engine takes the latter and one instruction a call.
"""
import re
import subprocess
import sys
from concurrent.futures import ThreadPoolExecutor
from fractions import Fraction

WORK = "build/bench"
ENGINES = {"library": "library", "direct-O2": "C -O2", "direct-O3": "C -O3"}
PRINTED = []  # the tables, each the list of its lines


def stop(status, line):
    print("bench: " + line, file=sys.stderr)
    sys.exit(status)


def run(*words):
    done = subprocess.run(words, capture_output=True, text=True)
    if done.returncode != 0:
        said = done.stderr.strip() or f"status {done.returncode}"
        stop(1 if done.returncode == 1 else 2, f"{' '.join(words)}: {said.splitlines()[-1]}")
    return done


def program(engine, *words):
    """What a program prints."""
    return run(f"{WORK}/{engine}", *words).stdout


def instructions(engine, case, repeats):
    """Of a whole run of a program."""
    words = [f"{WORK}/{engine}", "make", case[0], repeats, *case[1:]]
    said = run("valgrind", "--tool=callgrind", "--callgrind-out-file=/dev/null", *words).stderr
    return int(re.search(r"Collected : (\d+)", said).group(1))


def agree(cases, engines):
    """Ends all if an engine leaves or answers something else than another."""
    for case in cases:
        seen = {engine: program(engine, "show", case[0], "3", *case[1:]) for engine in engines}
        for engine in engines:
            if seen[engine] != seen["library"]:
                stop(1, f"{' '.join(case)}: {engines[engine]} and the library differ")
    print(f"-- the engines agree on every byte of {len(cases)} cases")


def is_eight(case):
    return case[0].startswith("eight")


def is_log(case):
    return case[0].startswith("log")


def costs(engines, cases):
    """The instructions of one call: {(engine, case): number}. A case is its name, or its name and a length or a log's used
    blocks. Eleven calls less one are counted; on a log, which may be long, one less none."""
    repeats = {case: ("00", "01") if is_log(case) else ("01", "11") for case in cases}
    runs = [(engine, case, times) for case in cases for engine in (*engines, "idle") for times in repeats[case]]
    with ThreadPoolExecutor(2) as pool:
        total = dict(zip(runs, pool.map(lambda words: instructions(*words), runs)))

    def between(engine, case):
        fewer, more = repeats[case]
        return Fraction(total[engine, case, more] - total[engine, case, fewer], int(more) - int(fewer))
    return {(e, c): between(e, c) - between("idle", c) + 1 for e in engines for c in cases}


def times(cases, engines=ENGINES):
    """The nanoseconds of one call, {(engine, case): number}: the best of five rounds through all cases, so that the rounds of one
    case lie apart, without what the loop around it takes."""
    best = {}
    for _ in range(5):
        for case in cases:
            for engine in (*engines, "idle"):
                taken = float(program(engine, "time", *case))
                best[engine, case] = min(taken, best.get((engine, case), taken))
    return {(e, c): best[e, c] - best["idle", c] for e in engines for c in cases}


# ---- tables

def shown(cost):
    """A cost as it is; one with a mark is a part of several calls, or of several blocks, whose instructions do not divide."""
    return str(cost) if cost.denominator == 1 else f"{float(cost):.1f}*"


def marks(costs):
    if any(cost.denominator != 1 for cost in costs):
        print("\n* the instructions of the calls or blocks that were counted do not divide by their number; this is the mean")


def table(head, rows):
    widths = [max(len(cell) for cell in column) for column in zip(head, *rows)]
    rule = ["-" * widths[0], *("-" * (width - 1) + ":" for width in widths[1:])]
    lines = []
    for row in (head, rule, *rows):
        cells = [row[0].ljust(widths[0]), *map(str.rjust, row[1:], widths[1:])]
        lines.append("| " + " | ".join(cells) + " |")
    print(*lines, sep="\n", flush=True)
    PRINTED.append(lines)
