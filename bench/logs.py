"""logs.py: what the calls on a log cost, by the number of its used blocks. Imported by measure.py."""
import re
from fractions import Fraction

from counting import ENGINES, costs, marks, program, shown, stop, table, times

USED = FEW, HUNDRED, MANY = "1", "100", "10000"  # used blocks; with the most of them only the library is counted
THOUSAND = "1000"  # in their place where the limits are held, as it takes less time
CHECKED, READ, PASSED = "a used block of a log", "a block that a search reads", "a block that a search passes over"
LIMITS = {CHECKED: 500, READ: 500, PASSED: 40}  # instructions

# How the cases begin that are there for how many samples a block has; and all searches.
KINDS = ("log sample, blocks of ", "log sample, old blocks of ")
SEARCH = "log first"
# How the cases begin that are held to the limits. Those of LONG fill a new block, by a memset that is not the same everywhere.
LONG = ("log add, full blocks, into a new one", "log power-up, full blocks")
HELD = {CHECKED: LONG + KINDS,
        READ: (f"{SEARCH}, old ", f"{SEARCH}, full blocks with every bit, "),
        PASSED: tuple(f"{SEARCH}, {which}" for which in ("full blocks, none", "half-full blocks, none", "empty blocks, none",
                                                        "full blocks, the last"))}


def cases(names):
    """Those that the tables have."""
    return [(name, used) for name in names for used in (USED[:2] if name.startswith(KINDS) else USED)]


def each_block(cost, engine, name, fewer, more):
    """What a used block adds, where a log of `fewer` becomes one of `more`."""
    return Fraction(cost[engine, (name, more)] - cost[engine, (name, fewer)], int(more) - int(fewer))


def tables(names):
    """Prints them; gives what each used block costs the library, by what it is held to: {what: the costs}."""
    kinds = [name for name in names if name.startswith(KINDS)]
    searches = [name for name in names if name.startswith(SEARCH)]
    calls = [name for name in names if name not in kinds + searches]
    cost = costs(ENGINES, [(name, used) for name in names for used in (FEW, HUNDRED)])
    cost |= costs(["library"], [(name, MANY) for name in calls + searches])
    means = []

    def row(name, *used):
        row = [name]
        for engine, of in zip(ENGINES, (used, USED[:2], USED[:2])):
            each = [each_block(cost, engine, name, *pair) for pair in zip(of, of[1:])]
            means.extend(each)
            row += map(shown, [*(cost[engine, (name, n)] for n in of), *each])
        return row
    heads = [f"{title}: {what}" for title in list(ENGINES.values())[1:] for what in (FEW, HUNDRED, "each")]
    print()
    table(["Call, used blocks", *USED, "each", "each above 100", *heads], [row(name, *USED) for name in calls])
    print()
    table(["Call, used blocks", FEW, HUNDRED, "each", *heads], [row(name, FEW, HUNDRED) for name in kinds])
    print()
    table(["Search, used blocks", *USED, "each", "each above 100", *heads], [row(name, *USED) for name in searches])
    marks([*cost.values(), *means])
    timed([name for name in calls + searches if ": refused" not in name])
    return {what: [each_block(cost, "library", name, FEW, HUNDRED) for name in names if name.startswith(starts)]
            for what, starts in HELD.items()}


def timed(names):
    """With the most used blocks."""
    taken = times([(name, MANY) for name in names])
    print()
    table([f"Call, {MANY} used blocks", "library µs", "-O2 µs", "-O3 µs"],
          [[name, *(f"{taken[engine, (name, MANY)] / 1000:.1f}" for engine in ENGINES)] for name in names])


def stored(text):
    """The library's instructions of the stored tables: {name: of a log of one block, (name, "each"): of each block up to 100}."""
    rows = re.findall(r"^\| (log [^|]+?) +\| +(\d+) \| +(\d+) \|", text, re.M)
    cost = {("library", (name, used)): int(number) for name, *numbers in rows for used, number in zip(USED, numbers)}
    return numbers(cost, [name for name, *_ in rows])


def numbers(cost, names):
    each = {(name, "each"): each_block(cost, "library", name, FEW, HUNDRED) for name in names}
    return each | {name: cost["library", (name, FEW)] for name in names if name not in LONG}


def limits(names):
    """Each number of samples that a block can have, the calls of LONG, and the searches: {what is said: whether it is so}, and
    the instructions that the stored tables have to have, as `stored` gives them."""
    most = {name: LIMITS[what] for name in names for what, starts in HELD.items() if name.startswith(starts)}
    if not all(any(name.startswith(start) for name in most) for starts in HELD.values() for start in starts):
        stop(2, "a limit of a log has no case")
    for name in most:
        program("library", "show", name, "1")  # ends all if the refusal is another, or what is found
    cost = costs(["library"], [(name, used) for name in most for used in (FEW, HUNDRED)])
    each = {name: each_block(cost, "library", name, FEW, HUNDRED) for name in most}
    verdicts = {f"{name}: {shown(each[name])} instructions a used block, at most {most[name]}": each[name] <= most[name]
                for name in most}
    long = [*LONG, max(each, key=each.get), *(name for name in most if name.startswith(HELD[PASSED]))]
    cost |= costs(["library"], [(name, THOUSAND) for name in long])
    for name in long:
        above = each_block(cost, "library", name, HUNDRED, THOUSAND)
        said = f"{name}: {shown(above)} a used block from {HUNDRED} to {THOUSAND}, not more than from {FEW} to {HUNDRED}"
        verdicts[said] = above <= each[name]
    return verdicts, numbers(cost, most)
