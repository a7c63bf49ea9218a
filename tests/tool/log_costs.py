"""log_costs.py: a log that is twice as long is twice the work, and no more than so many instructions a sample, in each form; and
a form whose output nobody takes does not go on."""
from counted import growths, instructions, is_even
from days import worst
from log_kills import rows_from
from outputs import without_output
from station import zikhrodan

SIZES, LONG = (112, 224, 448), (2000, 10000)
# The most instructions for each sample: some twice of what it is, and less than with printf for each number.
SHOWN = {("--csv",): 25000, ("--json",): 45000, ("--from", 0): 30000}
DIED = {(): 400, ("rx1",): 400, ("--json",): 400}
ADDED, UNSHOWN = 4000, 400


def adding(folder, size):
    """A log is made, and that many rows are added."""
    (folder / "kept.log").unlink(missing_ok=True)
    (folder / "new.rows").write_bytes(b"".join(rows_from(0, size)))
    zikhrodan(folder, "log", "new", "kept.log", size)
    return instructions(folder, "log", "add", "kept.log", "new.rows")


def untaken(folder, *words):
    return without_output(lambda **lost: instructions(folder, *words, status=2, **lost), "Broken pipe")


def run(folder, checks):
    for size in (*SIZES, *LONG):
        worst(folder / f"{size}.log", size, lambda at: at % 2)
    forms = [(("log", "show"), form, most) for form, most in SHOWN.items()] + [(("died",), *one) for one in DIED.items()]
    with checks.group("a sample in each form, and added, takes so many instructions, and as many in a longer log") as group:
        for name, form, most in forms:
            growth = growths(lambda size, name=name, form=form: instructions(folder, *name, f"{size}.log", *form), SIZES)
            group.same(f"{name} {form}: {growth}, at most {most}", (True, True), (max(growth) <= most, is_even(growth)))
        growth = growths(lambda size: adding(folder, size), SIZES)
        group.same(f"add: {growth}, at most {ADDED}", (True, True), (max(growth) <= ADDED, is_even(growth)))
    with checks.group("of a log that is long, a form whose output nobody takes reads it, and prints no more") as group:
        for name, form, _ in forms[:len(SHOWN)]:
            growth = growths(lambda size, name=name, form=form: untaken(folder, *name, f"{size}.log", *form), LONG)
            group.same(f"{name} {form}: {growth}, at most {UNSHOWN}", True, max(growth) <= UNSHOWN)
