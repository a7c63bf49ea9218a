"""log_outputs.py: no standard output for a command on a log: one line, status 2, and what was to be changed is; and long logs,
whose costs are in log_costs.py."""
from log_hardships import ADD, NEW, OLD, POWER_UP, SAMPLE, SHOWS, kept
from log_kills import look, rows_from
from outputs import WAYS, complaint, without_output
from station import zikhrodan


def outputs(folder, checks):
    with checks.group("standard output cannot be written: one line, status 2; what was to be changed is") as group:
        for what in WAYS:
            expected = (2, "", complaint(what))
            for words, rows in ((ADD, OLD + NEW), (POWER_UP, OLD), (SAMPLE, OLD + NEW), *((words, OLD) for words in SHOWS)):
                path, _ = kept(folder)
                group.same(f"{words}, {what}", expected,
                           without_output(lambda words=words, **lost: zikhrodan(folder, *words, **lost), what))
                group.same(f"{words}, {what}: the log", rows, look(path))
            seen = without_output(lambda **lost: zikhrodan(folder, "log", "new", "new.log", 3, **lost), what)
            group.same(f"log new, {what}", (expected, []), (seen, look(folder / "new.log")))
            (folder / "new.log").unlink()
    with checks.group("standard output cannot be written, and the log is long: the same") as group:
        kept(folder, rows_from(0, 60000))
        for words in SHOWS[1:]:
            seen = without_output(lambda words=words, **lost: zikhrodan(folder, *words, **lost), "Broken pipe")
            group.same(words, (2, "", ""), seen)


def many(folder, checks):
    with checks.group("20000 rows are added in one go, and shown in each form") as group:
        folder.mkdir()
        rows = rows_from(0, 20000)
        (folder / "new.rows").write_bytes(b"".join(rows))
        group.same("log new", 0, zikhrodan(folder, "log", "new", "kept.log", 1250)[0])
        for words, lines in ((ADD, 2), *zip(SHOWS[1:], (20004, 21268, 20001, 30, 2, 35))):
            status, said, _ = zikhrodan(folder, *words)
            group.same(words, (0, lines), (status, said.count("\n")))
        group.same("the log", rows, look(folder / "kept.log"))


def run(folder, checks):
    outputs(folder / "outputs", checks)
    many(folder / "many", checks)
