"""wrong_rows.py: what is given for rows and is none is refused by its name, before a row is taken, and nothing is changed; with
--raw it is taken. Every kind of file that the tool makes is given to every command that takes rows: as a file, as standard input
that is a file, and through a pipe. odd_rows.py has lists of files, rows that look odd, and streams."""
import os

from fed import COMMANDS, DIGITS, EIGHT_STATE, FACTORY, LOG, MEMORY, OVERRIDE, PAGE, STATE, TEXT, Target, contents
from feed import sample
from log_kills import look
from station import zikhrodan

WIPED = b"zikhrodan wiped\n".ljust(512, b"\0")


# Each file that is made: what it is, and what is told of it through a pipe, by its first row of 31 bytes or of 14.
TOLD = {
    **dict.fromkeys(("day.log", "new.log", "wiped.log"), (LOG, LOG, LOG)),
    "second.log": (LOG, None, TEXT),  # its first slot's magic is damaged
    **dict.fromkeys(("module.state", "used.state"), (STATE, MEMORY, None)),
    **dict.fromkeys(("eight.state", "used-eight.state"), (EIGHT_STATE, None, None)),
    "factory.image": (FACTORY, MEMORY, None),
    "page.html": (PAGE, PAGE, PAGE),
    **dict.fromkeys(("rows.txt", "eight-rows", "line.txt"), (DIGITS, DIGITS, DIGITS)),
    "read.txt": (TEXT, DIGITS, DIGITS),  # its first row is digits
    **dict.fromkeys(("show.txt", "show.json", "show-hex.txt", "eight.txt", "eight.json", "log.txt", "log.json", "log.csv",
                     "died.txt", "died.json", "report.txt", "help.txt", "name.txt"), (TEXT, TEXT, TEXT)),
}
PRINTED = {
    "show.txt": ("show", "used.state"), "show.json": ("show", "used.state", "--json"),
    "show-hex.txt": ("show", "used.state", "--hex"), "read.txt": ("read", "used.state", "1", "3", "12"),
    "eight.txt": ("show", "used-eight.state"), "eight.json": ("show", "used-eight.state", "--json"),
    "log.txt": ("log", "show", "day.log"), "log.json": ("log", "show", "day.log", "--json", "--count", "40"),
    "log.csv": ("log", "show", "day.log", "--csv", "--count", "40"),
    "died.txt": ("died", "day.log"), "died.json": ("died", "day.log", "--json"), "help.txt": ("log", "add", "--help"),
    "report.txt": ("report", "day.log", "-o", "page.html"),
}
NAMED = "M\u00e5lestasjon \u2265 3: l\u00f8penummer \U0001d11e 17, og mer enn en rad\n"
KEPT = {"day.log", "factory.image", "module.state", "day.rows", "eight.rows", "eight.state"}


def make(folder):
    """Each file of TOLD, and the day's rows, in the folder."""
    folder.mkdir()
    zikhrodan(folder, "demo", "--keep", ".")
    zikhrodan(folder, "demo", "--eight", "--keep", ".")
    kept = set(os.listdir(folder))
    for name, used, rows in (("module", "used", "day"), ("eight", "used-eight", "eight")):
        (folder / f"{used}.state").write_bytes((folder / f"{name}.state").read_bytes())
        zikhrodan(folder, "sample", f"{used}.state", f"{rows}.rows")
    zikhrodan(folder, "log", "new", "new.log", 3)
    day = (folder / "day.log").read_bytes()
    (folder / "wiped.log").write_bytes(WIPED + day[len(WIPED):])
    (folder / "second.log").write_bytes(b"X" + day[1:])
    (folder / "rows.txt").write_text((folder / "day.rows").read_bytes().hex(" ", 31).upper(), encoding="ascii")
    (folder / "eight-rows").write_text((folder / "eight.rows").read_bytes().hex(" ") + "\n", encoding="ascii")
    (folder / "line.txt").write_text(sample().hex(), encoding="ascii")
    (folder / "name.txt").write_text(NAMED, encoding="utf-8")
    for name, words in PRINTED.items():
        (folder / name).write_text(zikhrodan(folder, *words)[1], encoding="latin-1")
    return kept


def each_way(target, group, made, words, length):
    """Each file that is made, as a file, as standard input, and through a pipe."""
    for name, (as_file, *in_row) in TOLD.items():
        path, told, what = made / name, in_row[0 if length == 31 else 1], f"{words}, {name}"
        target.refused(group, what, f"../made/{name}", as_file + OVERRIDE, target.run(*words, f"../made/{name}"))
        target.refused(group, f"{what} as <", "standard input", as_file + OVERRIDE, target.redirected(*words, path=path))
        seen = target.piped(*words, "-", run=path.read_bytes())
        if told:
            target.refused(group, f"{what} as |", "standard input", told + OVERRIDE, seen)
        else:
            target.taken(group, f"{what} as |, which cannot be told", path.read_bytes(), length, seen)
            target.begin()


def right(target, group, made, words, length):
    """Right rows are taken, each way, and leave the same."""
    name, left = "day.rows" if length == 31 else "eight.rows", []
    run = (made / name).read_bytes()
    for way in (lambda: target.run(*words, f"../made/{name}"), lambda: target.redirected(*words, path=made / name),
                lambda: target.piped(*words, "-", run=run), lambda: target.run(*words, "--raw", f"../made/{name}")):
        target.taken(group, f"{words}, {name}", run, length, way())
        left.append(contents(target.now()))
        target.begin()
    group.same(f"{words}: each way leaves the same", True, left == left[:1] * len(left))
    group.same(f"{words}: something is changed", True, left[0] != contents(target.before))


def raw(target, group, made):
    for name in TOLD:
        run = (made / name).read_bytes()
        seen = target.run("log", "add", "--raw", "kept.log", f"../made/{name}")
        target.taken(group, f"log add --raw, {name}", run, 31, seen)
        rows = [run[at:at + 31] for at in range(0, len(run) - 30, 31)]
        group.same(f"log add --raw, {name}: the log", True, look(target.folder / "kept.log") == target.had + rows)
        seen = target.redirected("watch", "eight.state", "--raw", path=made / name)
        target.taken(group, f"watch --raw, {name} as <", run, 14, seen)
        seen = target.piped("sample", "module.state", "--raw", run=run)
        target.taken(group, f"sample --raw, {name} as |", run, 31, seen)
        target.begin()


def run(folder, checks):
    made = folder / "made"
    kept = make(made)
    target = Target(folder / "target")
    with checks.group("every file that demo keeps is tried, and every other kind that the tool makes is there") as group:
        group.same("kept", KEPT, kept)
        group.same("all", set(TOLD) | {"day.rows", "eight.rows"}, set(os.listdir(made)))
    for words, length in COMMANDS:
        with checks.group(f"{' '.join(words)}: {len(TOLD)} files that are no rows are refused by their names, each way") as group:
            each_way(target, group, made, words, length)
            right(target, group, made, words, length)
    with checks.group("with --raw each of them is taken as rows") as group:
        raw(target, group, made)
