"""disk.py: a full disk, a folder that cannot be written, a file that cannot be read: one line, status 2, nothing changed."""
import os
import resource
import shutil

from bench import IMAGE
from station import CHANGES, KINDS, LOOKS, NOBODY, PROGRAM, Kept, zikhrodan

SIZES = (0, 1, 31, 640, 687)


def limited(size):
    return {"preexec_fn": lambda: resource.setrlimit(resource.RLIMIT_FSIZE, (size, size))}


def full(kind, folder, checks):
    whole = len(kind.new_paper().state)
    for words, on_paper in kind.changes.items():
        with checks.group(f"{kind.called}{words[0]}{' --raw' * ('--raw' in words)}: no file can have more than 0 to {whole - 1} "
                          "bytes: one line, status 2, nothing is changed or left or said to be done") as group:
            for size in [size for size in SIZES if size < whole] + [whole - 1]:
                kept = kind(folder)
                status, said, complaint = kept.run(*words, **limited(size))
                group.same(f"{size} bytes", (2, "zikhrodan: module.state: File too large\n"), (status, complaint))
                group.same(f"{size}: what is said", False, any(word in said for word in ("1 row", "2 rows", "is reset")) or
                           (words[0] == "write" and "let through" in said))
                group.same(f"{size}: the state", True, kept.agrees())
                group.same(f"{size}: other files", [], kept.others())
            kept = kind(folder)
            on_paper(kept.paper)
            group.same(f"{whole}", (0, ""), kept.run(*words, **limited(whole))[::2])
            group.same(f"{whole}: the state", True, kept.agrees())
    with checks.group(f"{kind.called}reset of a state that is not there, on a full disk: none is made") as group:
        reset = next(words for words in kind.changes if words[0] == "reset")
        for size in [size for size in SIZES if size < whole]:
            seen = zikhrodan(folder, *reset, "new.state", **limited(size))
            group.same(f"{size} bytes", (2, "", "zikhrodan: new.state: File too large\n"), seen)
            group.same(f"{size}: files", False, any(name.startswith("new") for name in os.listdir(folder)))


def full_for_demo(folder, checks):
    kept = {"factory.image": 640, "day.rows": 44640, "module.state": 688, "day.log": 55296}
    with checks.group("demo --keep on a full disk: one line, status 2; each of the four files is whole, or not there") as group:
        group.same("without a limit", (0, ""), zikhrodan(folder, "demo", "--keep", "whole")[::2])
        for size in SIZES + (688, 44639, 44640, 55295):
            name, blocked = f"new{size}", next(file for file, needs in kept.items() if needs > size)
            status, _, complaint = zikhrodan(folder, "demo", "--keep", name, **limited(size))
            group.same(name, (2, f"zikhrodan: {name}/{blocked}: File too large\n"), (status, complaint))
            left = list(kept)[:list(kept).index(blocked)]
            group.same(f"{size}: files", sorted(left), sorted(os.listdir(folder / name)))
            for file in left:
                group.same(f"{size}: {file}", (folder / "whole" / file).read_bytes(), (folder / name / file).read_bytes())
        group.same("the image", IMAGE, (folder / "whole" / "factory.image").read_bytes())
        group.same("55296 bytes", (0, ""), zikhrodan(folder, "demo", "--keep", "enough", **limited(55296))[::2])


def full_for_eight(folder, checks):
    with checks.group("demo --eight --keep on a full disk: one line, status 2; each file is whole, or not there") as group:
        group.same("without a limit", (0, ""), zikhrodan(folder, "demo", "--eight", "--keep", "eight")[::2])
        for size in (0, 97, 20159):
            status, _, complaint = zikhrodan(folder, "demo", "--eight", "--keep", f"eight{size}", **limited(size))
            group.same(size, (2, f"zikhrodan: eight{size}/eight.rows: File too large\n"), (status, complaint))
            group.same(f"{size}: files", [], os.listdir(folder / f"eight{size}"))
        group.same("20160", (0, ""), zikhrodan(folder, "demo", "--eight", "--keep", "enough8", **limited(20160))[::2])
        for name, size in (("eight.rows", 20160), ("eight.state", 98)):
            group.same(name, size, len((folder / "eight" / name).read_bytes()))
            group.same(f"{name} again", (folder / "eight" / name).read_bytes(), (folder / "enough8" / name).read_bytes())


def copied(folder):
    """The tool where another user can run it, whatever the umask was when it was built."""
    program = folder / "tool"
    shutil.copyfile(PROGRAM, program)
    program.chmod(0o755)
    return program


def another(folder):
    """As nobody where this is root, else as whoever this is; the tool from where that user can read it."""
    program = copied(folder)
    return {"program": program, **({"user": NOBODY, "group": NOBODY, "extra_groups": []} if os.geteuid() == 0 else {})}


def rights(folder, checks):
    user = another(folder)
    place = folder / "closed"
    with checks.group("a folder that cannot be written: one line, status 2, nothing is changed; a look is possible") as group:
        for words in CHANGES:
            kept = Kept(place)
            place.chmod(0o555)
            status, _, complaint = kept.run(*words, **user)
            place.chmod(0o755)
            group.same(words, (2, "zikhrodan: module.state: Permission denied\n"), (status, complaint))
            group.same(f"{words}: the 688 bytes", True, kept.agrees())
            group.same(f"{words}: other files", [], kept.others())
        place.chmod(0o555)
        group.same("no rows", (0, ""), kept.run("sample", "/dev/null", **user)[::2])
        for words in LOOKS:
            group.same(f"show {words}", (0, ""), kept.run("show", *words, **user)[::2])
        seen = zikhrodan(place, "reset", "new.state", **user)
        group.same("reset of a new one", (2, "", "zikhrodan: new.state: Permission denied\n"), seen)
        status, _, complaint = zikhrodan(place, "demo", "--keep", "new", **user)
        group.same("demo --keep", (2, "zikhrodan: new: Permission denied\n"), (status, complaint))
        place.chmod(0o755)
    with checks.group("a state, an image or rows that cannot be read: one line, status 2, nothing is changed") as group:
        unread(group, folder / "open", user)


def unread(group, place, user):
    kept = Kept(place)
    place.chmod(0o777)
    kept.path.chmod(0o000)
    for words in [*CHANGES, ("show",)]:
        group.same(words, (2, "", "zikhrodan: module.state: Permission denied\n"), kept.run(*words, **user))
    kept.path.chmod(0o666)
    (place / "closed.image").write_bytes(IMAGE)
    (place / "closed.image").chmod(0o000)
    (place / "loss.rows").chmod(0o000)
    group.same("image", (2, "", "zikhrodan: closed.image: Permission denied\n"), kept.run("reset", "closed.image", **user))
    group.same("rows", (2, "", "zikhrodan: loss.rows: Permission denied\n"), kept.run("sample", "loss.rows", **user))
    group.same("the 688 bytes", True, kept.agrees())
    group.same("other files", ["closed.image"], kept.others())
    for name in ("closed.image", "loss.rows"):
        (place / name).chmod(0o644)


def run(folder, checks):
    for kind in KINDS:
        full(kind, folder / f"full-{kind.__name__}", checks)
    full_for_demo(folder, checks)
    full_for_eight(folder, checks)
    rights(folder, checks)
