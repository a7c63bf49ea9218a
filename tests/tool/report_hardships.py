"""report_hardships.py: what befalls the page of a log: damage, a full disk, a place that is none: one line, and a page that was
there is as it was."""
import os
from itertools import product

import logs
from bench import IMAGE
from browser import read
from days import day, row
from disk import another, limited
from outputs import WAYS, complaint, without_output
from station import zikhrodan

UNSOUND = "refused 15, block {} of the {} used is unsound"
OLD = b"<!DOCTYPE html>old"
OWN, NONE = " is what the page is made of, and is not replaced by it", ": No such file or directory"
THERE, REGULAR = " is there already, is no page, and is not replaced", ": a page is a regular file"
NO_HTML = ": the page is HTML, and its file's name ends in .html or .htm"
OTHERS = {"log.html": logs.file_of(1, []), "state.HTM": bytes(688), "rows.html": row() * 3, "one.htm": b"<", "nearly.html": OLD[:14],
          "other.html": b"<!doctype html>", "late.html": b"\n" + OLD}
PLACES = {"link.html": OWN, "./hard.html": OWN, "module.html": OWN, "lost.html": NONE, "no/page.html": NONE, "folder.html": REGULAR,
          "null.html": REGULAR, "page.html/x.html": ": Not a directory", "notes.html": THERE} | dict.fromkeys(OTHERS, THERE) | \
         dict.fromkeys(("", ".", "x.pdf", "html", "x.html.", "x.htmlx", "page.html/x", "day.log", "module.state", "/dev/null"), NO_HTML)


def unsound(at, run):
    """What is said of a log whose byte at a place is changed."""
    return UNSOUND.format((at - logs.HEAD) // logs.BLOCK + 1, len(logs.read(run)))


def made(folder, *words, log="day.log", page="page.html", **how):
    return zikhrodan(folder, "report", log, "-o", page, *words, **how)


def begun(folder):
    """A log, and a page that is there before; the names of the files."""
    day(folder)
    (folder / "page.html").write_bytes(OLD)
    return sorted(os.listdir(folder))


def stays(group, folder, name, files, wanted, seen):
    """It is refused as it should be, and nothing is changed or left."""
    group.same(name, wanted, seen)
    group.same(f"{name}: the old page stays", True, (folder / "page.html").read_bytes() == OLD)
    group.same(f"{name}: the files", files, sorted(os.listdir(folder)))


def damaged(folder, checks):
    with checks.group("a log that is damaged, cut off, no log or not there: one line, no page, and an old one stays") as group:
        files = sorted([*begun(folder), "bad.log"])
        run = (folder / "day.log").read_bytes()
        for place, byte in product((1, 52, 90), (3, 4, 200, 500, 501, 504, 509, 511)):
            at = logs.HEAD + logs.BLOCK * place + byte
            (folder / "bad.log").write_bytes(run[:at] + bytes([run[at] ^ 1]) + run[at + 1:])
            stays(group, folder, f"byte {at}", files, (1, "", f"zikhrodan: bad.log: {unsound(at, run)}\n"), made(folder, log="bad.log"))
        (folder / "bad.log").write_bytes(run[:-1])
        stays(group, folder, "cut off", files, (2, "", "zikhrodan: bad.log: its length is not what its head says\n"),
              made(folder, log="bad.log"))
        stays(group, folder, "missing", files, (2, "", "zikhrodan: no.log: No such file or directory\n"),
              made(folder, log="no.log"))
    with checks.group("where a slot of its head is damaged, the page says so, as every command does") as group:
        (folder / "bad.log").write_bytes(run[:logs.SLOT] + b"zikhrodan log 1\nx" + run[logs.SLOT + 17:])
        status, _, complaint = made(folder, log="bad.log")
        words = "lot of the log's head is damaged: unless a write was cut off, rows of the last commit may be missing"
        group.same("said", (0, f"zikhrodan: bad.log: a s{words}\n".replace("the log's head", "its head")), (status, complaint))
        group.same("on the page", f"A s{words}.", read(folder / "page.html").one("p.note"))


def places(folder, checks):
    with checks.group("the page goes nowhere but to a regular file, and over nothing but a page or an empty file") as group:
        files = begun(folder)
        (folder / "module.state").write_bytes(bytes(688))
        zikhrodan(folder, "reset", "module.state")
        os.symlink("day.log", folder / "link.html")
        os.link(folder / "day.log", folder / "hard.html")
        os.symlink("nowhere", folder / "lost.html")
        os.symlink("rows.html", folder / "notes.html")
        os.symlink("module.state", folder / "module.html")
        os.symlink("/dev/null", folder / "null.html")
        (folder / "folder.html").mkdir()
        for name, run in OTHERS.items():
            (folder / name).write_bytes(run)
        files = sorted([*files, "module.state", "link.html", "hard.html", "lost.html", "notes.html", "module.html", "null.html",
                        "folder.html", *OTHERS])
        held = [(folder / name).read_bytes() for name in ("day.log", "module.state", *OTHERS)]
        for page, wanted in PLACES.items():
            stays(group, folder, page, files, (2, "", f"zikhrodan: {page}{wanted}\n"),
                  made(folder, "--state", "module.state", page=page))
            group.same(f"{page}: what it is made of, and other files", True,
                       held == [(folder / name).read_bytes() for name in ("day.log", "module.state", *OTHERS)])
        stays(group, folder, "-", files,
              (2, "", "zikhrodan: the page goes to a file, not to standard output\n"),
              made(folder, page="-"))
    with checks.group("a page that is there is replaced, also by a link to it, with the rights that it had") as group:
        os.symlink("page.html", folder / "way.html")
        (folder / "page.html").chmod(0o640)
        group.same("made", (0, ""), made(folder, page="way.html")[::2])
        group.same("the link", "page.html", os.readlink(folder / "way.html"))
        group.same("the page", (True, 0o640), ((folder / "page.html").read_bytes().endswith(b"</html>\n"),
                                              (folder / "page.html").stat().st_mode & 0o777))
        (folder / "empty.html").touch()
        group.same("over an empty file", (0, ""), made(folder, page="empty.html")[::2])
        group.same("in another case of letters", (0, ""), made(folder, page="new.HTM")[::2])
        group.same("made anew", 0, made(folder, page="new.html", umask=0o027)[0])
        group.same("its rights", 0o640, (folder / "new.html").stat().st_mode & 0o777)
        group.same("the same", True, (folder / "page.html").read_bytes() == (folder / "new.html").read_bytes())


def disks(folder, checks):
    files = begun(folder)
    with checks.group("a full disk: one line, no page, and an old one stays; a page that just fits is whole") as group:
        made(folder, page="whole.html")
        whole = (folder / "whole.html").read_bytes()
        (folder / "whole.html").unlink()
        for size in (0, 1, 3, 4096, len(whole) - 1):
            stays(group, folder, f"{size} bytes", files, (2, "", "zikhrodan: page.html: File too large\n"),
                  made(folder, **limited(size)))
        group.same("all of it", (0, ""), made(folder, **limited(len(whole)))[::2])
        group.same("the page", True, (folder / "page.html").read_bytes() == whole)
    with checks.group("standard output cannot be written: one line, status 2, and the page is there") as group:
        for what in WAYS:
            (folder / "page.html").write_bytes(OLD)
            seen = without_output(lambda **lost: made(folder, **lost), what)
            group.same(what, (2, "", complaint(what)), seen)
            group.same(f"{what}: the page", True, (folder / "page.html").read_bytes() == whole)
    with checks.group("a log that cannot be read, or a folder that cannot be written: one line, status 2, and no page") as group:
        user = another(folder)
        (folder / "day.log").chmod(0o000)
        group.same("the log", (2, "", "zikhrodan: day.log: Permission denied\n"), made(folder, page="new.html", **user))
        (folder / "day.log").chmod(0o644)
        folder.chmod(0o555)
        group.same("the folder", (2, "", "zikhrodan: new.html: Permission denied\n"), made(folder, page="new.html", **user))
        folder.chmod(0o755)
        group.same("no page", False, (folder / "new.html").exists())


def modules(folder, checks):
    with checks.group("a module that the library refuses, or hours past the year 9999: one line, and no page") as group:
        files = sorted([*begun(folder), "bad.state"])
        for state, refusal, words in ((IMAGE, 1, "the state isn't 688 bytes"), (bytes(689), 1, "the state isn't 688 bytes"),
                                      (bytes(640) + b"\xff" * 48, 3, "the operator's record in the state is unsound")):
            (folder / "bad.state").write_bytes(state)
            stays(group, folder, f"{len(state)} bytes", files, (1, "", f"zikhrodan: bad.state: refused {refusal}, {words}\n"),
                  made(folder, "--state", "bad.state"))
        stays(group, folder, "no module", files, (2, "", "zikhrodan: no.state: No such file or directory\n"),
              made(folder, "--state", "no.state"))
        stays(group, folder, "late", files, (2, "", "zikhrodan: the hour of position 1439 is past the year 9999\n"),
              made(folder, "--period", "60", "--start", "9999-12-31T00:01Z"))


def run(folder, checks):
    for part in (damaged, places, disks, modules):
        place = folder / part.__name__
        place.mkdir()
        part(place, checks)
