"""report.py: the page of a log says, by a browser's reading of it, what a plain reading of every sample gives: its head, its
tables, and the numbers beside its pictures; whatever the log has, and whatever its name is."""
from datetime import timedelta

from browser import read
from days import day, kept, row, wild
from deaths import LINES
from station import environment, zikhrodan
from told import LISTED, Clock, Told, utc

START, EAST = utc(2026, 11, 14, 18, 30), timedelta(hours=5, minutes=30)
HOURS = ("--start", "2026-11-15T00:00")  # local time: 5:30 ahead of UTC
ELEMENTS = set("html head meta title style body header p h1 b time span dl div dt dd main section h2 h3 ul li svg path desc text "
               "tspan g line table thead tbody tr th td code footer".split())
DARK = [row([at], rx=(0, 1, 65535, 2)) for at in range(LINES)]
FEW = {
    "none": [],
    "empty": [[], [], []],
    "one": [[row([2])]],
    "lit": [[row()]],
    "calm": [[row()] * 40],
    "dark": [[row(range(LINES))] * 17],
    "each": [DARK],
    "back": [DARK[::-1]],
    "ups": [[row()]] * 299 + [[]] * 3 + [[row([4])]],
    "late": [[], [row()] * 16, [row([23])]],
    "borders": [[row([5])] + [row()] * 15 + [row([5])] * 2 + [row()] * 13 + [row([5])], [row([5])] * 2, []],
}
FRONT = "What happened on the lines of "
BAD = "\uFFFD"
NAMES = (
    ("<b>&amp;\"'.log", None),
    ("<\u2215title><script>alert(1)<\u2215script>.log", None),
    ("--x.log", None),
    ("\u00e5\u2265\U0001F6F0.log", None),
    (b"a\xff\xc3(\xe2\x82.log", f"a{BAD * 2}({BAD * 2}.log"),
    (b"\xc0\xbc\xed\xa0\x80\xf4\x90\x80\x80.log", f"{BAD * 9}.log"),
    ("a\x01\x1b[31m\x7f\u0085\u202e.log", f"a{BAD * 2}[31m{BAD * 3}.log"),
)


def made(folder, path, *words, page="page.html", **how):
    """Makes a page: what the tool answers."""
    return zikhrodan(folder, "report", path.name, "-o", page, *words, env=dict(environment(folder), TZ="XST-5:30"), **how)


def facts(told, period):
    """What stands below the answer."""
    room = (told.path.stat().st_size - 4096) // 512
    own = {"samples": str(len(told.samples)), "blocks used": f"{len(told.blocks)} of {room}",
           "power-ups seen": str(len(told.power_ups))}
    if period and told.samples:
        own |= {"first sample": told.when(0), "last sample": told.when(len(told.samples) - 1)}
    return own | ({"from one sample to the next": f"{period} s"} if period else {})


def compare(group, folder, path, period=None):
    """A page, as the browser has read it, beside what it is to say."""
    told, name = Told(path, Clock(START, period, EAST) if period else None), f"{path.name}, {period}"
    words = ("--period", period, *HOURS) if period else ()
    group.same(f"{name}: said", (0, told.said("page.html"), ""), made(folder, path, *words))
    page = read(folder / "page.html")
    group.same(f"{name}: heading", FRONT + path.name, page.one("h1"))
    group.same(f"{name}: answer", told.answer(), page.one("p.answer"))
    group.same(f"{name}: facts", facts(told, period), dict(zip(page.words["dt"], page.words["dd"])))
    group.same(f"{name}: tables", told.tables(), [table[1:] for table in page.tables])
    notes = " ".join(page.words["p"])
    for many, who in ((told.stretches()[1], "log show --csv has every sample"),
                      (len(told.power_ups), "died --json has the positions of all")):
        group.same(f"{name}: how many are not listed, {who}", many > LISTED,
                   f"The first {LISTED} of {many} are listed; the other {many - LISTED} are not: zikhrodan {who}." in notes)
    group.same(f"{name}: power-ups, in words", [told.seen()] if told.samples else [],
               [words[-len(told.seen()):] for words in page.words.get("desc", [])[:1]])
    group.same(f"{name}: whose hours the axes have", bool(period), "on the axes they are local time" in notes)
    group.same(f"{name}: the axes' names", 3 if period and told.samples else 0,
               page.words.get("text.end", []).count("local"))
    group.same(f"{name}: 'or later' is no part of the UTC", [],
               [words for words in page.words.get("span.utc", []) if "later" in words])
    others = (f"The other {LINES - len(told.died)} status bits are 1 in no sample." if told.died else
              f"None of the {LINES} status bits is 1 in any sample.")
    group.same(f"{name}: the other lines", bool(told.samples) and len(told.died) < LINES,
               others in notes)
    group.same(f"{name}: levels", told.ranges() if told.samples else [],
               [words for words in page.words.get("text.kind", []) if "power" in words])


def says(folder, checks):
    with checks.group("the page says what a plain reading of every sample gives: positions, blocks, hours, stretches") as group:
        paths = [wild(folder / f"wild{seed}.log", seed, 40 * 5 ** seed) for seed in range(4)]
        for path in (day(folder), day(folder, "calm.log", 0), *paths):
            compare(group, folder, path)
            compare(group, folder, path, 60)
    with checks.group("so it does of few samples, or none: one, empty blocks alone, all dark, all lit, dark at borders") as group:
        for name, parts in FEW.items():
            path = kept(folder / f"{name}.log", parts)
            compare(group, folder, path)
            compare(group, folder, path, 0.5)


def names(folder, checks):
    with checks.group("a log's name is text, whatever is in it, and what cannot be shown stands as U+FFFD") as group:
        for name, shown in NAMES:
            path = folder / (name if isinstance(name, str) else name.decode("utf-8", "surrogateescape"))
            kept(path, [[row([2])]])
            status, _, complaint = zikhrodan(folder, "report", "-o", "page.html", "--", path.name)
            page, shown = read(folder / "page.html"), shown or name
            group.same(repr(name), (0, "", FRONT + shown, f"The lines of {shown}"),
                       (status, complaint, page.one("h1"), page.words["title"][0]))
            group.same(f"{name!r}: elements", set(), {tag for tag, _ in page.elements} - ELEMENTS)


def run(folder, checks):
    for part in (says, names):
        place = folder / part.__name__
        place.mkdir()
        part(place, checks)
