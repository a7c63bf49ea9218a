"""report_drawn.py: what the pictures of the page of a log draw, by the paths in it: each dark stretch, each light level, and the
axis below them."""
import re
from math import ceil, floor, log10

from browser import read
from days import day, kept, row, wild
from deaths import LINES
from report import HOURS, made
from told import FACTORY, LEVELS, Told

BAND, LOW = 12, 7
TOP, FOOT, ZERO = 60, 780, 930  # of a light level's scale, and the strip for 0, in tenths of a point


def rectangles(path):
    """Those of a path of the bands: where each starts and ends, its top and its height."""
    found, x = [], 0
    first = re.match(r"M(\d+) (\d+)", path)
    top = int(first.group(2))
    for move, at, length, height in re.findall(r"([Mm])(\d+) \d+h(\d+)v(\d+)h-\d+z", path):
        x = int(at) if move == "M" else x + int(at)
        found.append((x, x + int(length), top, int(height)))
    return found


def drawn(page):
    """The rectangles of each line's band."""
    lanes = next(attrs["d"] for attrs in page.with_class("lane") if attrs["d"].count("M") == LINES)
    tops = [int(top) for top in re.findall(r"M0 (\d+)h", lanes)]
    bands = [[] for _ in tops]
    for attrs in page.with_class("dark"):
        if "transform" not in attrs and attrs["d"].endswith("z") and re.search("h-", attrs["d"]):
            for one in rectangles(attrs["d"]):
                bands[next(bit for bit, top in enumerate(tops) if top <= one[2] < top + BAND)].append(one)
    return bands


def held(group, name, told, bands):
    """Each whole rectangle is one stretch, each low one some of them, and no stretch is missing."""
    for bit, marks in enumerate(bands):
        left = [(first, last + 1) for first, last in told.runs[bit]]
        for start, end, _, height in sorted(marks):
            own = [run for run in left if start <= run[0] and run[1] <= end]
            group.same(f"{name}, line {bit}: from {start}", (start, end, height),
                       (own[0][0], own[-1][1], BAND if len(own) == 1 else LOW) if own else None)
            left = [run for run in left if run not in own]
        group.same(f"{name}, line {bit}: stretches that are not drawn", [], left)


def drawing(folder, checks):
    with checks.group("each dark stretch is drawn from its first sample to its last, alone or with those too close") as group:
        paths = [day(folder), kept(folder / "dark.log", [[row(range(LINES))] * 3])]
        for path in paths + [wild(folder / f"wild{seed}.log", seed, 40 * 7 ** seed) for seed in range(4)]:
            made(folder, path)
            held(group, path.name, Told(path), drawn(read(folder / "page.html")))


def height(scale, value):
    """Where a number lies on a scale of decades, in tenths of a point; 0 has a place of its own below it."""
    foot, top = scale
    return FOOT - round((log10(value) - foot) / (top - foot) * (FOOT - TOP)) if value else ZERO


def steps(path):
    """The heights at which a path of a light level goes along its columns, forth and back; it begins at column 0."""
    at, forth, back = int(re.match(r"M0 (\d+)h1", path).group(1)), [], []
    for move, number in re.findall(r"([hvV])(-?\d+)", path):
        at = int(number) if move == "V" else at + int(number) if move == "v" else at
        if move == "h":
            (forth if number == "1" else back).append(at)
    return forth, back[::-1]


def near(one, other):
    return len(one) == len(other) and all(abs(first - second) <= 2 for first, second in zip(one, other))


def curves(folder, checks):
    with checks.group("the light is drawn on its scale, sample by sample, or from the least to the most of each column") as group:
        for path, width in ((day(folder), 1), (wild(folder / "wild.log", 5, 13720), 7)):
            told = Told(path)
            made(folder, path)
            page = read(folder / "page.html")
            drawings = [attrs["d"] for attrs in page.with_class("curve" if width == 1 else "area") if "transform" in attrs]
            zeros = [attrs["d"] for attrs in page.with_class("dark") if "transform" in attrs]
            group.same(f"{path.name}: how many", (len(LEVELS), len(LEVELS)), (len(drawings), len(zeros)))
            numbers = [[int.from_bytes(one[at:at + 2], "big") / 10000 for one in told.samples] for _, at in LEVELS]
            for level, (name, _) in enumerate(LEVELS):
                kind, own = level // 4 * 4, numbers[level]
                seen = [value for values in numbers[kind:kind + 4] for value in values if value] + \
                    [float(limit) for limit in FACTORY[kind:kind + 4]]
                scale = min(floor(log10(min(seen))), 0), max(ceil(log10(max(seen))), 0)
                columns = [own[at:at + width] for at in range(0, len(own), width)]
                forth, back = steps(drawings[level])
                group.same(f"{path.name}, {name}: the most", True, near([height(scale, max(one)) for one in columns], forth))
                group.same(f"{path.name}, {name}: the least", True,
                           near([height(scale, min(one)) for one in columns] if width > 1 else [], back))
                marks = {at for one, other in re.findall(r"M(\d+) \d+H(\d+)", zeros[level]) for at in range(int(one), int(other))}
                group.same(f"{path.name}, {name}: no light", {at for at, one in enumerate(columns) if 0 in one}, marks)


def axes(folder, checks):
    with checks.group("the axis has positions, and hours at their places in local time, also after a power-up") as group:
        path = day(folder)
        made(folder, path, "--period", 60, *HOURS)
        page = read(folder / "page.html")
        at = [attrs["x"] for tag, attrs in page.elements if tag == "text"]
        texts = list(zip(at, page.words["text"]))
        for position in range(0, 1440, 200):
            group.same(position, 3, texts.count((f"{100 * position / 1440:.3f}%", str(position))))
        for hour in range(0, 24, 3):
            words = ("\u2265 " if hour * 60 >= 830 else "") + f"{hour:02d}:00"
            group.same(words, 3, texts.count((f"{100 * hour * 60 / 1440:.3f}%", words)))
        group.same("the day", 3, texts.count(("0.000%", "15 Nov 2026")))


def run(folder, checks):
    for part in (drawing, curves, axes):
        place = folder / part.__name__
        place.mkdir()
        part(place, checks)
