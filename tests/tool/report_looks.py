"""report_looks.py: the page of a log, looked at: the points of a browser's picture of it on a wide and on a narrow screen, and
its printed pages."""
from itertools import groupby

from browser import picture, printed
from days import day, kept, row
from deaths import LINES
from report import HOURS, made
from told import Told

LANE, BAND = (232, 236, 239), 12
# The screen's width, and the room beside the pictures, on their left and on their right.
SCREENS = {1200: (92.8, 140.8), 400: (65.6, 25.6)}
A4 = {(0, 0, 595, 842)}  # in points


def is_dark(red, green, blue):
    return max(red, green, blue) < 90


def is_power(red, green, blue):
    return green - red > 30 and blue - red > 20 and red < 170


def is_moment(red, green, blue):
    return red > 130 and green < 90 and blue < 90


def bands_of(image, left):
    """The heights at which the bands' middles are: the first 24 runs of their colour, down a line on which no sample is dark."""
    found, y = [], 0
    for lane, points in groupby(range(image.height), lambda y: image.at(int(left) + 4, y) == LANE):
        length = len(list(points))
        if lane and length in (BAND - 1, BAND):
            found.append(y + length // 2)
        y += length
    return found[:LINES]


def looked(group, folder, path, width):
    """A picture's points beside what they are to be."""
    told, name = Told(path), f"{path.name}, {width} wide"
    made(folder, path)
    image, (left, right) = picture(folder / "page.html", width, 1300), SCREENS[width]
    middles, scale = bands_of(image, left), (width - left - right) / len(told.samples)
    group.same(f"{name}: bands", LINES, len(middles))

    def places(y, colour):
        return [x for x in image.across(y, colour) if left - 6 <= x <= width - right + 6]

    for bit, y in enumerate(middles):
        ends = [(left + first * scale, left + (last + 1) * scale) for first, last in told.runs[bit]]
        dark = places(y + 2, is_dark)
        group.same(f"{name}, line {bit}: what is dark lies in a stretch", [],
                   [x for x in dark if not any(one - 2 <= x <= other + 1 for one, other in ends)])
        group.same(f"{name}, line {bit}: stretches that are not seen", [],
                   [one for one, other in ends if not any(one - 2 <= x <= other + 1 for x in dark)])
        inside = [x for one, other in ends for x in range(int(one) + 1, int(other))]
        group.same(f"{name}, line {bit}: points of a stretch that are not dark", [],
                   [x for x in inside if x not in dark and not is_power(*image.at(x, y + 2))])
        marks = [x for above in range(BAND // 2 + 1, BAND + 1) for x in places(y - above, is_moment)]
        group.same(f"{name}, line {bit}: the moment it died", bool(ends),
                   bool(marks) and abs(sum(marks) / len(marks) - (ends[0][0] if ends else 0)) < 3)
    between = {x for y in middles for above in (BAND // 2 + 2, BAND // 2 + 3) for x in places(y - above, is_power)}
    expected = [left + at * scale for at in told.power_ups]
    group.same(f"{name}: lines that are no power-up's", [],
               [x for x in between if not any(abs(x + 0.5 - at) < 2 for at in expected)])
    group.same(f"{name}: power-ups not seen", [], [at for at in expected if not any(abs(x + 0.5 - at) < 2 for x in between)])


def pictures(folder, checks):
    with checks.group("a browser draws the stretches where they are, and nothing else; also one sample of 100000") as group:
        lit = [row()] * 30
        many = [row([bit for bit in range(LINES) if at >> bit % 6 & 1]) for at in range(64)]
        for path in (day(folder), kept(folder / "single.log", [lit + [row([7])] + [row()] * 59970, [row()] * 39999]),
                     kept(folder / "many.log", [lit + many, lit])):
            for width in SCREENS:
                looked(group, folder, path, width)


def paper(folder, checks):
    with checks.group("it is printed on A4: the lines, light received, light sent, and the tables begin a page each") as group:
        path = day(folder)
        for words in ((), ("--period", 60, *HOURS)):
            made(folder, path, *words)
            group.same(f"{words}", (True, 4, A4), printed(folder / "page.html"))
        made(folder, kept(folder / "none.log", []))
        group.same("no samples", (True, 1, A4), printed(folder / "page.html"))


def run(folder, checks):
    for part in (pictures, paper):
        place = folder / part.__name__
        place.mkdir()
        part(place, checks)
