"""report_whole.py: the page of a log has no parts outside it, is never too large, and has a named module's limits."""
import re

from bench import IMAGE
from browser import asked, read
from counted import growths, instructions, is_even
from days import day, kept, row, worst
from paper import with_codes
from report import ELEMENTS, HOURS, compare, made
from station import zikhrodan
from told import FACTORY, Told

MOST, MANY = 2 * 1000 * 1000, 100000
SIZES, EACH = (2400, 3200, 4000), 25000  # samples, more than a page has columns; and the most instructions for each
OUTSIDE = re.compile(r"https?:|//|url\(|@import|\s(?:src|href|srcset|data|poster|action|on\w+)\s*=|javascript:", re.I)
POLICY = "default-src 'none'; style-src 'unsafe-inline'; base-uri 'none'; form-action 'none'"
WORST = {
    "alternating": lambda at: at % 2,
    "long and short": lambda at: at % 402 < 200 or at % 402 in (201, 301),
    "long": lambda at: at % 201 < 200,
    "all": lambda at: True,
}
LIMITS = ("high alarm", "high warning", "low warning", "low alarm")
OTHER, OTHER_BYTES = ("0.0100", "0.0000", "6.5535", "0.0001"), bytes.fromhex("0064 0001 0000 FFFF")
NOTHING = [f"Tx power {channel} nothing is measured" for channel in range(1, 5)]


def alone(folder, checks):
    made(folder, day(folder), "--period", 60, *HOURS)
    text = (folder / "page.html").read_text(encoding="utf-8")
    with checks.group("the page names nothing outside it, has no script, and forbids both; it has what readers need") as group:
        page = read(folder / "page.html")
        group.same("what names something outside", [], OUTSIDE.findall(text))
        group.same("elements", set(), {tag for tag, _ in page.elements} - ELEMENTS)
        meta = [attrs for tag, attrs in page.elements if tag == "meta"]
        group.same("its policy", [POLICY], [attrs["content"] for attrs in meta if attrs.get("http-equiv")])
        group.same("for narrow screens", ["width=device-width, initial-scale=1"],
                   [attrs["content"] for attrs in meta if attrs.get("name") == "viewport"])
        group.same("its language", "en-GB", dict(page.elements)["html"]["lang"])
        ids = {attrs["id"]: tag for tag, attrs in page.elements if "id" in attrs}
        charts = [attrs["aria-labelledby"].split() for attrs in page.with_class("chart") if attrs.get("role") == "img"]
        group.same("each picture has a title and words for who cannot see it", [["title", "desc"]] * 3,
                   [[ids.get(name) for name in names] for names in charts])
    with checks.group("a part outside that is put into the page is not asked for; without its policy it would be") as group:
        more = text.replace("<main>", '<main><img src="http://zikhrodan.invalid/part.png">')
        (folder / "more.html").write_text(more, encoding="utf-8")
        (folder / "free.html").write_text(more.replace(f'content="{POLICY}"', ""), encoding="utf-8")
        for name, asks in (("page.html", False), ("more.html", False), ("free.html", True)):
            group.same(name, asks, any("zikhrodan.invalid" in line for line in asked(folder / name)))


def large(folder, checks):
    with checks.group(f"a page of {MANY} samples is below {MOST} bytes, whatever they have") as group:
        for name, dark in WORST.items():
            path = worst(folder / "worst.log", MANY, dark)
            group.same(name, 0, made(folder, path, "--period", "0.000000001", *HOURS)[0])
            group.same(f"{name}: its size", True, (folder / "page.html").stat().st_size < MOST)
    with checks.group(f"a page of more samples takes at most {EACH} instructions for each, and as many of a longer log") as group:
        for name, dark in WORST.items():
            growth = growths(lambda size, dark=dark: instructions(
                folder, "report", worst(folder / "worst.log", size, dark).name, "-o", "page.html"), SIZES)
            group.same(f"{name}: {growth}", (True, True), (max(growth) <= EACH, is_even(growth)))
    with checks.group("of more samples there is a page too") as group:
        compare(group, folder, kept(folder / "more.log", [[row()] * 150000 + [row([7])] + [row()] * 150000]))


def measuring(folder, checks):
    with checks.group("limits are the built-in ones, or a module's, which then measures: nothing, where it offers none") as group:
        path, image = day(folder), bytearray(IMAGE)
        image[560:568] = OTHER_BYTES
        image[220] &= 0xFB
        (folder / "other.image").write_bytes(with_codes(image))
        group.same("reset", 0, zikhrodan(folder, "reset", "a&b.state", "other.image")[0])
        for words, of, limits, nothing in (((), "the built-in factory image", FACTORY, []),
                                           (("--state", "a&b.state"), "the module in a&b.state", OTHER, NOTHING)):
            group.same(f"{of}: made", (0, ""), made(folder, path, *words)[::2])
            page = read(folder / "page.html")
            group.same(f"{of}: whose", True, f"The limits are those of {of}." in " ".join(page.words["p"]))
            wanted = sorted(4 * [f"{name} {limit}" for name, limit in zip(LIMITS * 2, limits)])
            group.same(f"{of}: the limits", wanted, sorted(page.words["text.limit"]))
            group.same(f"{of}: the table", Told(path).light((limits + FACTORY[4:])[:8], 4 if nothing else 8), page.tables[0][1:])
            group.same(f"{of}: what is measured", nothing, [one for one in page.words["text.kind"] if "nothing" in one])


def run(folder, checks):
    for part in (alone, measuring, large):
        place = folder / part.__name__
        place.mkdir()
        part(place, checks)
