"""store.py: keeps what was counted in bench/TABLES.md, and finds there what it was counted by. Two of its sections say so, each
for its own tables. Imported by measure.py and eight.py."""
import datetime
import re

from counting import stop

STORED = "bench/TABLES.md"


def text():
    with open(STORED, encoding="utf-8") as file:
        return file.read()


def part(section, text):
    """Where a section of the text is, from its heading to the next."""
    found = re.search(rf"^## {re.escape(section)}\n(?:(?!## ).*\n?)*", text, re.M)
    if not found:
        stop(2, f"{STORED} has no section {section}")
    return found.span()


def by(toolchain):
    """How the stored text names the toolchain that the library is by."""
    return f"The library by {toolchain},"


def of(section, toolchain):
    """The text, if that section's tables are of this toolchain; else nothing."""
    kept = text()
    start, end = part(section, kept)
    if by(toolchain) in kept[start:end]:
        return kept
    print(f"-- the tables of {STORED}, {section}, are of another toolchain, and are not compared")
    return ""


def cells(line):
    return [cell.strip() for cell in line.strip().strip("|").split("|")]


def processor():
    with open("/proc/cpuinfo", encoding="utf-8") as file:
        found = re.search(r"^model name\s*: *([^;\n]+)", file.read(), re.M)
    return found.group(1).strip() if found else "an unknown processor"


def put(tables, toolchain, compiler, counter):
    """{section: its tables}. Each table in place of the stored one that has the same head, and in each section the day, and what they
    were counted by and timed on. All or nothing."""
    today = f"{datetime.date.today()}. {by(toolchain)} plain C by {compiler}, counted by {counter}, timed on {processor()};"
    kept = text()
    for section in tables:
        start, end = part(section, kept)
        said, times = re.subn(r"^[-0-9]{10}\. The library by [^;]*;", lambda _: today, kept[start:end], flags=re.M)
        if times != 1:
            stop(2, f"{STORED}, {section}, says {times} times what it was counted by")
        kept = kept[:start] + said + kept[end:]
    every = [lines for of_section in tables.values() for lines in of_section]
    for lines in every:
        same = [found for found in re.finditer(r"(?:^\|.*\n)+", kept, re.M) if cells(found[0].split("\n")[0]) == cells(lines[0])]
        if len(same) != 1:
            stop(2, f"{STORED} has {len(same)} tables with the head {lines[0]}")
        kept = kept[:same[0].start()] + "\n".join(lines) + "\n" + kept[same[0].end():]
    with open(STORED, "w", encoding="utf-8") as file:
        file.write(kept)
    print(f"-- {len(every)} tables are in {STORED}")
