"""page.py: the tables of a page of Markdown, what their cells say, and what a doubt makes of a row."""
import re

from library import NAMES, same


class Table:
    """A table: the heading above it, its columns, and for each line a row, its cells by their columns."""

    def __init__(self, heading, columns, rows):
        self.heading, self.columns, self.rows = heading, columns, rows

    def with_row(self, number, row):
        return Table(self.heading, self.columns, self.rows[:number] + [row] + self.rows[number + 1:])


def cells(line):
    """Those of a line, a link as its words."""
    return [re.sub(r"\[([^]]*)\]\([^)]*\)", r"\1", one.strip()) for one in line.strip().strip("|").split("|")]


def row_of(columns, line):
    """A line of too few cells, or too many, has none of its columns."""
    return dict(zip(columns, cells(line))) if len(cells(line)) == len(columns) else {"": line}


def tables(text):
    """The tables of a page, in order."""
    found, heading, lines = [], "", text.splitlines()
    for number, line in enumerate(lines):
        heading = line.lstrip("# ") if line.startswith("#") else heading
        if line.startswith("|") and not lines[number - 1].startswith("|"):
            columns, end = tuple(cells(line)), number + 2
            while end < len(lines) and lines[end].startswith("|"):
                end += 1
            found.append(Table(heading, columns, [row_of(columns, one) for one in lines[number + 2:end]]))
    return found


# ---- what cells say

def run(cell):
    """'3 to 14' is 3 and 14, '5' is 5 and 5; words may follow."""
    first, last = re.match(r"(\d+)(?: to (\d+))?", cell).groups()
    return int(first), int(last or first)


def covered(table, column):
    """All numbers of the runs in a column, in order."""
    return [n for row in table.rows for n in range(run(row[column])[0], run(row[column])[1] + 1)]


def page_of(cell):
    """'242 to 247 of page 03h' is page 3; lower memory and page 00h are 0."""
    found = re.search(r"page 0(\d)h", cell)
    return int(found.group(1)) if found else 0


def bit(cell):
    """'9.7' is byte 9 and bit 7."""
    at, number = map(int, re.fullmatch(r"(\d+)\.([0-7])", cell).groups())
    return at, number


def place(address, page):
    """The place in the state of an address while this page is selected."""
    return address if address < 128 else address + 128 * page


def named(row, number):
    """The row's name, where it has one, is this number in the header."""
    if name := row["Name"].strip("`"):
        same(number, NAMES.get(name), name)


# ---- doubts

# for what a cell says in words, something else
OTHER = {
    "stored": "own", "own": "stored", "image": "0", "kept": "image", "refused": "FFh", "a page": "FFh", "by bit": "stored",
    "anything": "bits 7 to 0 are 0", "it can be selected": "anything", "as stored": "0", "the image's": "1", "always": "2.2 is 0",
    "above it": "below it", "below it": "above it", "left out": "kept", "flags": "masks", "masks": "flags",
    "operator's": "recorder's", "recorder's": "operator's", "operator's record": "recorder's record",
    "recorder's record": "operator's record", "the live one": "the factory's", "the factory's": "the live one",
    "operator's count": "recorder's count", "recorder's count": "operator's count", "the port's count": "0", "the page": "0",
    "where the field starts": "0", "its length": "0", "the kind": "0", "blocks used after it": "where the sample starts",
    "where the sample starts": "blocks used after it", "its position + 1, 0 for none": "blocks used after it",
    "1 while no interrupt stands": "as stored", "exact if byte 504 is 1, else 0": "0", "exact": "0",
    "what the count leaves unused is 0": "anything",
}
ZERO = {
    "Reads": "stored", "After a reset": "image", "A reset leaves": "the image's", "A sample leaves": "as stored",
    "Sound if": "anything",
}


def other_words(column, cell):
    """The cell with another word in it."""
    if column == "Name" and cell:
        yield next(f"`{name}`" for name, value in NAMES.items() if value != NAMES.get(cell.strip("`")))
    elif cell in OTHER:
        yield OTHER[cell]
    elif cell == "0" and column in ZERO:
        yield ZERO[column]
    elif found := re.search(" [<>] ", cell):
        yield cell.replace(found.group(), {" < ": " > ", " > ": " < "}[found.group()])


def other_numbers(cell):
    """The cell with one of its numbers made one more."""
    for found in re.finditer(r"[0-9A-F]{2}h|\d+", cell):
        word = found.group()
        more = f"{(int(word[:2], 16) + 1) % 256:02X}h" if word.endswith("h") else str(int(word) + 1)
        yield cell[:found.start()] + more + cell[found.end():]


def doubts(row, prose):
    """The row with one thing changed: a number, or what stands for one. Columns of prose stay."""
    for column, cell in row.items():
        if column not in prose:
            numbers = other_numbers(cell) if column != "Name" else ()
            yield from (dict(row, **{column: changed}) for changed in (*other_words(column, cell), *numbers))
