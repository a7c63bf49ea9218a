"""reading.py: what tests/docs/named reads: pages, their sections, tables and headings; what a file declares, takes and says."""
import re
from pathlib import Path

ROOT = Path(__file__).resolve().parents[2]
PAGES = [ROOT / "README.md", ROOT / "bench" / "TABLES.md", *sorted((ROOT / "docs").glob("*.md"))]
LINK = re.compile(r"\[`([^`\]]+)`\]\(([^)\s#]+)#L(\d+)\)")


def text(name):
    return (ROOT / name).read_text(encoding="utf-8")


def section(page, title):
    """What stands under a heading, up to the next of its kind or above."""
    found = re.search(rf"^(#+) {re.escape(title)}\n((?:(?!#+ ).*\n?)*)", page, re.M)
    return found.group(2) if found else ""


CRATES = re.findall(r"^(\w+)(?: staticlib)?:", text("crates.txt"), re.M)
SIGNATURE = re.compile(r"^( *)(?:(?:unfoldable|abbrev|pattern|pub) )*(?:(?:record|data) )?([^\s(){}:]+)(?: [({].*)? :(?: |$)")
FUNCTION = re.compile(r'^( *)pub (?:extern "C" )?fn (\w+)[<(]')


def declared(path, name):
    """The line, from 1 on, where the file declares the name: by a signature, a record or a data type, or as a function; else 0."""
    if not path.is_file():
        return 0
    kind = FUNCTION if path.suffix == ".rt" else SIGNATURE
    for number, line in enumerate(path.read_text(encoding="utf-8").splitlines(), 1):
        found = kind.match(line)
        if found and found.group(2) == name:
            return number
    return 0


def indent(line):
    return len(line) - len(line.lstrip())


def lines_of(path, name):
    """The lines of a theorem's type, and before them those of the modules around it."""
    first = declared(path, name) - 1
    if first < 0:
        return [], []
    lines = path.read_text(encoding="utf-8").splitlines()
    end, depth, around = first + 1, indent(lines[first]), []
    while end < len(lines) and lines[end].strip() and indent(lines[end]) > depth:
        end += 1
    for above in reversed(lines[:first]):
        if above.strip() and indent(above) < depth:
            depth = indent(above)
            around += [above] * above.lstrip().startswith("module ")
    return around, lines[first:end]


def words_of(path, name):
    """The words of a theorem's statement that it does not bind itself."""
    around, own = lines_of(path, name)
    said = re.sub(r"--.*", "", "\n".join(around + own))
    bound = {word for group in re.findall(r"[({λ] *((?:[^\s(){}:.]+ )+):", said) for word in group.split()}
    return set(re.findall(r"[^\s(){};,.\[\]]+", said)) - bound - {name}


def is_own(module):
    """Whether a module is one of this repository's crates', and none of the toolchain's library."""
    found = re.match(r"Rattle\.(\w+)\.(?:specs|proofs)\.", module)
    return bool(found) and found.group(1) in CRATES


def taken(path):
    """What a file takes by name: (module, name there, name here) of each."""
    found = re.findall(r"^(?:unfoldable )?(?:pub )?use (\S+)\.\{([^}]*)\}", path.read_text(encoding="utf-8"), re.M)
    names = [(module, word.strip().split(" as ")) for module, words in found for word in words.split(",")]
    return [(module, word[0], word[-1]) for module, word in names]


def proved_names(path):
    """What a file of proofs declares by itself, or takes from another one; a module of proofs by its own name."""
    content = path.read_text(encoding="utf-8")
    names = {found.group(2) for found in map(SIGNATURE.match, content.splitlines()) if found} - {"→", "×", "≡"}
    names |= {word for module, _, word in taken(path) if is_own(module) and ".proofs." in module}
    return names | {module.split(".")[-1] for module in re.findall(r"^use (\S+\w)$", content, re.M) if is_own(module) and ".proofs." in module}


def has_word(words, name):
    """Whether a word of the library is among them: one such as ◌≡◌ by its first sign."""
    return next((part for part in name.split("◌") if part), name) in words


def tables(page):
    """The tables of a page: of each its head, and its rows, each a list of cells."""
    for found in re.finditer(r"(?:^\|.*\n)+", page, re.M):
        head, _, *rows = [[cell.strip() for cell in line.strip().strip("|").split("|")] for line in found[0].splitlines()]
        yield head, rows


def anchors(page):
    """What the headings of a page can be reached by."""
    return {re.sub(r"[^\w\- ]", "", title.lower()).replace(" ", "-") for title in re.findall(r"^#+ (.+)$", page, re.M)}


stored = {}  # {(a row's name, a column's): what stands there}
for head, body in tables(text("bench/TABLES.md")):
    stored |= {(row[0], title): cell for row in body for title, cell in zip(head[1:], row[1:])}
BLOCKS = {"log add": "a used block of a log", "log first, full": "a block that a search passes over", "log first, old": "a block that a search reads"}


def kept(name, title):
    """What bench/TABLES.md has for a cell of PERFORMANCE.md: of a log's call what each block adds, or the call on one block."""
    case, each, _ = name.partition(": each block")
    if title == "at most":
        limits = [what for what, column in stored if column == title and case.startswith(what)]
        limits += [what for start, what in BLOCKS.items() if each and case.startswith(start)]
        return stored[limits[0], title] if limits else ""
    if each or (case, "1") in stored:
        part = "each" if each else "1"
        title = part if title == "library" else f"{title}: {part}"
    return stored.get((case, title), "")
