"""fed.py: modules and a log that are to be fed, for the tests of what is no rows; what is said of such files."""
import re
import subprocess

import logs
from bench import IMAGE
from log_kills import ROOM, rows_from
from paper import Paper
from paper_eight import Eight
from station import EIGHT_LOSS, LOSS, PATIENCE, start, zikhrodan

LOG, PAGE, TEXT = "it is a log, no rows", "it is a page in HTML, no rows", "it is text, no rows"
DIGITS = "it is hex digits, no rows: a file of these is named .hex"
STATE, EIGHT_STATE = "it is a module's state, no rows", "it is an eight-channel module's state, no rows"
FACTORY, MEMORY = "it is a factory image, no rows", "it begins as a module's state or a factory image does, no rows"
OVERRIDE = "; --raw takes it as rows all the same"
FOUR = (("sample", "module.state"), ("sample", "--log", "kept.log", "module.state"), ("watch", "module.state"),
        ("log", "add", "kept.log"))
EIGHT = (("sample", "eight.state"), ("watch", "eight.state"))
COMMANDS = [(words, 31) for words in FOUR] + [(words, 14) for words in EIGHT]


class Target:
    """Modules and a log to feed, beside the files that are made."""

    def __init__(self, folder):
        self.folder, self.paper, self.eight = folder, Paper(), Eight()
        folder.mkdir(exist_ok=True)
        self.paper.reset(IMAGE)
        self.paper.sample(LOSS)
        self.eight.sample(EIGHT_LOSS)
        self.had = rows_from(0, 20)
        self.begin()

    def begin(self):
        (self.folder / "module.state").write_bytes(self.paper.state)
        (self.folder / "eight.state").write_bytes(self.eight.state)
        (self.folder / "kept.log").write_bytes(logs.file_of(ROOM, logs.blocks_of(self.had)))
        self.before = self.now()

    def now(self):
        """What the files are, and when they were written."""
        paths = [self.folder / name for name in ("module.state", "eight.state", "kept.log")]
        return [(path.read_bytes(), path.stat().st_mtime_ns, path.stat().st_ino) for path in paths]

    def run(self, *words, **how):
        return zikhrodan(self.folder, *words, **how)

    def redirected(self, *words, path, at=0):
        with path.open("rb", buffering=0) as file:
            file.seek(at)
            return self.run(*words, stdin=file)

    def piped(self, *words, run):
        process = start(self.folder, *words, stdin=subprocess.PIPE)
        out, complaint = process.communicate(run, timeout=PATIENCE)
        return process.returncode, out.decode("latin-1"), complaint.decode("latin-1")

    def refused(self, group, what, name, words, seen):
        """It is refused in these words, and nothing is changed."""
        group.same(what, (2, "", f"zikhrodan: {name}: {words}\n"), seen)
        group.same(f"{what}: nothing is changed", True, self.now() == self.before)

    def taken(self, group, what, run, length, seen):
        """Its rows are taken, and what is left over is refused."""
        rows, over = divmod(len(run), length)
        count = re.search(r"^(\d+) rows? taken$", seen[1], re.M)
        group.same(what, (1 if over else 0, str(rows), over > 0),
                   (seen[0], count.group(1) if count else "0", f": row {rows + 1}: refused 8, " in seen[2]))


def contents(now):
    """What the files have: the states, and of the log its blocks. How often a pipe pauses, which its head tells, is the machine's
    matter."""
    *states, log = [run for run, _, _ in now]
    return states, logs.read(log)
