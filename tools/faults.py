"""faults.py: the faults that the prover must refuse, as crates/CRATE/must-fail/*.edit has them, and the rules for them.

A file is a run: what the prover is given at once. It has one fault or, with blank lines between, several. A fault:
  # NAME                 in a run of one fault it may be left out: the file's name is then the fault's
  # accepted: what it would mean if the prover took it
  # differs: CALL: an input on which the call's answer, or what it leaves, differs; a fault of code has this line, one of a
    definition does not. CALL is a C function of the header without its first word, or a function of the crate
  # false: the declaration that no longer holds with it; of a function's proof FUNCTION/GOAL, or MODULE/FUNCTION/GOAL
  file: the crate's file       old: one line of it       new: that line edited
Callers see contracts alone, so faults in different functions of a crate cannot touch each other: a run has at most one fault
for each function. A fault of a definition is alone in its run.
"""
import re
from collections import Counter, namedtuple
from pathlib import Path

MOST_OF_FUNCTION = 3  # faults of one function
LEAST_OF_CALL = 2     # wrong answers of each public call
NOT_IN_C = ("identity_refusal", "identity_view", "sample_view")  # public calls of Rattle alone
MOST_RUNS = 150       # of all crates: with them ./test takes under 30 minutes on two idle cores (docs/DECISIONS.md)
# Document 01's six faults (the last is two: when its condition ends, or when it is masked) and its four idle programs (the third
# is two: samples, and writes).
ALWAYS = {
    "ports": ("fault_clears_both", "fault_zeros_out", "idle_refuses_everything", "idle_writes_unused"),
    "model": (
        "fault_temperature_unsigned", "fault_pin_upside_down", "fault_status_clears", "fault_dropped_when_over",
        "fault_dropped_when_masked", "idle_reads_the_same", "idle_samples_unused", "idle_first_sample_only")}

Fault = namedtuple("Fault", "name accepted differs false file old new")
Run = namedtuple("Run", "crate name faults wrong")  # wrong: what is wrong with it as it is written, or None

LINES = re.compile(
    r"(?:# (?P<name>\w+)\n)?# accepted: (?P<accepted>.+)\n(?:# differs: (?P<differs>\w+: .+)\n)?# false: (?P<false>\S+)\n"
    r"file: (?P<file>(?:src|specs)/\S+)\nold: (?P<old>.+)\nnew:(?: (?P<new>.*))?")


def function_of(fault):
    """The function that a fault of code is in, as the proof's folder is called; None of a definition's fault."""
    return fault.false.rpartition("/")[0] if fault.file.startswith("src/") else None


def clause_of(text, old):
    """The line at which the clause that has the old text begins."""
    lines = text[:text.index(old) + len(old) - len(old.lstrip())].split("\n")
    at = len(lines) - 1
    whole = text.split("\n")
    while at and whole[at][:1] in (" ", ""):
        at -= 1
    return at + 1


def misfit(crate, fault):
    """What is wrong with one fault, or None."""
    code = fault.file.startswith("src/")
    path = crate / fault.file
    if not path.is_file():
        return f"the crate has no file {fault.file}"
    times = path.read_text(encoding="utf-8").count(fault.old)
    if times != 1:
        return f"its old: text stands {times} times in {fault.file}"
    if fault.old == (fault.new or ""):
        return "its old: and new: are the same"
    if code and not fault.differs:
        return "it names no input on which its answer differs"
    if fault.differs and not code:
        return "of a definition's fault the statement says what differs"
    return None if not code or "/" in fault.false else "a fault of code is false at FUNCTION/GOAL"


def read(path):
    """One file as a run."""
    faults, wrong = [], None
    text = path.read_text(encoding="utf-8").strip("\n")
    for part in re.split(r"\n\n+", text):
        lines = LINES.fullmatch(part)
        if not lines:
            wrong = f"{part.splitlines()[0] if part else 'it'}: not the lines of a fault"
            break
        faults.append(Fault(**lines.groupdict()))
    if not wrong and len(faults) == 1 and not faults[0].name:
        faults = [faults[0]._replace(name=path.stem)]
    if not wrong:
        functions = Counter(function_of(fault) for fault in faults)
        if len(faults) > 1 and None in functions:
            wrong = "a definition's fault is not alone in its run"
        elif max(functions.values()) > 1:
            wrong = f"two faults of {functions.most_common(1)[0][0]} in one run"
        elif not all(fault.name for fault in faults):
            wrong = "a fault has no name"
    for fault in faults if not wrong else ():
        said = misfit(path.parents[1], fault)
        wrong = f"{fault.name}: {said}" if said and not wrong else wrong
    return Run(path.parts[-3], path.stem, faults, wrong)


def runs(root):
    """The runs of all crates."""
    return [read(path) for path in sorted(Path(root).glob("crates/*/must-fail/*.edit"))]


def calls(root):
    """The C functions of the header, without the library's name."""
    header = (Path(root) / "include" / "zikhrodan.h").read_text(encoding="utf-8")
    return re.findall(r"^(?:ZIKHRODAN_ANSWER )?\w+ zikhrodan_(\w+)\(", header, re.M)


def broken_rules(root, some):
    """What the faults of these runs break of the rules, a line each."""
    said = []
    for crate in sorted({run.crate for run in some}):
        faults = [fault for run in some if run.crate == crate for fault in run.faults]
        for name, times in Counter(fault.name for fault in faults).items():
            said += [f"{crate}: {times} faults are called {name}"] * (times > 1)
        for function, times in Counter(map(function_of, faults)).items():
            said += [f"{crate}: {times} faults of {function}, at most {MOST_OF_FUNCTION}"] * bool(function and times > MOST_OF_FUNCTION)
        pairs = Counter()
        for fault in faults:
            path = Path(root) / "crates" / crate / fault.file
            if not function_of(fault) and path.is_file() and fault.old in path.read_text(encoding="utf-8"):
                pairs[fault.file, clause_of(path.read_text(encoding="utf-8"), fault.old), fault.false] += 1
        said += [f"{crate}: {times} faults of the clause at {file}:{line} for {name}" for (file, line, name), times in pairs.items()
                 if times > 1]
    return said


def missing(root, some):
    """What all runs together lack: wrong answers of a call, document 01's own faults; and whether they are too many."""
    wrong = Counter(fault.differs.split(":")[0] for run in some for fault in run.faults if fault.differs)
    said = [f"{call}: {wrong[call]} wrong answers, at least {LEAST_OF_CALL}" for call in (*calls(root), *NOT_IN_C)
            if wrong[call] < LEAST_OF_CALL]
    there = {(run.crate, fault.name) for run in some for fault in run.faults}
    said += [f"{crate}: the fault {name} is not there" for crate, names in ALWAYS.items() for name in names
             if (crate, name) not in there]
    return said + [f"{len(some)} runs, at most {MOST_RUNS}"] * (len(some) > MOST_RUNS)
