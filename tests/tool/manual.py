"""manual.py: the manual page is laid out without a warning, and has the commands and options that --help has, and no others."""
import re
import subprocess

from examples import all_commands, helped
from transcript import ROOT, Step, scratch, seen

PAGE = ROOT / "station" / "zikhrodan.1"
OPTION = re.compile(r"(?<![\w-])-(?:-[a-z]+|[a-z](?![\w-]))")
LISTED = re.compile(r"(?<![\w-])--[a-z]+|(?<=\n  )-[a-z](?![\w-])")  # in a help, where ethtool's own options stand in the text
NAME = r"[a-z]+(?: [a-z][a-z-]*)?"


def run(folder, checks):
    done = subprocess.run(["groff", "-man", "-ww", "-Tascii", "-z", PAGE], capture_output=True, text=True, check=False)
    checks.same("the manual page is laid out without a warning", (0, ""), (done.returncode, done.stderr))
    source = PAGE.read_text(encoding="ascii").replace("\\-", "-")
    synopsis = re.sub(r"\\f[A-Z]", "", source.split(".SH SYNOPSIS")[1].split(".SH ")[0])
    words = all_commands()
    whole = {first for first, *rest in words if rest}
    names = [" ".join(own) for own in words if len(own) > 1 or own[0] not in whole]
    checks.same("its synopsis has the commands", names, re.findall(rf"^zikhrodan ({NAME})", synopsis, re.M))
    parts = source.split(".SH COMMANDS")[1].split(".SH ")[0]
    checks.same("each has a part of its own", names, re.findall(rf"^\.TP\n\.B ({NAME})\n", parts, re.M))
    with checks.group("the synopsis has the words and options of each command's --help") as group:
        for name in names:
            line = " ".join(re.search(rf"^zikhrodan {name}(.*(?:\n .*)*)", synopsis, re.M).group(1).split())
            text = helped([*name.split(), "--help"])
            usage = re.match(rf"usage: zikhrodan {name} ?(.*)", text).group(1)
            options = set(LISTED.findall(text.split("\nExamples")[0]))
            group.same(f"{name}: options", options, set(OPTION.findall(line)))
            if "OPTION" not in usage:
                group.same(f"{name}: usage", usage, line)
    place = scratch(folder / "manual")
    with checks.group("its examples run, one after the other") as group:
        for number, line in enumerate(source.split(".SH EXAMPLES\n.nf\n")[1].split("\n.fi")[0].split("\n")):
            group.same(line, [], [told for told in seen(Step(number, line), place) if told.startswith("[exit status")])
