"""ended.py: the tool linked with ended.c, which ends it before a call that it makes of the system: before the first, the second,
and so on, until it ends by itself. So no moment between two calls is left out, however fast the machine is."""
import re
from itertools import count

from linked import link
from station import zikhrodan
from transcript import ROOT, environment

SOURCE = "ended.c"


def build(program):
    text = (ROOT / "tests" / "tool" / SOURCE).read_text(encoding="ascii")
    return link(program, SOURCE, ["pwrite", *re.findall(r"^BEFORE\([\w *]+, (\w+),", text, re.M)])


def each_moment(folder, program, how, *words, begin):
    """Runs a command again and again, each time after `begin`: gives the exit status and what is printed, and at which call it
    is ended by the signal `how`; at last it ends by itself, and that is none."""
    for call in count(1):
        begin()
        setting = dict(environment(folder), ENDED_AT=str(call), ENDED_BY=str(int(how)))
        status, said, _ = zikhrodan(folder, *words, program=program, env=setting)
        ended = status in (-how, 128 + how)
        yield status, said, call if ended else None
        if not ended:
            return
