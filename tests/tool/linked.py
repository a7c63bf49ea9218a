"""linked.py: the tool linked, of the objects that station/build leaves, with a source of these tests that stands between it and some
of its calls (the linker's --wrap)."""
import subprocess

from transcript import ROOT

LINK = """set -euo pipefail; . tools/machine.sh; program=$1; shift
compile -std=gnu11 -O2 -Wall -Wextra -Werror -Ibuild -Istation "$@" build/libzikhrodan.a -o "$program" """


def link(program, source, calls, edited=None, without=()):
    """With the source, to which the calls lead; with an edited source of the tool in place of its own; without some of its own."""
    left_out = {*without, *([edited.stem] if edited else [])}
    objects = [path for path in sorted((ROOT / "build" / "station.d").glob("*.o")) if path.stem not in left_out]
    words = [ROOT / "tests" / "tool" / source, *([edited] if edited else []), *objects, *(f"-Wl,--wrap={call}" for call in calls)]
    subprocess.run(["bash", "-c", LINK, "link", program, *words], cwd=ROOT, check=True)
    return program
