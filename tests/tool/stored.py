"""stored.py: the stored outputs, tests/tool/transcripts/*.txt, each played in a scratch folder of its own."""
from transcript import ROOT, Transcript, play_all, scratch

STORED = ROOT / "tests" / "tool" / "transcripts"


def run(folder, checks):
    paths = sorted(STORED.glob("*.txt"))
    checks.same("there are transcripts", True, bool(paths))
    for path in paths:
        transcript = Transcript(path.read_text(encoding="ascii"))
        checks.same(f"{path.name}: each indented line belongs to a command", 0, transcript.loose)
        play_all(transcript, scratch(folder / path.stem), path.name, checks)
