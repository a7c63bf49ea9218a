"""log_heads_old.py: a log of an earlier version, whose two slots are of two commits, may have lost the later one: where the blocks
show it, looks take what the disk has, and nothing is written. log_heads.py has the logs of this one."""
import logs
from feed import sample
from log_heads import ADD, POWER_UP, SAMPLE, Station, changed, old_form
from log_kills import DAMAGED, rows_from


def beyond(count):
    return f"; {count} unused block{'s' * (count != 1)} may be the log's too" if count else ""


def ahead(number, disk, copy, then, count):
    """What is said of a log whose disk is ahead: of which block, how many samples there are, and how many unused blocks."""
    return (f"zikhrodan: kept.log: a slot of its head is damaged, and block {number} has {disk} sample{'s' * (disk != 1)} on the "
            f"disk, but {copy} in the other slot's copy: {then}{beyond(count)}\n")


def had_held(place, checks):
    """The later slot is damaged, and the disk shows that it had held."""
    with checks.group("the damaged slot had held: looks take the disk's block; who would write is refused") as group:
        # How many samples there were before the last commit and after it, how many are left, and how many blocks may be its own.
        for before, after, left, unused in ((5, 9, 9, 0), (1, 2, 2, 0), (20, 32, 32, 0), (20, 49, 32, 2), (17, 18, 18, 0)):
            run = old_form(rows_from(0, before), rows_from(0, after))
            of = ((before + 15) // 16, (left - 1) % 16 + 1, (before - 1) % 16 + 1)
            refused = ahead(*of, "it is not written; keep it as it is, and begin another log", unused)
            for at in (0, 48, 2047):
                what = f"{before}, {after}, byte {at}"
                place.path.write_bytes(changed(run, logs.SLOT + at))
                was = place.now()
                group.same(what, (0, rows_from(0, left), ahead(*of, "those on the disk are taken", unused)), place.shown())
                for words in (ADD, POWER_UP, SAMPLE, ("log", "add", "kept.log", "/dev/null")):
                    group.same(f"{what}, {words}", (2, "", refused), place.run(*words))
                group.same(f"{what}: nothing is changed", True, place.now() == was)
    with checks.group("so do died and report: a line that died in what the disk alone has is told") as group:
        dark = [sample(status=(4, 0, 0))]
        place.path.write_bytes(changed(old_form(rows_from(1, 3), rows_from(1, 3) + dark), logs.SLOT))
        line = ahead(1, 4, 3, "those on the disk are taken", 0)
        group.same("died", (0, "Rx3 loss of signal: receive lane 3 lost light at position 3, in block 1; the log has 4 samples\n"
                              "lit in the sample before; dark in this one\nbefore the log began it may have been dark too\n", line),
                   place.run("died", "kept.log", "rx3"))
        group.same("report", (0, "page.html: 1 of 4 receive lanes lost light; the first at position 3\n", line),
                   place.run("report", "kept.log", "-o", "page.html"))
        page = (place.path.parent / "page.html").read_text(encoding="utf-8")
        group.same("the page", True, "more samples on the disk than in the other slot's copy: those on the disk are taken" in page)
        group.same("--json", True, '"damaged_slot": true' in place.run("died", "kept.log", "--json")[1])


def may_have_held(place, checks):
    """A slot is damaged, and nothing shows whether it had held: the log goes on from the other one."""
    rows, new = rows_from(0, 60), rows_from(900, 3)
    blocks, other = logs.blocks_of(rows[:40]), logs.blocks_of(rows_from(500, 9))  # a block with more samples than the copy, but ..
    unsound, misnumbered = [changed(other[0], 40)], logs.blocks_of(rows_from(500, 9), 2)
    cases = {
        # Its file, the byte that is changed, the samples that are left, how many unused blocks may be the log's.
        "the older slot": (old_form(rows[:5], rows[:9]), 0, rows[:9], 0),
        "new blocks alone": (old_form(rows[:16], rows[:40]), logs.SLOT, rows[:16], 2),
        "the first blocks": (old_form([], rows[:20]), logs.SLOT, [], 2),
        "a commit that the one before opened a block for": (old_form(rows[:20], rows[:25], 0), logs.SLOT, rows[:25], 0),
        "the copy alone has the rows": (old_form(rows[:5], rows[:9], body=logs.blocks_of(rows[:5])), logs.SLOT, rows[:5], 0),
        "a commit that was cut off": (old_form(rows[:20], rows[:40], body=logs.blocks_of(rows[:20]) + blocks[2:]), logs.SLOT,
                                      rows[:20], 1),
        "the disk's block is unsound": (old_form(rows[:5], rows[:9], body=unsound), logs.SLOT, rows[:5], 0),
        "the disk's block has another number": (old_form(rows[:5], rows[:9], body=misnumbered), logs.SLOT, rows[:5], 0),
        "an unused block is unsound": (old_form(rows[:16], rows[:32], body=[blocks[0], changed(blocks[1], 40)]), logs.SLOT,
                                       rows[:16], 0),
        "an unused block has another number": (old_form(rows[:16], rows[:32], body=logs.blocks_of(rows[:16]) + other), logs.SLOT,
                                               rows[:16], 0),
    }
    with checks.group("no slot is damaged: the copy holds, whatever the disk's block has, and nothing is said") as group:
        for run in (old_form(rows[:5], rows[:9], body=logs.blocks_of(rows[:12])), old_form(rows[:5], rows[:9], body=unsound)):
            place.path.write_bytes(run)
            group.same("a look", (0, rows[:9], ""), place.shown())
            group.same("an add", (0, "", (0, rows[:9] + new, "")), (*place.run(*ADD)[::2], place.shown()))
    with checks.group("a damaged slot that may have held, or not: the log goes on from the other one, and that is said") as group:
        for name, (run, at, left, unused) in cases.items():
            place.path.write_bytes(changed(run, at))
            line = f"{DAMAGED}{beyond(unused)}\n"
            group.same(name, (0, left, line), place.shown())
            group.same(f"{name}: a look changes nothing", changed(run, at), place.path.read_bytes())
            status, _, complaint = place.run(*ADD)
            group.same(f"{name}: an add", (0, line), (status, complaint))
            group.same(f"{name}: after it", (0, left + new, ""), place.shown())
            head = place.path.read_bytes()[:logs.HEAD]
            group.same(f"{name}: the slots", head[:logs.SLOT], head[logs.SLOT:])


def run(folder, checks):
    place = Station(folder / "station")
    had_held(place, checks)
    may_have_held(place, checks)
