"""links.py: a state that is a link stays one; a state keeps its rights and its owner; a new one has what the umask leaves."""
import os
import stat

from bench import IMAGE
from disk import copied
from paper import Paper
from station import CHANGES, KINDS, NOBODY, Kept, zikhrodan


def rights_of(path):
    return stat.S_IMODE(path.stat().st_mode)


def linked(folder, checks):
    with checks.group("a link, and a link to a link, stay links, and the state that they name is changed") as group:
        kept = Kept(folder / "away")
        here = folder / "here"
        here.mkdir()
        (here / "link.state").symlink_to("../away/module.state")
        (here / "second.state").symlink_to(here / "link.state")
        for words, on_paper in CHANGES.items():
            for name in ("link.state", "second.state"):
                kept.put()
                on_paper(kept.paper)
                rest = [word if str(word)[-5:] != ".rows" else f"../away/{word}" for word in words[1:]]
                group.same(f"{words}, {name}", (0, ""), zikhrodan(here, words[0], name, *rest)[::2])
                group.same(f"{words}, {name}: the 688 bytes", True, kept.agrees())
        group.same("links", ["../away/module.state", str(here / "link.state")],
                   [os.readlink(here / name) for name in ("link.state", "second.state")])
        group.same("files beside the links", ["link.state", "second.state"], sorted(os.listdir(here)))
        group.same("files beside the state", [], kept.others())


def kept_rights(kind, folder, checks):
    kept = kind(folder / f"rights-{kind.__name__}")
    with checks.group(f"{kind.called}a state's rights stay, whatever the umask is") as group:
        for mode in (0o600, 0o640, 0o664, 0o444):
            for words in kind.changes:
                kept.path.chmod(mode)
                group.same(f"{words}", (0, ""), kept.run(*words, umask=0o077)[::2])
                group.same(f"{words} of a state with {mode:o}", f"{mode:o}", f"{rights_of(kept.path):o}")
    with checks.group(f"{kind.called}a state's owner stays, where root changes another's") as group:
        owner = (NOBODY, NOBODY) if os.geteuid() == 0 else (os.geteuid(), os.getegid())
        for words in kind.changes:
            os.chown(kept.path, *owner)
            group.same(f"{words}", (0, ""), kept.run(*words)[::2])
            group.same(f"{words}: its owner", owner, (kept.path.stat().st_uid, kept.path.stat().st_gid))


def shared(folder, checks):
    """Two users of one group, where this is root: who changes the state may not give it away, but its group stays."""
    if os.geteuid() != 0:
        return
    with checks.group("a state that a group shares stays the group's, whoever of them changes it") as group:
        program, kept = copied(folder), Kept(folder / "shared")
        os.chown(kept.folder, NOBODY, NOBODY)
        kept.folder.chmod(0o775)
        for words in CHANGES:
            os.chown(kept.path, 1, NOBODY)
            kept.path.chmod(0o660)
            group.same(f"{words}", (0, ""), kept.run(*words, program=program, user=2, group=2, extra_groups=[NOBODY])[::2])
            now = kept.path.stat()
            group.same(f"{words}: owner, group, rights", (2, NOBODY, 0o660), (now.st_uid, now.st_gid, rights_of(kept.path)))


def new_rights(folder, checks):
    with checks.group("a new state, and what demo keeps, have the rights that the umask leaves") as group:
        paper = Paper()
        paper.reset(IMAGE)
        for mask in (0o000, 0o022, 0o027, 0o077):
            name = f"new{mask:o}"
            group.same(f"reset, {mask:o}", (0, ""), zikhrodan(folder, "reset", f"{name}.state", umask=mask)[::2])
            group.same(f"reset, {mask:o}: rights", f"{0o666 & ~mask:o}", f"{rights_of(folder / f'{name}.state'):o}")
            group.same(f"reset, {mask:o}: the 688 bytes", bytes(paper.state), (folder / f"{name}.state").read_bytes())
            group.same(f"demo, {mask:o}", (0, ""), zikhrodan(folder, "demo", "--keep", name, umask=mask)[::2])
            group.same(f"demo, {mask:o}: the folder's", f"{0o777 & ~mask:o}", f"{rights_of(folder / name):o}")
            seen = {f"{rights_of(path):o}" for path in (folder / name).iterdir()}
            group.same(f"demo, {mask:o}: the files'", {f"{0o666 & ~mask:o}"}, seen)


def run(folder, checks):
    linked(folder, checks)
    for kind in KINDS:
        kept_rights(kind, folder, checks)
    shared(folder, checks)
    new_rights(folder, checks)
