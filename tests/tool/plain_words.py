"""plain_words.py: a refusal has its one reason; what is missing is named; a look fits 80 columns."""
import random
import re

import logs
from bench import IMAGE
from deaths import LINES, WORDS, sample
from examples import all_commands, helped
from plainly import log, module
from station import zikhrodan


def reasons(folder, checks):
    with checks.group("refused 15 names the first bad block, and whether it is bad by itself or by its number") as group:
        rows = [sample(at % LINES, tail=at) for at in range(70)]
        good = logs.blocks_of(rows)
        for bad in range(len(good)):
            run = bytearray(good[bad])
            run[100] ^= 1
            blocks = good[:bad] + [bytes(run)] + good[bad + 1:]
            if bad + 1 < len(good):
                blocks[-1] = bytes(512)  # another one behind it
            log(folder, "bad.log", blocks)
            group.same(bad, (1, "", f"zikhrodan: bad.log: refused 15, block {bad + 1} of the {len(good)} used is unsound\n"),
                       zikhrodan(folder, "died", "bad.log"))
            if bad > 0:
                log(folder, "bad.log", good[:bad] + logs.blocks_of(rows[16 * bad:], bad + 40))
                line = (f"zikhrodan: bad.log: refused 15, block {bad + 1} of the {len(good)} used has number {bad + 40}, after "
                        f"number {bad}\n")
                group.same(f"{bad}: its number", (1, "", line), zikhrodan(folder, "log", "power-up", "bad.log"))
    with checks.group("refused 7 names the first byte that is not the recorder's; a reset's 10 the check code") as group:
        module(folder)
        for address, data, first in ((99, "1", 99), (98, "1 2 3", 98), (102, "1 2 3 4", 105), (124, "1 2 3 4", 124), (242, "1", 242)):
            line = f"zikhrodan: module.state: refused 7, a recorder's write touches a byte not its own: {first}\n"
            group.same(f"{address}, {data}", (1, "", line), zikhrodan(folder, "write", "module.state", 2, address, *data.split()))
        for places, words in (((191,), " at 191 is"), ((223,), " at 223 is"), ((191, 223), "s at 191 and 223 are")):
            run = bytearray(IMAGE)
            for place in places:
                run[place] ^= 1
            (folder / "bad.image").write_bytes(run)
            group.same(places, (1, "", f"zikhrodan: bad.image: refused 10, the factory image's check code{words} wrong\n"),
                       zikhrodan(folder, "reset", "module.state", "bad.image"))


def missing(folder, checks):
    with checks.group("the word that is missing is named; of `log` alone a command is asked for") as group:
        for words in all_commands():
            usage = re.match(rf"usage: zikhrodan {' '.join(words)} ?(.*)", helped([*words, "--help"])).group(1)
            plain = re.sub(r"\[[^]]*\]|-\w \S+", "", usage).split()
            if plain[:1] == ["COMMAND"]:
                group.same(words, (2, "", f"zikhrodan: which command of {words[0]}? `zikhrodan {words[0]} --help` lists them\n"),
                           zikhrodan(folder, *words))
                continue
            for given in range(len(plain)):
                line = f"zikhrodan: {plain[given].removesuffix('..')} is missing (--help has an example)\n"
                group.same(f"{words}, {given}", (2, "", line), zikhrodan(folder, *words, *["1"] * given))
    with checks.group("so is the word that an option lacks, each option's") as group:
        for words in all_commands():
            for option, value in re.findall(r"(?<![\w-])(--?[a-z]+) ([A-Z][\w.]*)", helped([*words, "--help"]).split("\nExamples")[0]):
                group.same(f"{words}, {option}", (2, "", f"zikhrodan: {value} is missing after {option} (--help has an example)\n"),
                           zikhrodan(folder, *words, option))
    with checks.group("demo --keep into a folder that has its files: one line at once, and nothing else") as group:
        for words in ((), ("--eight",)):
            group.same(words, 0, zikhrodan(folder, "demo", *words, "--keep", "kept")[0])
            name = "eight.rows" if words else "factory.image"
            group.same(f"{words}, again", (2, "", f"zikhrodan: kept/{name} is there already, and is not replaced\n"),
                       zikhrodan(folder, "demo", *words, "--keep", "kept"))


def narrow(folder, checks):
    with checks.group("log show has 80 columns at most, and each status bit by the word that died takes") as group:
        chance = random.Random(80)
        rows = [sample(*(bit for bit in range(LINES) if chance.random() < rare), tail=chance.randrange(256))
                for rare in (0, 0.05, 0.3, 0.7, 1) for _ in range(60)]
        log(folder, "wide.log", [logs.block(2 ** 32 - 40 + at, rows[16 * at:16 * at + 16]) for at in range(19)])
        for start in range(0, 300, 30):
            text = zikhrodan(folder, "log", "show", "wide.log", "--from", start, "--count", 30)[1]
            group.same(f"{start}: width", True, max(map(len, text.split("\n"))) < 80)
            seen = re.split(r"^ *(\d+) +\d{10}", text.split("status\n")[1], flags=re.M)[1:]
            for position, rest in zip(map(int, seen[::2]), seen[1::2]):
                words = re.findall(r"[rt]x[\w-]+", rest)
                told = {name for word in words for name in
                        ([word.replace("1-4", str(lane), 1) for lane in range(1, 5)] if "1-4" in word else [word])}
                group.same(position, {WORDS[bit] for bit in range(LINES) if rows[position][bit // 8] >> bit % 8 & 1}, told)


def run(folder, checks):
    for part in (reasons, missing, narrow):
        place = folder / part.__name__
        place.mkdir()
        part(place, checks)
