"""together.py: several commands at once on one state: each is done after the other, and no flag or write is lost."""
import fcntl
import os
from concurrent.futures import ThreadPoolExecutor

from bench import IMAGE
from feed import sample
from station import CALM, KINDS, PATIENCE, Kept, start, wait_in_turn

PORTS = ("operator", "recorder")
WRITES = {87: 30, 88: 30, 98: 30}  # the operator's bytes, and how often each is written


def feeder(kept, bits):
    """Raises each of its status bits once, by a command of its own; gives what went wrong."""
    wrong = []
    for bit in bits:
        name = f"bit{bit}.rows"
        (kept.folder / name).write_bytes(sample(status=(1 << bit).to_bytes(3, "big")))
        status, _, complaint = kept.run("sample", name)
        wrong += [complaint] if status else []
    return wrong


def read_bits(kept, port):
    """Reads bytes 3 to 5: the exit status, and the bits as one number."""
    status, out, _ = kept.run("read", port, 3, 3, "--raw")
    return status, int.from_bytes(out.encode("latin-1"), "big")


def reader(kept, port, feeders):
    """Reads bytes 3 to 5 while there is a feeder; gives how often each bit was read, and how many commands failed."""
    seen, failed = [0] * 24, 0
    while not all(future.done() for future in feeders):
        status, bits = read_bits(kept, port)
        failed += status != 0
        for bit in range(24):
            seen[bit] += bits >> bit & 1
    return seen, failed


def flags(checks, folder, count):
    with checks.group(f"{count} processes raise 24 flags, one by one, while both ports read: each gets each once") as group:
        kept = Kept(folder / f"flags{count}")
        kept.paper.reset(IMAGE)
        kept.put()
        with ThreadPoolExecutor(count + len(PORTS)) as pool:
            feeders = [pool.submit(feeder, kept, range(first, 24, count)) for first in range(count)]
            readers = [pool.submit(reader, kept, port, feeders) for port in PORTS]
            group.same("the samples", [[]] * count, [future.result() for future in feeders])
            for port, future in zip(PORTS, readers):
                seen, failed = future.result()
                left = read_bits(kept, port)[1]
                group.same(f"{port}: failed reads", 0, failed)
                group.same(f"{port}: how often each bit came", [1] * 24, [seen[bit] + (left >> bit & 1) for bit in range(24)])
        kept.paper.sample(CALM)
        group.same("the 688 bytes, with no flag left", bytes(kept.paper.state), kept.path.read_bytes())


def writer(kept, address, times):
    return [number for number in range(times) if kept.run("write", "operator", address, number)[0]]


def looker(kept, writers):
    """Looks while there is a writer, without a lock: what went wrong, and how often it looked."""
    wrong, count = [], 0
    while count == 0 or not all(future.done() for future in writers):
        status, said, complaint = kept.run("show", "--raised")
        wrong += [complaint] if status or "11 flags let through" not in said else []
        count += 1
    return wrong, count


def writes(checks, folder):
    with checks.group("three processes write a byte each, again and again: none undoes another's, and a look is whole") as group:
        kept = Kept(folder / "writes")
        with ThreadPoolExecutor(len(WRITES) + 1) as pool:
            futures = [pool.submit(writer, kept, address, times) for address, times in WRITES.items()]
            looks = pool.submit(looker, kept, futures)
            group.same("the writes", [[]] * len(WRITES), [future.result() for future in futures])
            group.same("the looks", ([], True), (looks.result()[0], looks.result()[1] > 0))
        for address, times in WRITES.items():
            kept.paper.write(1, address, bytes([times - 1]))
        group.same("the 688 bytes", bytes(kept.paper.state), kept.path.read_bytes())
        group.same("other files", [], kept.others())


def in_turn(kind, checks, folder):
    with checks.group(f"{kind.called}each command that changes a state waits while another has it") as group:
        kept = kind(folder / f"turn-{kind.__name__}")
        changes = [(words[0], kept.path.name, *words[1:]) for words in kind.changes]
        lock = os.open(kept.folder, os.O_RDONLY)
        fcntl.flock(lock, fcntl.LOCK_EX)
        processes = [start(kept.folder, *words) for words in changes]
        group.same("they wait", True, wait_in_turn(*processes))
        group.same("none has ended", [None] * len(processes), [process.poll() for process in processes])
        group.same("the 688 bytes", True, kept.agrees())
        os.close(lock)
        for process in processes:
            process.communicate(timeout=PATIENCE)
        group.same("they are done", [0] * len(processes), [process.returncode for process in processes])


def run(folder, checks):
    flags(checks, folder, 2)
    flags(checks, folder, 4)
    writes(checks, folder)
    for kind in KINDS:
        in_turn(kind, checks, folder)
