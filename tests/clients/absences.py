"""absences.py: no module at the address or on the bus, a process gone or silent, a message that is none, another user."""
import os
import shutil
import socket
import subprocess
import time
from pathlib import Path

from bench import ANSWER, LOOK, PATIENCE, READ, REQUEST, ROOT, SHIM, START, Module
from feed import sample
from with_i2c import MODULE_AT

NO_ANSWER = "No such device or address"


def addresses(module, checks):
    with checks.group("i2cdetect finds a module at 50h on both buses and none elsewhere, and changes nothing") as group:
        module.reset()
        module.sample(sample(status=(1, 2, 3)))
        for port in (1, 2):
            for options in ((), ("-q",), ("-r",)):
                status, text, _ = module.run("i2cdetect", "-y", *options, port)
                cells = [cell for row in text.splitlines()[1:] for cell in row.split()[1:]]
                found = [cell for cell in cells if cell != "--"]
                group.same(f"bus {port} {options}", (0, ["50"], 112), (status, found, len(cells)))
        group.same("the 688 bytes", bytes(module.paper.state), module.look())
    with checks.group("another address than 50h does not answer: an error to the tools, XX in i2cdump") as group:
        for address in ("0x51", "0x08", "0x77"):
            group.same(f"i2cget {address}", (2, ""), module.run("i2cget", "-y", 1, address, 3)[:2])
            group.same(f"i2cset {address}", (1, ""), module.run("i2cset", "-y", 1, address, 100, 1)[:2])
            group.same(f"i2ctransfer {address}", (1, "", f"Error: Sending messages failed: {NO_ANSWER}\n"),
                       module.run("i2ctransfer", "-y", 1, f"w1@{address}", 3, "r12"))
            group.same(f"i2cdump {address}", 256, module.run("i2cdump", "-y", 1, address, "b")[1].count("XX "))
        group.same("the 688 bytes", bytes(module.paper.state), module.look())
    with checks.group("what such a bus cannot do is an error: SMBus blocks, a length from the module, too long writes") as group:
        group.same("block read", (1, "", True), blocked(module.run("i2cget", "-y", 1, MODULE_AT, 0, "s")))
        group.same("block write", (1, "", True), blocked(module.run("i2cset", "-y", 1, MODULE_AT, 100, 1, "s")))
        for words in ((f"r?@{MODULE_AT}",), (f"w690@{MODULE_AT}", "100", "0=")):
            group.same(words[0], (1, "", "Error: Sending messages failed: Operation not supported\n"),
                       module.run("i2ctransfer", "-y", 1, *words))
        group.same("the 688 bytes", bytes(module.paper.state), module.look())


def blocked(done):
    """The complaint is that the adapter has no such capability."""
    return done[0], done[1], "does not have SMBus block" in done[2] and "capability" in done[2]


def every_tool(group, what, module, path):
    """All tools end with their error for a module that does not answer."""
    rows = (("netlink", 1, f"netlink error: {NO_ANSWER}", ("ethtool", "-m", "operator")),
            ("ioctl", 1, f"Cannot get module EEPROM information: {NO_ANSWER}", ("ethtool", "-m", "recorder")),
            ("ioctl", 2, "Error: Read failed", ("i2cget", "-y", 1, MODULE_AT, 0)),
            ("ioctl", 1, "Error: Write failed", ("i2cset", "-y", 1, MODULE_AT, 100, 1)),
            ("ioctl", 1, f"Error: Sending messages failed: {NO_ANSWER}", ("i2ctransfer", "-y", 2, f"w1@{MODULE_AT}", 0, "r1")))
    for way, status, complaint, words in rows:
        group.same(f"{what}: {words[0]} over {way}", (status, "", f"{complaint}\n"), module.run(*words, path=path, way=way))


def impatient(seconds):
    """How long a tool or the module's process waits for the other, as the environment has it."""
    return {"ZIKHRODAN_PATIENCE": str(seconds)}


def nobody(module, checks, folder):
    with checks.group("no socket, a socket nobody listens on, no socket named: each tool ends with an error") as group:
        left = folder / "left"
        with socket.socket(socket.AF_UNIX, socket.SOCK_SEQPACKET) as way:
            way.bind(str(left))
        for what, path in (("missing", folder / "missing"), ("left behind", left), ("empty", ""), ("too long", "/x" * 60)):
            every_tool(group, what, module, path)
    with checks.group("a process that is silent: the tool waits as long as it is told, and ends with an error") as group:
        with socket.socket(socket.AF_UNIX, socket.SOCK_SEQPACKET) as way:
            way.bind(str(folder / "silent"))
            way.listen()
            for seconds in (1, 2):
                started = time.monotonic()
                status, text, _ = module.run("i2cget", "-y", 1, MODULE_AT, 0, path=folder / "silent", **impatient(seconds))
                group.same(f"i2cget, {seconds}", (2, "", True), (status, text, time.monotonic() - started > seconds - 0.1))
    with checks.group("a process that ends: its socket is gone, the tools end with an error; no other took it before") as group:
        second = Module(folder / "second")
        group.same("it answers", 0, second.run("i2cget", "-y", 1, MODULE_AT, 0)[0])
        done = subprocess.run(START + [second.path], cwd=ROOT, stdin=subprocess.DEVNULL, capture_output=True, timeout=PATIENCE,
                              check=False)
        group.same("the socket is taken", (2, b""), (done.returncode, done.stdout))
        group.same("the first still answers", 0, second.run("i2cget", "-y", 1, MODULE_AT, 0)[0])
        group.same("it ends", (0, False), (second.end(), Path(second.path).exists()))
        every_tool(group, "ended", module, second.path)


def nonsense(module, checks, folder):
    with checks.group("a message of another length or kind ends its connection, and changes nothing") as group:
        before = module.look()
        good = REQUEST.pack(READ, 1, 3, 12, b"")
        for packet in (b"x", good[:-1], good + b"x", REQUEST.pack(0, 1, 3, 12, b""), REQUEST.pack(7, 1, 3, 12, b""),
                       REQUEST.pack(4, 1, 100, 689, b""), REQUEST.pack(6, 0, 0, 687, b"")):
            with socket.socket(socket.AF_UNIX, socket.SOCK_SEQPACKET) as way:
                way.settimeout(PATIENCE)
                way.connect(module.path)
                way.send(packet)
                group.same(f"{packet[:16].hex()}, {len(packet)} bytes", b"", way.recv(ANSWER.size))
        group.same("the 688 bytes", before, module.look())
    with checks.group("a client that keeps its connection and says nothing is let go, and the next one is served") as group:
        second = Module(folder / "impatient", **impatient(2))
        with socket.socket(socket.AF_UNIX, socket.SOCK_SEQPACKET) as way:
            way.connect(second.path)
            group.same("look", 688, len(second.ask(LOOK)[1]))
            group.same("the silent one", b"", way.recv(ANSWER.size))
        group.same("it ends", 0, second.end())


def other_user(module, checks, folder):
    """As nobody (65534) where this is root, else as whoever this is."""
    with checks.group("a user who is not root can use the tools") as group:
        shim, user = folder / SHIM.name, 65534 if os.geteuid() == 0 else None
        shutil.copyfile(SHIM, shim)
        os.chmod(shim, 0o755)  # whatever the umask was when it was built
        os.chmod(folder, 0o755)
        os.chmod(module.path, 0o666)
        for way in ("netlink", "ioctl"):
            status, text, _ = module.run("ethtool", "-m", "recorder", way=way, shim=shim, user=user)
            group.same(f"ethtool over {way}", (0, True), (status, "FINISAR CORP" in text))
        group.same("i2cget", (0, "0x11\n"), module.run("i2cget", "-y", 1, MODULE_AT, 0, shim=shim, user=user)[:2])


def run(module, checks):
    folder = Path(module.path).parent
    addresses(module, checks)
    nobody(module, checks, folder)
    nonsense(module, checks, folder)
    other_user(module, checks, folder)
