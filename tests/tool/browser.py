"""browser.py: Debian's Chromium, without a window and without a network, on a page in a file: the page as it has read it, a
picture of it, and its printed form.

It is told that no name has an address, and to send what it asks for to a port of this machine that nobody listens at, or to one
where the test does. Pages that are read are opened in one browser, one after the other, each in a tab of its own, by its
debugging protocol: to start one takes several times as long as to read a page.
"""
import atexit
import functools
import json
import os
import re
import select
import socket
import subprocess
import tempfile
import threading
from html.parser import HTMLParser
from pathlib import Path

from pictures import Picture
from transcript import PATIENCE

WORDS = ["chromium", "--headless=new", "--no-sandbox", "--disable-gpu", "--hide-scrollbars", "--no-first-run",
         "--disable-extensions", "--disable-background-networking", "--force-device-scale-factor=1",
         "--host-resolver-rules=MAP * ~NOTFOUND, EXCLUDE 127.0.0.1", "--proxy-bypass-list=<-loopback>"]
NOBODY_LISTENS = 9


def command(profile, *words, port=NOBODY_LISTENS):
    return [*WORDS, f"--user-data-dir={profile}", f"--proxy-server=127.0.0.1:{port}", *words]


def browse(page, *words, port=NOBODY_LISTENS):
    """Opens a page in a browser of its own."""
    with tempfile.TemporaryDirectory(prefix="browser") as profile:
        subprocess.run(command(profile, *words, Path(page).resolve().as_uri(), port=port), stdin=subprocess.DEVNULL,
                       stdout=subprocess.DEVNULL, stderr=subprocess.DEVNULL, timeout=PATIENCE, check=True)


class Browser:
    """A browser that is told what to do through two pipes, its descriptors 3 and 4: messages of JSON, each ended by a zero."""

    def __init__(self):
        self.profile = tempfile.TemporaryDirectory(prefix="browser")
        (its_in, self.out), (self.into, its_out) = os.pipe(), os.pipe()
        self.process = subprocess.Popen(
            ["bash", "-c", f'exec "$@" 3<&{its_in} 4>&{its_out}', "browser",
             *command(self.profile.name, "--remote-debugging-pipe", "about:blank")],
            stdin=subprocess.DEVNULL, stdout=subprocess.DEVNULL, stderr=subprocess.DEVNULL, pass_fds=(its_in, its_out))
        os.close(its_in)
        os.close(its_out)
        self.said, self.asked, self.told = b"", 0, []

    def end(self):
        os.close(self.out)  # it ends when nobody can tell it anything
        self.process.wait(timeout=PATIENCE)
        self.profile.cleanup()

    def hear(self):
        """Its next message."""
        while b"\0" not in self.said:
            if not select.select([self.into], [], [], PATIENCE)[0] or not (more := os.read(self.into, 1 << 20)):
                raise TimeoutError("the browser says nothing")
            self.said += more
        message, _, self.said = self.said.partition(b"\0")
        return json.loads(message)

    def ask(self, method, session=None, **words):
        """What it answers; what it tells meanwhile is kept."""
        self.asked += 1
        asked = {"id": self.asked, "method": method, "params": words} | ({"sessionId": session} if session else {})
        left = json.dumps(asked).encode() + b"\0"
        while left:
            left = left[os.write(self.out, left):]
        while (answer := self.hear()).get("id") != self.asked:
            self.told.append(answer)
        if "error" in answer:
            raise ValueError(f"{method}: {answer['error']}")
        return answer["result"]

    def read(self, page):
        """The page as it has read it, once all of it is there."""
        tab = self.ask("Target.createTarget", url="about:blank")["targetId"]
        session = self.ask("Target.attachToTarget", targetId=tab, flatten=True)["sessionId"]
        self.ask("Page.enable", session)
        self.ask("Page.setLifecycleEventsEnabled", session, enabled=True)
        went = self.ask("Page.navigate", session, url=Path(page).resolve().as_uri())
        if "errorText" in went:
            raise ValueError(f"{page}: {went['errorText']}")
        while not any(one.get("params", {}).get("name") == "load" and one["params"].get("loaderId") == went["loaderId"]
                      for one in self.told):
            self.told.append(self.hear())
        self.told = []
        whole = self.ask("Runtime.evaluate", session, expression="document.documentElement.outerHTML")
        self.ask("Target.closeTarget", targetId=tab)
        return whole["result"]["value"]


@functools.cache
def browser():
    """The one that is running, which ends with the tests."""
    one = Browser()
    atexit.register(one.end)
    return one


def picture(page, width, height):
    with tempfile.TemporaryDirectory(prefix="picture") as folder:
        browse(page, f"--window-size={width},{height}", f"--screenshot={folder}/page.png")
        return Picture((Path(folder) / "page.png").read_bytes())


def printed(page):
    """Its PDF: how many pages it has, and the sizes that they have, in points."""
    with tempfile.TemporaryDirectory(prefix="printed") as folder:
        browse(page, "--no-pdf-header-footer", f"--print-to-pdf={folder}/page.pdf")
        run = (Path(folder) / "page.pdf").read_bytes()
    sizes = {tuple(round(float(number)) for number in size.split()) for size in re.findall(rb"/MediaBox \[([^\]]*)\]", run)}
    return run.startswith(b"%PDF-"), max(map(int, re.findall(rb"/Count (\d+)", run)), default=0), sizes


def asked(page):
    """The first lines of what is asked of a network while the page is open."""
    lines = []

    def listen(door):
        while True:
            try:
                way, _ = door.accept()
            except OSError:
                return
            with way:
                lines.append(way.recv(4096).split(b"\r\n")[0].decode("latin-1"))

    with socket.create_server(("127.0.0.1", 0)) as door:
        threading.Thread(target=listen, args=(door,), daemon=True).start()
        browse(page, "--dump-dom", port=door.getsockname()[1])
    return lines


class Page(HTMLParser):
    """A page as the browser has read it: its words by element and class, its tables, and the elements themselves."""

    def __init__(self, text):
        super().__init__()
        self.open, self.words, self.elements, self.tables = [], {}, [], []
        self.feed(text)
        self.words = {key: [" ".join(text.split()) for text in texts] for key, texts in self.words.items()}
        self.tables = [[[" ".join(cell.split()) for cell in row] for row in table] for table in self.tables]

    def handle_starttag(self, tag, attrs):
        attrs = dict(attrs)
        keys = [tag] + [f"{tag}.{name}" for name in (attrs.get("class") or "").split()]
        self.elements.append((tag, attrs))
        for key in keys:
            self.words.setdefault(key, []).append("")
        if tag == "table":
            self.tables.append([])
        elif tag == "tr":
            self.tables[-1].append([])
        elif tag in ("th", "td"):
            self.tables[-1][-1].append("")
        if tag not in ("meta", "link", "img", "br", "hr", "input"):
            self.open.append((tag, keys))

    def handle_endtag(self, tag):
        while self.open and self.open.pop()[0] != tag:
            pass

    def handle_data(self, data):
        within = [tag for tag, _ in self.open]
        for key in {key for _, keys in self.open for key in keys}:
            self.words[key][-1] += data
        if "th" in within or "td" in within:
            self.tables[-1][-1][-1] += data

    def one(self, key):
        """The words of the one element of its kind."""
        found = self.words.get(key, [])
        return found[0] if len(found) == 1 else found

    def with_class(self, name):
        return [attrs for _, attrs in self.elements if name in (attrs.get("class") or "").split()]


def read(page):
    return Page(browser().read(page))
