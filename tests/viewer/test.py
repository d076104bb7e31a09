#!/usr/bin/env python3
"""The page of web/ beside the program, in Chromium without a window: jobs are opened, the dots on the canvas are those of
`pclmin pbm`, the greys of a smaller page the means of these dots, the small pictures those of `pclmin pgm`, the sizes, the copies and
what is asked those of `pclmin pages`. One job is refused with its place marked among its bytes, what is saved is what `pclmin shrink`
writes, and a dropped file is opened too. Keys turn pages, nothing moves when a job is shrunk, and the page is used at the size of a
phone and in two tabs.

The first of many pages is shown before the others are known, and what a job is asked for twice is made once. A page in colours has the
program's dots, each in one colour, and the bytes that are told are those of the job. The server is asked for more than it takes, and
for what takes too long. Where there is no Chromium the server alone is tested, and a line says so. Prints what doesn't hold and how
much does; status 1 if something doesn't.

    tests/viewer/test.py [PROGRAM] [--picture FILE]

PROGRAM is build/pclmin where none is given; FILE gets a picture of the page.
"""
import argparse
import base64
import contextlib
import hashlib
import functools
import http.client
import json
import operator
import os
import random
import shutil
import socket
import subprocess
import sys
import tempfile
import threading
import time

TOP = os.path.dirname(os.path.dirname(os.path.dirname(os.path.abspath(__file__))))
sys.path.insert(0, os.path.join(TOP, "web"))
sys.dont_write_bytecode = True
import server  # noqa: E402

CHROMIUM = next(filter(None, map(shutil.which, ("chromium", "chromium-browser", "google-chrome"))), None)

JOBS = {
    "two.pcl": b"\x1bE\x1b&l26a3X\x1b*p0x0Y\x1b*t300R\x1b*r0A\x1b*b1W\x80\x1b*rC\x0c\x1b*p30x40Y\x1b*c900a90b0P\x0c\x1bE",
    "fine.pcl": b"\x1bE\x1b*t600R\x1b*r0A\x1b*b2W\xaa\x55\x1b*rC\x0c\x1bE",
    "asked.pcl": b"\x1b%-12345X@PJL SET OUTBIN=UPPER\r\n@PJL ENTER LANGUAGE=PCL\r\n\x1bE\x1b&l1s3g2M\x1b&l4H\x1b*c90a90b0P\x0c\x1b&l2S"
                 b"\x1b&l1X\x1b*c900a9b0P\x0c\x0c\x1b&l0s1H\x1b&a2G\x1b&l1A\x1b*c9a9b0P\x0c\x1bE\x1b%-12345X",
    "refused.pcl": b"\x1bE\x1b&l2A\x1b*p300x300Y\x1b*c90a90b0P Hello, printer\r\n\x0c\x1bE",
}
REFUSED = "refused.pcl"
PAGES = 87
MANY = b"\x1bE" + b"".join(b"\x1b*p300x%dY\x1b*c900a30b0P\x0c" % (90 * page) for page in range(PAGES)) + b"\x1bE"
# 20 megabytes, as a driver sends as many pages of text.
LARGE = b"\x1bE" + b"".join(b"\x1b*t300R\x1b*r1A" + b"\x1b*b100W%097d   " % page * 2300 + b"\x1b*rC\f" for page in range(PAGES)) + b"\x1bE"
# The first takes hours, and the second more than a second, but by tools/colours.py alone.
SLOW = b"\x1bE\x1b*c2400a3300b" + b"0p1p" * 200_000 + b"0P\x1bE"
SLOW_IN_COLOURS = b"\x1bE\x1b*c2400a3300b" + b"0p1p" * 500 + b"0P\x1bE"
SIDES = {0: "one side", 1: "both sides, long edge", 2: "both sides, short edge"}
PATIENCE = 60


def lettered():
    """A job with letters of a font and of a macro, a rectangle and a white one, a raster, and a second page."""
    chance = random.Random(7)
    font = bytearray(64)
    font[0:2], font[3], font[13], font[16:18] = b"\0\x40", 2, 1, b"\0\x78"
    job = b"\x1bE\x1b&l2a0E\x1b*c1D\x1b)s64W" + bytes(font)
    for code in b"abc":
        bits = bytes(chance.randrange(256) for _ in range(3 * 30))
        data = bytes([4, 0, 14, 1, 0, 0, 0, 2, 0, 30, 0, 24, 0, 30, 0, 100]) + bits
        job += b"\x1b*c%dE\x1b(s%dW" % (code, len(data)) + data
    job += b"\x1b&f7y0X\x1b*t300R\x1b*r1A\x1b*b2W\xff\x18\x1b*rC\x1b&f1X\x1b(1X\x1b*p300x400Yabcab\x1b*p900x400Ycc"
    job += b"\x1b*p310x390Y\x1b*c50a60b0P\x1b*p315x395Y\x1b*c10a10b1P"
    job += b"\x1b*p400x900Y\x1b*r1A" + b"\x1b*b4W\xaa\x55\xf0\x0f" * 40 + b"\x1b*rC"
    return job + b"".join(b"\x1b*p%dx1200Y\x1b&f7y3X" % (300 * place) for place in range(1, 5)) + b"\f\x1b*p600x600Yabc\f\x1bE"


class Held:
    """How much held, and how much didn't."""

    def __init__(self):
        self.yes, self.no = 0, 0

    def tell(self, holds, what):
        """Counts something that holds, or says that it doesn't."""
        if holds:
            self.yes += 1
        else:
            self.no += 1
            print(f"doesn't hold: {what}")


class Program:
    """`pclmin` in the folder of the jobs."""

    def __init__(self, program, folder):
        self.program, self.folder = program, folder

    def run(self, *words):
        """What it writes, and says on standard error."""
        done = subprocess.run([self.program, *words], capture_output=True, cwd=self.folder)
        return done.stdout, done.stderr.decode("latin-1")

    def resolution(self, job):
        """The first resolution at which a job is accepted, and 300 where there is none."""
        return next((dpi for dpi in ("300", "600") if "refused" not in self.run("pages", "--dpi", dpi, job)[1]), "300")


# ---- the server

def asked(port, path, body, headers=None):
    """The status and the body of an answer."""
    connection = http.client.HTTPConnection("127.0.0.1", port, timeout=PATIENCE)
    connection.request("POST", path, body, headers or {})
    answer = connection.getresponse()
    got = answer.status, answer.read()
    connection.close()
    return got


def test_server(held, port, program, jobs):
    """What the server answers, beside what the program writes."""
    for job in jobs:
        with open(os.path.join(program.folder, job), "rb") as file:
            content = file.read()
        for path, words in (("/pages/0", ["pages", "--json"]), ("/preview/0/1/1", ["pbm", "--page", "1"]),
                            ("/grey/0/1/1/8", ["pgm", "--drivers", "--scale", "8", "--page", "1"]), ("/shrink/0", ["shrink"]),
                            ("/explain/0", ["explain"])):
            status, body = asked(port, path, content)
            head, made = body.split(b"\n", 1)
            written, said = program.run(*words, "--dpi", "auto", job)
            held.tell(status == 200 and made == written, f"{path} of {job} is what the program writes")
            held.tell(json.loads(head)["line"] == ("" if words[0] == "explain" else said.replace("pclmin: no page\n", "")),
                      f"{path} of {job} says what the program says")
    for scale in (0, 33):
        status, body = asked(port, f"/grey/0/1/1/{scale}", JOBS["two.pcl"])
        head, made = body.split(b"\n", 1)
        held.tell(status == 200 and json.loads(head)["fault"] == 3 and made == b"", f"a scale of {scale} is wrong: {status} {body[:200]}")
    foreign = {"Host": "example.com"}
    for path, body, headers, wanted in (
            ("/pages/0", b"", foreign, 403), ("/pages/0", b"", {"Origin": "http://example.com"}, 403), ("/remove/0", b"", {}, 404),
            ("/preview/0/1", b"", {}, 404), ("/grey/0/1/1", b"", {}, 404), ("/pages/x", b"", {}, 404),
            ("/pages/0", b"", {"Content-Length": str(server.LIMIT + 1)}, 413),
            ("/pages/0", b"", {"Content-Length": "9" * 5000}, 400), ("/pages/0", b"", {"Content-Length": "-1"}, 400),
            ("/pages/0", None, {"Transfer-Encoding": "chunked"}, 411), ("/pages/0", b"9" * (server.LIMIT + 1), {}, 413)):
        status, body = asked(port, path, body, headers)
        held.tell(status == wanted and body.count(b"\n") == 1,
                  f"{path} with {str(headers)[:60]} has status {wanted} and one line: {status} {body}")
    with changed(server, SECONDS=1):
        status, body = asked(port, "/pages/300", SLOW)
    held.tell(status == 504 and body.count(b"\n") == 1, f"a job that takes long ends in one line: {status} {body[:200]}")
    status, body = asked(port, "/preview/300/0/0", MANY)
    held.tell(status == 413 and body.count(b"\n") == 1, f"an answer that is too long is a line: {status} {body[:200]}")
    connection = http.client.HTTPConnection("127.0.0.1", port, timeout=PATIENCE)
    connection.request("POST", "/pages/300", SLOW)
    held.tell(in_time(lambda: not has_turns()), "a job that takes long has a turn")
    connection.close()
    held.tell(in_time(has_turns), "and loses it when nobody waits any more")


@contextlib.contextmanager
def changed(thing, **values):
    """Gives attributes other values for a block."""
    before = {name: getattr(thing, name) for name in values}
    for name, value in values.items():
        setattr(thing, name, value)
    try:
        yield
    finally:
        for name, value in before.items():
            setattr(thing, name, value)


def has_turns():
    """Whether no call runs."""
    turns = server.Handler.running
    taken = [turns.acquire(blocking=False) for _ in range(server.CALLS)]
    for _ in filter(None, taken):
        turns.release()
    return all(taken)


class Calls:
    """Notes which calls the server makes, and holds some back."""

    def __init__(self, *held_back):
        self.made, self.held_back, self.free, self.plain = [], held_back, threading.Event(), server.call_in_process

    def __call__(self, call, numbers, job, is_awaited):
        self.made.append((call, *numbers))
        if call in self.held_back:
            self.free.wait(PATIENCE)
        return self.plain(call, numbers, job, is_awaited)


def keep(port, job):
    """The path of a job that the server keeps from now on."""
    return "/kept/" + json.loads(asked(port, "/keep", job)[1])["digest"]


def test_kept(held, port, program, jobs):
    """What is asked of jobs that the server keeps: it is the same, and made once."""
    for name in jobs:
        with open(os.path.join(program.folder, name), "rb") as file:
            job = file.read()
        path = keep(port, job)
        held.tell(path == "/kept/" + hashlib.sha256(job).hexdigest(), f"{name} is kept by its digest: {path}")
        for call in ("/count/0", "/pages/0", "/preview/0/1/1", "/grey/0/1/1/8", "/shrink/0", "/explain/0", "/preview/0/1/9"):
            wanted, calls = asked(port, call, job), Calls()
            with changed(server, call_in_process=calls):
                got = [asked(port, path + call, None) for _ in range(2)]
            held.tell(got == [wanted] * 2, f"{call} of {name} is the same where it is kept")
            is_image = json.loads(wanted[1].split(b"\n", 1)[0])["fault"] == 0
            held.tell(len(calls.made) == 1 or not is_image, f"{call} of {name} is made once: {calls.made}")
    path, calls = keep(port, MANY), Calls()
    with changed(server, call_in_process=calls):
        pages = [asked(port, path + call, None)[1].split(b"\n", 1)[1] for call in ("/count/0", "/preview/300/9/9", "/preview/300/16/16")]
        greys = [asked(port, path + f"/grey/300/{first}/{min(first + 7, PAGES)}/15", None)[1] for first in range(1, PAGES + 1, 8)]
    held.tell(sorted(calls.made) == [("count", 0), ("grey", 300, 1, 64, 15), ("grey", 300, 65, PAGES, 15), ("preview", 300, 9, 16)],
              f"pages are made together: {calls.made}")
    with open(os.path.join(program.folder, "many.pcl"), "wb") as file:
        file.write(MANY)
    for page, made in zip((9, 16), pages[1:]):
        held.tell(made == program.run("pbm", "--page", str(page), "many.pcl")[0], f"page {page} is the program's")
    made = b"".join(grey.split(b"\n", 1)[1] for grey in greys)
    held.tell(made == program.run("pgm", "--drivers", "--scale", "15", "many.pcl")[0], "the greys of many pages are the program's")
    for path, body, headers, wanted in (("/kept/0/pages/0", None, {}, 410), ("/kept", None, {}, 404), (path, None, {}, 404),
                                        (path + "/remove/0", None, {}, 404), (path + "/pages/0", b"job", {}, 400),
                                        (path + "/pages/0", None, {"Host": "example.com"}, 403), ("/keep", None, {"Host": "a"}, 403)):
        status, body = asked(port, path, body, headers)
        held.tell(status == wanted and body.count(b"\n") == 1, f"{path} has status {wanted} and one line: {status} {body[:200]}")


def test_room(held):
    """What is kept goes where there is no room, and when its time is over."""
    kept = server.Kept(100, 3, 60)
    for name, size in (("a", 40), ("b", 30), ("c", 30)):
        kept.keep(name, b"0" * size)
    held.tell(kept.found("a") == b"0" * 40 and kept.left == 0, "as many bytes are kept as there is room for")
    kept.keep("d", b"0" * 20)
    held.tell(list(kept.entries) == ["c", "a", "d"] and kept.left == 10, f"what was used longest ago goes first: {list(kept.entries)}")
    kept.keep("e", b"0")
    held.tell(list(kept.entries) == ["a", "d", "e"], f"and goes where there are too many: {list(kept.entries)}")
    kept.keep("f", b"0" * 101)
    held.tell(kept.found("f") is None and len(kept.entries) == 3, "what has no room at all isn't kept, and nothing goes for it")
    kept.keep("g", b"0")
    kept.seconds = -1
    kept.forget()
    held.tell(not kept.entries and kept.left == 100, "what isn't used any more goes")


def test_colours(held, port, program, jobs):
    """A page in colours has the program's dots, each in one colour; what bytes are for is all bytes of the job."""
    for name in jobs:
        with open(os.path.join(program.folder, name), "rb") as file:
            came = file.read()
        resolution = program.resolution(name)
        for job in (came, asked(port, "/shrink/" + resolution, came)[1].split(b"\n", 1)[1]):
            listed, images = asked(port, f"/colours/{resolution}/1", job)[1].split(b"\n", 2)[1:]
            layers = [int.from_bytes(image.split(b"\n", 2)[2], "big") for image in server.split_images(images)]
            whole = program.run("pbm", "--drivers", "--dpi", resolution, "--page", "1", name)[0]
            dots = int.from_bytes(whole.split(b"\n", 2)[2], "big")
            held.tell(sum(layers) == dots == functools.reduce(operator.or_, layers, 0) and len(json.loads(listed)) == len(layers),
                      f"page 1 of {name} has the program's dots in colours, each once")
            purposes = json.loads(asked(port, f"/purposes/{resolution}", job)[1].split(b"\n", 1)[1])
            held.tell(sum(part["bytes"] for part in purposes) == len(job), f"all bytes of {name} are for something: {purposes}")
    listed = json.loads(asked(port, "/purposes/300", lettered())[1].split(b"\n", 1)[1])
    wanted = ["letters of fonts", "letters of macros", "rectangles", "rasters", "moves", "the rest"]
    held.tell(list(dict.fromkeys(part["purpose"] for part in listed if part["bytes"])) == wanted, f"each purpose is there: {listed}")
    for path, fault in (("/colours/300/3", 1), ("/colours/0/1", 3), ("/purposes/0", 3)):
        head = json.loads(asked(port, path, lettered())[1].split(b"\n", 1)[0])
        held.tell(head["fault"] == fault and head["line"], f"{path} has fault {fault}: {head}")
    with changed(server, COLOURS_SECONDS=1):
        status, body = asked(port, "/colours/300/1", SLOW_IN_COLOURS)
    held.tell(status == 504 and body.count(b"\n") == 1, f"colours that take long end in one line: {status} {body[:200]}")


def started(port, length):
    """A connection by which the first byte of a job was sent."""
    connection = socket.create_connection(("127.0.0.1", port), PATIENCE)
    connection.sendall(f"POST /pages/0 HTTP/1.1\r\nHost: 127.0.0.1:{port}\r\nContent-Length: {length}\r\n\r\n".encode() + b"\x1b")
    return connection


def in_time(holds):
    """Whether something holds within the time that one is patient."""
    end = time.monotonic() + PATIENCE
    while not holds() and time.monotonic() < end:
        time.sleep(0.02)
    return holds()


def test_bounds(held, port):
    """How much the server holds at once, and how long it waits."""
    handler, job = server.Handler, JOBS["two.pcl"]
    uploads = [started(port, server.LIMIT) for _ in range(server.HELD // server.LIMIT)]
    held.tell(in_time(lambda: handler.room.left == 0), "jobs that are awaited take room")
    status, body = asked(port, "/pages/0", job)
    held.tell(status == 503 and body.count(b"\n") == 1, f"where there is no room a job ends in one line: {status} {body}")
    for upload in uploads:
        upload.close()
    held.tell(in_time(lambda: handler.room.left == server.HELD), "a cut job gives its room back")
    held.tell(asked(port, "/pages/0", job)[0] == 200, "there is room again")
    patience, handler.timeout = handler.timeout, 1
    upload, start = started(port, server.LIMIT), time.monotonic()
    upload.settimeout(0.1)
    answer = b""
    while not answer and time.monotonic() < start + PATIENCE:
        upload.sendall(b"0")
        try:
            answer = upload.recv(1 << 16)
        except socket.timeout:
            pass
    held.tell(b" 408 " in answer and time.monotonic() < start + 10, f"a job that comes slowly ends in one line: {answer}")
    held.tell(in_time(lambda: handler.room.left == server.HELD), "a slow job gives its room back")
    upload.close()
    handler.timeout = patience
    idle = [socket.create_connection(("127.0.0.1", port)) for _ in range(server.CONNECTIONS)]
    late = socket.create_connection(("127.0.0.1", port), PATIENCE)
    late.sendall(f"GET / HTTP/1.1\r\nHost: 127.0.0.1:{port}\r\n\r\n".encode())
    late.settimeout(0.5)
    try:
        early = late.recv(1)
    except socket.timeout:
        early = None
    held.tell(early is None, "a connection too many waits")
    for connection in idle:
        connection.close()
    late.settimeout(PATIENCE)
    held.tell(late.recv(12) == b"HTTP/1.1 200", "and is served when others have ended")
    late.close()


# ---- Chromium, by its debugging protocol over a pipe

class Browser:
    """One page in Chromium without a window."""

    def __init__(self, folder):
        to_browser, self.out = os.pipe()
        self.into, from_browser = os.pipe()
        words = [CHROMIUM, "--headless", "--no-sandbox", "--disable-gpu", "--remote-debugging-pipe", "--disable-dev-shm-usage",
                 "--user-data-dir=" + os.path.join(folder, "profile"), "--window-size=1280,800", "about:blank"]

        def take_pipes():
            # The protocol is spoken on the descriptors 3 and 4.
            high = [os.dup(descriptor) for descriptor in (to_browser, from_browser)]
            high = [os.dup2(descriptor, 100 + index) for index, descriptor in enumerate(high)]
            os.dup2(high[0], 3)
            os.dup2(high[1], 4)

        self.process = subprocess.Popen(words, preexec_fn=take_pipes, close_fds=False, stdout=subprocess.DEVNULL,
                                        stderr=subprocess.DEVNULL)
        os.close(to_browser)
        os.close(from_browser)
        self.number, self.session, self.unread = 0, None, b""
        self.faults = []
        self.open_tab()

    def open_tab(self):
        """Opens a tab, to which goes what is sent from now on; what it is gone back to by."""
        before, self.session = self.session, None
        target = self.send("Target.createTarget", url="about:blank")["targetId"]
        self.session = self.send("Target.attachToTarget", targetId=target, flatten=True)["sessionId"]
        for domain in ("Page", "Runtime", "DOM", "Log"):
            self.send(domain + ".enable")
        return before

    def go(self, address):
        """Goes to the page of the server."""
        self.send("Page.navigate", url=address)
        self.wait("document.readyState === 'complete' && typeof openFile === 'function'")

    def forget_status(self, status):
        """Drops what the browser itself notes of answers with a status."""
        self.faults = [fault for fault in self.faults if f"status of {status}" not in fault]

    def message(self):
        """The next message of the browser."""
        while b"\0" not in self.unread:
            read = os.read(self.into, 1 << 20)
            if not read:
                sys.exit("Chromium has ended")
            self.unread += read
        first, self.unread = self.unread.split(b"\0", 1)
        return json.loads(first)

    def send(self, method, **parameters):
        """What the browser answers to a command."""
        self.number += 1
        command = {"id": self.number, "method": method, "params": parameters}
        if self.session:
            command["sessionId"] = self.session
        os.write(self.out, json.dumps(command).encode() + b"\0")
        while True:
            message = self.message()
            if message.get("id") == self.number:
                if "error" in message:
                    sys.exit(f"{method}: {message['error']}")
                return message["result"]
            self.note(message)

    def note(self, message):
        """Keeps what the browser says of a fault in the page."""
        entry = message.get("params", {}).get("entry", {})
        if message.get("method") == "Runtime.exceptionThrown" or entry.get("level") == "error":
            self.faults.append(json.dumps(message["params"]))

    def value(self, expression):
        """The value of an expression in the page, which may be a promise."""
        got = self.send("Runtime.evaluate", expression=expression, awaitPromise=True, returnByValue=True)
        if "exceptionDetails" in got:
            sys.exit(f"{expression}: {got['exceptionDetails']}")
        return got["result"].get("value")

    def wait(self, expression):
        """Waits until an expression is true; whether it was in time."""
        end = time.monotonic() + PATIENCE
        while time.monotonic() < end:
            if self.value(f"Boolean({expression})"):
                return True
            time.sleep(0.05)
        return False

    def press(self, key):
        """Presses a key."""
        self.send("Input.dispatchKeyEvent", type="rawKeyDown", key=key)
        self.send("Input.dispatchKeyEvent", type="keyUp", key=key)

    def resize(self, width, height, ratio=1):
        """Gives the page a size, as on a phone where it is narrow, and this many pixels of the screen for one of its own."""
        self.send("Emulation.setDeviceMetricsOverride", width=width, height=height, deviceScaleFactor=ratio, mobile=width < 500)

    def choose(self, path):
        """Gives a file to the page's input."""
        root = self.send("DOM.getDocument")["root"]["nodeId"]
        node = self.send("DOM.querySelector", nodeId=root, selector="#file")["nodeId"]
        self.send("DOM.setFileInputFiles", nodeId=node, files=[path])

    def close(self):
        """Ends the browser that was started here."""
        self.send("Browser.close")
        self.process.wait(PATIENCE)


# The size of the canvas and its dots, as the header and the rows of a PBM image in P4.
CANVAS = """(() => {
  const canvas = document.getElementById("page");
  const pixels = canvas.getContext("2d").getImageData(0, 0, canvas.width, canvas.height).data;
  const rowBytes = (canvas.width + 7) >> 3;
  const rows = new Uint8Array(rowBytes * canvas.height);
  for (let y = 0; y < canvas.height; y++) for (let x = 0; x < canvas.width; x++) {
    const pixel = 4 * (y * canvas.width + x);
    if (pixels[pixel] === 0) rows[y * rowBytes + (x >> 3)] |= 128 >> (x & 7);
    else if (pixels[pixel] !== 255) throw new Error("a grey dot");
  }
  const header = new TextEncoder().encode(`P4\\n${canvas.width} ${canvas.height}\\n`);
  return crypto.subtle.digest("SHA-256", new Uint8Array([...header, ...rows]))
    .then(digest => [...new Uint8Array(digest)].map(byte => byte.toString(16).padStart(2, "0")).join(""));
})()"""


# The small pictures as PGM images in P5, and whether each is as wide as its pixels are on the screen.
SMALL = """Promise.all([...document.querySelectorAll("nav canvas")].map(async canvas => {
  const pixels = canvas.getContext("2d").getImageData(0, 0, canvas.width, canvas.height).data;
  const header = new TextEncoder().encode(`P5\\n${canvas.width} ${canvas.height}\\n255\\n`);
  const image = new Uint8Array([...header, ...pixels.filter((_, at) => at % 4 === 0)]);
  const digest = [...new Uint8Array(await crypto.subtle.digest("SHA-256", image))].map(byte => byte.toString(16).padStart(2, "0")).join("");
  return [digest, canvas.getBoundingClientRect().width * devicePixelRatio === canvas.width];
}))"""
# Whether each small picture is drawn.
DRAWN = "[...document.querySelectorAll('nav canvas')].every(canvas => 'drawn' in canvas.dataset)"
# The width, the height and the greys of the page where it is smaller, and the mean grey of the first small picture.
GREYS = """(() => {
  const greys = canvas =>
    [...canvas.getContext("2d").getImageData(0, 0, canvas.width, canvas.height).data].filter((_, at) => at % 4 === 0);
  const small = greys(document.querySelector("nav canvas"));
  const canvas = element("small");
  return [canvas.width, canvas.height, greys(canvas), small.reduce((sum, grey) => sum + grey) / small.length];
})()"""
# Where everything stands.
PLACES = """JSON.stringify([...document.querySelectorAll("header, header > *, #turning, #turning > *, main, nav, #small, footer")]
  .map(one => { const { x, y, width, height } = one.getBoundingClientRect(); return [one.id, x, y, width, height]; }))"""
# Whether the page's button is seen in the list, whether the whole page is as wide as the window, and whether what is above is one row.
FOLLOWED = """(() => {
  const [list, button] = [element("pages"), document.querySelector("nav [aria-current]")].map(one => one.getBoundingClientRect());
  return button.top >= list.top && button.bottom <= list.bottom;
})()"""
FITS = "document.documentElement.scrollWidth <= innerWidth && document.querySelector('header').scrollWidth <= innerWidth"
IN_A_ROW = """(() => {
  const middles = [...document.querySelectorAll("header > *")].map(one => one.getBoundingClientRect()).filter(one => one.height > 0)
    .map(one => one.top + one.height / 2);
  return Math.max(...middles) - Math.min(...middles) < 4;
})()"""


# Whether each small picture has ink.
INKED = """[...document.querySelectorAll('nav canvas')].map(canvas =>
  canvas.getContext("2d").getImageData(0, 0, canvas.width, canvas.height).data.some((value, at) => at % 4 === 0 && value < 255))"""


def details_of(page):
    """What stands below a page's number: what it asks of the printer, and how much is on it."""
    asked = [SIDES[page["sides"]]] if page["sides"] is not None else []
    for name, key in (("paper source", "source"), ("output bin", "output_bin"), ("media type", "media_type"),
                      ("side of the sheet", "sheet_side")):
        asked += [f"{name} {page[key]}"] if page[key] is not None else []
    black = f"{100 * page['black_dots'] / page['dots']:.2f} % black"
    return ", ".join([*asked, black, f"{page['bytes']:,} bytes as raster"])


def bytes_shown(content, place):
    """The rows of sixteen bytes around a place, in hexadecimal and as text."""
    lines = []
    for at in range(max(0, place // 16 - 4) * 16, min((place // 16 + 4) * 16, len(content)) + 1, 16):
        row = content[at:at + 16]
        text = "".join(chr(byte) if 32 <= byte < 127 else "\u00b7" for byte in row)
        lines.append(f"{at:08x}  {''.join(f'{byte:02x} ' for byte in row):48} {text:16}\n")
    return "".join(lines)


def open_job(held, browser, program, job):
    """Opens a job by the page's input; whether the page shows it."""
    browser.value("element('said').textContent = ''")
    browser.choose(os.path.join(program.folder, job))
    shown = browser.wait(f"element('said').textContent.startsWith({json.dumps(job + ':')})")
    held.tell(shown, f"{job} is opened: {browser.value('element(`said`).textContent')}")
    return shown


def test_pages(held, browser, program, job):
    """The pages of a job on the canvas and in the list."""
    listed, _ = program.run("pages", "--json", "--dpi", "auto", job)
    pages = json.loads(listed)["pages"]
    if not open_job(held, browser, program, job):
        return
    names = browser.value("[...document.querySelectorAll('nav button span')].map(span => span.textContent)")
    wanted = [f"{page['page']}: {page['size']}" + ("" if page["copies"] == 1 else f", {page['copies']} copies") for page in pages]
    held.tell(names == wanted, f"{job} lists {wanted}: {names}")
    details = browser.value("[...document.querySelectorAll('nav button small')].map(small => small.textContent)")
    held.tell(details == list(map(details_of, pages)), f"{job} says of its pages {list(map(details_of, pages))}: {details}")
    exits = [exit for exit in json.loads(listed)["exits"] if exit["lines"]]
    lines = browser.value("""[...document.querySelectorAll('nav pre')]
      .map(text => [text.previousElementSibling.textContent, text.textContent])""")
    wanted = [[f"before page {exit['pages'] + 1}" if exit["pages"] < len(pages) else "at the end", exit["lines"]] for exit in exits]
    held.tell(lines == wanted, f"{job} has the lines {wanted}: {lines}")
    browser.wait("element('view').dataset.page === '1'")
    browser.value("element('dots').click()")
    for number in range(1, len(pages) + 1):
        browser.value(f"document.querySelectorAll('nav button')[{number - 1}].click()")
        held.tell(browser.wait(f"element('view').dataset.page === '{number}' && !element('page').hidden"),
                  f"page {number} of {job} is shown")
        image, _ = program.run("pbm", "--page", str(number), "--dpi", "auto", job)
        held.tell(browser.value(CANVAS) == hashlib.sha256(image).hexdigest(), f"page {number} of {job} has the program's dots")
    held.tell(browser.wait(DRAWN), f"{job} has small pictures")
    compare_small(held, browser, program, job, len(pages), 15 if program.resolution(job) == "300" else 30)
    inked = browser.value(INKED)
    held.tell(inked == [page["black_dots"] > 0 for page in pages], f"the small pictures of {job} have ink where its pages have: {inked}")


def compare_small(held, browser, program, job, pages, scale):
    """The small pictures of a job's pages beside the images that the program makes at a scale."""
    words = ["pgm", "--drivers", "--dpi", "auto", "--scale", str(scale), "--page"]
    wanted = [[hashlib.sha256(program.run(*words, str(page + 1), job)[0]).hexdigest(), True] for page in range(pages)]
    small = browser.value(SMALL)
    held.tell(small == wanted, f"the small pictures of {job} are the program's at {scale}: {small}, {wanted}")


def test_saved(held, browser, program, folder, job):
    """What is saved of a job that is shrunk."""
    open_job(held, browser, program, job)
    browser.wait("element('view').dataset.page === '1' && " + DRAWN)
    before = browser.value(PLACES)
    browser.value("element('shrink').click()")
    held.tell(browser.wait("!element('save').hidden"), f"{job} is shrunk")
    after = browser.value(PLACES)
    held.tell(before == after, f"nothing moves when {job} is shrunk: {before}, {after}")
    browser.send("Browser.setDownloadBehavior", behavior="allow", downloadPath=folder)
    browser.value("element('save').click()")
    saved = os.path.join(folder, os.path.splitext(job)[0] + ".small.pcl")
    end = time.monotonic() + PATIENCE
    while not os.path.exists(saved) and time.monotonic() < end:
        time.sleep(0.05)
    wanted, _ = program.run("shrink", "--dpi", program.resolution(job), job)
    content = b""
    if os.path.exists(saved):
        with open(saved, "rb") as file:
            content = file.read()
    held.tell(content == wanted, f"what is saved of {job} is what the program writes")


def test_refused(held, browser, program, job):
    """The line, the mark and the advice of a job that is refused."""
    _, said = program.run("pbm", "--dpi", "auto", job)
    place = int(said.split(" at ")[1].split()[0])
    with open(os.path.join(program.folder, job), "rb") as file:
        content = file.read()
    open_job(held, browser, program, job)
    held.tell(browser.wait("!element('refusal').hidden && element('advice').textContent !== ''"), f"{job} is refused")
    line = browser.value("element('line').textContent")
    held.tell("pclmin: " + line + "\n" == said, f"{job} is refused as the program says: {line}, {said}")
    marks = browser.value("[...document.querySelectorAll('#bytes mark')].map(mark => [Number(mark.dataset.place), mark.textContent])")
    held.tell([mark[0] for mark in marks] == [place, place] and marks[0][1] == f"{content[place]:02x}",
              f"{job} has its place marked: {marks}")
    shown = browser.value("element('bytes').textContent")
    held.tell(shown == bytes_shown(content, place), f"{job} has its bytes shown: {shown}")
    explained, _ = program.run("explain", "--dpi", "auto", job)
    advice = browser.value("[...document.querySelectorAll('#advice span')].map(span => span.textContent).join('\\n') + '\\n'")
    held.tell(advice.encode("latin-1") == explained, f"{job} is explained as the program does: {advice}")


def test_words(held, browser, program):
    """What was refused before goes, and advice is in words of the page: what to choose there, and nothing of other commands."""
    with open(os.path.join(program.folder, "offset.pcl"), "wb") as file:
        file.write(b"\x1bE\x1b*c90a90b0P\x1b&l30U\x0c\x1bE")
    open_job(held, browser, program, "two.pcl")
    held.tell(browser.wait("element('view').dataset.page === '1'") and
              browser.value("element('refusal').hidden && element('line').textContent + element('advice').textContent === ''"),
              "a refusal goes when another job is opened")
    browser.value("element('resolution').value = '300'")
    open_job(held, browser, program, "fine.pcl")
    held.tell(browser.wait("!element('wanted').hidden"), "a job for another resolution is refused")
    advice = browser.value("element('advice').textContent")
    held.tell("--" not in advice and "\u201c600 dots per inch\u201d chosen above" in advice, f"it is said in words of the page: {advice}")
    browser.value("element('wanted').click()")
    held.tell(browser.wait("element('view').dataset.page === '1' && element('resolution').value === '0'"), "a button chooses it")
    held.tell(browser.value("element('refusal').hidden"), "and the refusal goes")
    open_job(held, browser, program, "offset.pcl")
    held.tell(browser.wait("element('advice').textContent !== ''"), "an offset of a marked page is refused")
    advice = browser.value("element('advice').textContent")
    held.tell("--" not in advice and "min and check" not in advice and "left offset: known on a page without marks" in advice,
              f"no command is named that the page doesn't have: {advice}")


def test_greys(held, browser, program):
    """A page that is 41 percent black: each pixel where it is smaller is the mean of its dots."""
    chance = random.Random(41)
    rows = [bytes(sum((chance.random() < 0.41) << bit for bit in range(8)) for _ in range(300)) for _ in range(64)]
    with open(os.path.join(program.folder, "grey.pcl"), "wb") as file:
        file.write(b"\x1bE\x1b&l2a0E\x1b*p0x0Y\x1b*t300R\x1b*r0A")
        file.write(b"".join(b"\x1b*b300W" + chance.choice(rows) for _ in range(3300)) + b"\x1b*rC\x0c\x1bE")
    page = json.loads(program.run("pages", "--json", "grey.pcl")[0])["pages"][0]
    image = program.run("pbm", "grey.pcl")[0][-300 * 3300:]
    open_job(held, browser, program, "grey.pcl")
    held.tell(browser.wait("element('view').dataset.page === '1' && " + DRAWN), "a grey page is shown")
    width, height, greys, small = browser.value(GREYS)
    wanted = 255 * (1 - page["black_dots"] / page["dots"])
    mean = sum(greys) / len(greys)
    held.tell(abs(page["black_dots"] / page["dots"] - 0.41) < 0.01, f"41 percent are black: {page}")
    held.tell(abs(mean - wanted) < 0.5 and abs(small - wanted) < 0.5,
              f"the page and its small picture are as grey as {wanted}: {mean}, {small}")

    def share(dot, pixel, size):
        """How much of a dot lies in a pixel this many dots wide."""
        return max(0, min(dot + 1, (pixel + 1) * size) - max(dot, pixel * size))

    across, down = 2400 / width, 3300 / height
    wrong = []
    for _ in range(400):
        x, y = chance.randrange(width), chance.randrange(height)
        black = sum(share(row, y, down) * share(dot, x, across)
                    for row in range(int(y * down), min(3300, int((y + 1) * down) + 1))
                    for dot in range(int(x * across), min(2400, int((x + 1) * across) + 1))
                    if image[300 * row + dot // 8] << dot % 8 & 128)
        if abs(greys[y * width + x] - 255 * (1 - black / (across * down))) > 0.51:
            wrong.append((x, y, black, greys[y * width + x]))
    held.tell(not wrong, f"each pixel is the mean of its dots: {wrong[:5]}")
    for ratio, scale in ((1.5, 10), (2, 8), (1, 15)):
        browser.resize(1280, 800, ratio)
        open_job(held, browser, program, "grey.pcl")
        browser.wait("element('view').dataset.page === '1' && " + DRAWN)
        compare_small(held, browser, program, "grey.pcl", 1, scale)


# The pages that small pictures are asked for, in order.
NOTED = """(() => {
  const plain = window.fetch;
  window.asked = [];
  window.fetch = (path, options) => {
    window.asked.push(path);
    return plain(path, options);
  };
})()"""
# The size of each small picture, and whether it is drawn; and whether it is said that something is waited for.
BOXES = "[...document.querySelectorAll('nav canvas')].map(one => [one.offsetWidth, one.offsetHeight, 'drawn' in one.dataset])"
WORKING = "getComputedStyle(element('working')).visibility === 'visible'"


def test_many(held, browser, program):
    """The first of many pages, before more is known than how many there are, and then the small pictures as they come into view."""
    kept = server.Handler.jobs.kept
    with changed(kept, seconds=-1):
        kept.forget()
    calls = Calls("pages", "grey")
    browser.value(NOTED)
    with changed(server, call_in_process=calls):
        browser.choose(os.path.join(program.folder, "many.pcl"))
        is_shown = "element('view').dataset.page === '1' && element('count').textContent === 'of %d'" % PAGES
        held.tell(browser.wait(is_shown), "the first page is shown before the others")
        said = browser.value("element('number').value + ' ' + element('count').textContent + ': ' + element('said').textContent")
        held.tell(said == f"1 of {PAGES}: reading many.pcl: {PAGES} pages ...", f"and how many there are: {said}")
        boxes = browser.value(BOXES)
        held.tell(boxes == [[160, 220, False]] * PAGES, f"and a box for each: {boxes[:3]}")
        held.tell(browser.wait(WORKING + " && element('part').textContent === 'small pictures: 0 of %d'" % PAGES), "and how far it is")
        browser.value("element('pages').children[59].scrollIntoView()")
        calls.free.set()
        held.tell(browser.wait(DRAWN + " && element('said').textContent.startsWith('many.pcl:') && waiting === 0"), "and then the others")
    greys = browser.value("asked.filter(path => path.includes('/grey/')).map(path => path.split('/').slice(5, 7).map(Number))")
    held.tell(greys[0] == [1, 8] and greys[1][0] <= 60 <= greys[1][1], f"small pictures come first where they are in view: {greys}")
    sent = browser.value("asked.filter(path => path === '/keep').length")
    held.tell(sent == 1, f"the job is sent once: {sent}")
    held.tell(not browser.value(WORKING) and browser.value("element('part').textContent") == "", "nothing is waited for any more")
    with changed(kept, seconds=-1):
        kept.forget()
    browser.value("element('pages').children[39].click()")
    held.tell(browser.wait("element('view').dataset.page === '40'"), "what isn't kept any more is sent again")
    browser.forget_status(410)


# When a file was chosen, and when the first page of it is shown, in milliseconds.
TIMED = """(() => {
  const view = element('view');
  delete view.dataset.page;
  window.begun = window.shown = 0;
  element('file').addEventListener('change', () => window.begun = performance.now(), { once: true });
  new MutationObserver((_, observer) => {
    if (view.dataset.page === '1') {
      window.shown = performance.now();
      observer.disconnect();
    }
  }).observe(view, { attributes: true });
})()"""


def test_first(held, browser, program):
    """The first page of a large job is shown within a second, by the best of five times."""
    with open(os.path.join(program.folder, "large.pcl"), "wb") as file:
        file.write(LARGE)
    taken = []
    for _ in range(5):
        with changed(server.Handler.jobs.kept, seconds=-1):
            server.Handler.jobs.kept.forget()
        browser.value(TIMED)
        browser.choose(os.path.join(program.folder, "large.pcl"))
        held.tell(browser.wait("window.shown > 0"), "the first page of a large job is shown")
        taken.append(browser.value("window.shown - window.begun"))
        open_job(held, browser, program, "two.pcl")
    held.tell(0 < min(taken) < 1000, f"the first page of {len(LARGE) >> 20} megabytes is shown within a second: {taken}")


def test_cancel(held, browser, program):
    """A job that takes hours is cancelled, or ends by itself; the next is shown."""
    with open(os.path.join(program.folder, "slow.pcl"), "wb") as file:
        file.write(SLOW)
    browser.choose(os.path.join(program.folder, "slow.pcl"))
    held.tell(browser.wait(WORKING + " && !element('reading').hidden") and not has_turns(), "a job that takes long can be cancelled")
    browser.value("element('cancel').click()")
    held.tell(browser.wait("!element('drop').hidden && element('said').textContent === 'slow.pcl: cancelled'"), "and is")
    held.tell(in_time(has_turns), "and takes no more time then")
    with changed(server, SECONDS=1):
        browser.choose(os.path.join(program.folder, "slow.pcl"))
        held.tell(browser.wait("element('line').textContent.startsWith('the call took more than 1 second')"),
                  "it ends by itself in one line")
    browser.forget_status(504)
    browser.choose(os.path.join(program.folder, "slow.pcl"))
    browser.wait(WORKING)
    open_job(held, browser, program, "two.pcl")
    held.tell(browser.wait("element('view').dataset.page === '1'") and in_time(has_turns), "it ends too when another job is opened")


def test_tabs(held, browser, program, address):
    """Two tabs with jobs of their own, and what is made for one of them there for the other."""
    open_job(held, browser, program, "two.pcl")
    browser.wait("element('view').dataset.page === '1' && waiting === 0 && " + DRAWN)
    first = browser.open_tab()
    browser.go(address)
    open_job(held, browser, program, "asked.pcl")
    held.tell(browser.wait("element('view').dataset.page === '1' && waiting === 0") and browser.value("opened.count") == 4,
              "a second tab has a job of its own")
    calls = Calls()
    with changed(server, call_in_process=calls):
        open_job(held, browser, program, "two.pcl")
        browser.wait("element('view').dataset.page === '1' && waiting === 0 && " + DRAWN)
    held.tell(not calls.made, f"what was made for a tab is there for the other: {calls.made}")
    browser.send("Page.close")
    browser.session = first
    browser.value("element('next').click()")
    held.tell(browser.wait("element('view').dataset.page === '2'") and browser.value("document.title") == "two.pcl - pclmin",
              "the first tab goes on")


# How many pixels of the canvas have each colour, but for white.
COLOURS = """(() => {
  const canvas = element("page");
  const pixels = new Uint32Array(canvas.getContext("2d").getImageData(0, 0, canvas.width, canvas.height).data.buffer);
  const counts = {};
  for (const pixel of pixels) if (pixel !== 0xffffffff) counts[pixel] = (counts[pixel] ?? 0) + 1;
  return Object.entries(counts).map(([pixel, count]) => [[pixel & 255, pixel >> 8 & 255, pixel >> 16 & 255], count]);
})()"""
# The rows of the legend.
LEGEND = "[...element('purposes').querySelectorAll('tr')].map(row => [...row.children].map(cell => cell.textContent))"


def colours_wanted(port, path, page):
    """How many dots of a page have each colour."""
    listed, images = asked(port, f"{path}/colours/300/{page}", None)[1].split(b"\n", 2)[1:]
    counts = [bin(int.from_bytes(image.split(b"\n", 2)[2], "big")).count("1") for image in server.split_images(images)]
    return sorted([layer["colour"], count] for layer, count in zip(json.loads(listed), counts) if count)


def test_where(held, browser, program, port):
    """Where bytes go: the page in colours, of both jobs, and the legend."""
    job = lettered()
    for name, content in (("lettered.pcl", job), ("slow_in_colours.pcl", SLOW_IN_COLOURS)):
        with open(os.path.join(program.folder, name), "wb") as file:
            file.write(content)
    smaller = program.run("shrink", "--dpi", "300", "lettered.pcl")[0]
    open_job(held, browser, program, "lettered.pcl")
    browser.wait("element('view').dataset.page === '1'")
    for pressed, content in (("element('dots').click(); element('colours').click()", smaller),
                             ("delete element('view').dataset.coloured; element('which').querySelector('input').click()", job)):
        browser.value(pressed)
        held.tell(browser.wait("element('view').dataset.coloured === '1' && waiting === 0"), "the page is drawn in colours")
        wanted, seen = colours_wanted(port, keep(port, content), 1), sorted(browser.value(COLOURS))
        held.tell(seen == wanted, f"each dot has its colour: {seen}, {wanted}")
    rows = browser.value(LEGEND)
    held.tell(rows[-1] == ["the whole job", f"{len(job):,}", f"{len(smaller):,}"], f"the legend tells all bytes: {rows}")
    whole = [row for row in rows[1:-1] if row[0] not in ("patterns", "codes", "calls")]
    sums = [sum(int(row[column].replace(",", "")) for row in whole) for column in (1, 2)]
    held.tell(sums == [len(job), len(smaller)], f"each byte is told once: {rows}")
    held.tell(len(whole) == 6 and len(browser.value(COLOURS)) == 4, f"each purpose has a line, and each way a colour: {rows}")
    browser.press("PageDown")
    held.tell(browser.wait("element('view').dataset.coloured === '2'"), "the page after is in colours too")
    browser.value("element('colours').click()")
    browser.wait("element('legend').hidden && waiting === 0")
    time.sleep(0.5)
    image = program.run("pbm", "--page", "2", "lettered.pcl")[0]
    held.tell(browser.value(CANVAS) == hashlib.sha256(image).hexdigest(), "the button takes the colours away")
    open_job(held, browser, program, "slow_in_colours.pcl")
    browser.wait("element('view').dataset.page === '1' && waiting === 0")
    with changed(server, COLOURS_SECONDS=1):
        browser.value("element('which').querySelector('input').click(); element('colours').click()")
        held.tell(browser.wait("element('note').textContent.includes('in colours: the call took more than 1 second')"),
                  f"colours that take long are said to: {browser.value('element(`note`).textContent')}")
        browser.wait("waiting === 0")
    held.tell(not browser.value("element('small').hidden && element('page').hidden"), "and the page is seen without")
    browser.forget_status(504)
    open_job(held, browser, program, "lettered.pcl")
    held.tell(browser.wait("element('view').dataset.coloured === '1' && waiting === 0") and browser.value(LEGEND)[-1] == rows[-1],
              "the next job is in colours too")
    browser.value("element('colours').click()")


def test_keys(held, browser, program):
    """The keys and the number that turn pages, with the list beside them."""
    open_job(held, browser, program, "many.pcl")
    browser.wait("element('view').dataset.page === '1' && " + DRAWN)
    for key, page in (("PageDown", 2), ("ArrowRight", 3), ("ArrowDown", 4), ("PageUp", 3), ("ArrowLeft", 2), ("ArrowUp", 1),
                      ("ArrowUp", 1), ("End", PAGES), ("PageDown", PAGES), ("Home", 1)):
        browser.press(key)
        held.tell(browser.wait(f"element('view').dataset.page === '{page}'"), f"{key} leads to page {page}")
        said = browser.value("element('number').value + ' ' + element('count').textContent")
        held.tell(said == f"{page} of {PAGES}", f"page {page} of {PAGES} is said: {said}")
        held.tell(browser.value(FOLLOWED), f"the list follows {key}")
    for word, page in (("13", 13), ("999", PAGES), ("x", PAGES), ("0", 1), ("-4", 1)):
        browser.value(f"element('number').focus(); element('number').value = '{word}'")
        browser.value("element('number').dispatchEvent(new Event('change'))")
        held.tell(browser.wait(f"element('view').dataset.page === '{page}'"), f"the number {word} leads to page {page}")
        held.tell(browser.value(FOLLOWED + f" && element('number').value === '{page}'"), f"the list follows the number {word}")
    for _ in range(20):
        browser.press("ArrowRight")
    held.tell(browser.wait("element('view').dataset.page === '21'"), "a key that is held leads as far as it was pressed")
    browser.value("element('dots').click(); document.querySelectorAll('nav button')[20].focus()")
    browser.press("ArrowDown")
    held.tell(browser.wait("element('view').dataset.page === '22' && document.activeElement === element('pages').children[21]"),
              "the focus goes with the list")


def test_phone(held, browser, program):
    """The page at 390 by 844."""
    browser.resize(390, 844)
    open_job(held, browser, program, "many.pcl")
    held.tell(browser.wait("element('view').dataset.page === '1'"), "a page is shown on a phone")
    held.tell(browser.value(FITS + " && " + IN_A_ROW), f"what is above is one row of a phone: {browser.value(PLACES)}")
    held.tell(browser.value("element('pages').offsetWidth === 0 && element('small').offsetWidth > 300"), "the list is folded away")
    browser.value("element('list').click()")
    held.tell(browser.value("element('pages').offsetWidth === 390 && element('list').ariaExpanded === 'true'"), "and comes")
    browser.value("document.querySelectorAll('nav button')[6].click()")
    held.tell(browser.wait("element('view').dataset.page === '7' && element('pages').offsetWidth === 0"), "and goes when a page is chosen")
    browser.value("element('next').click()")
    held.tell(browser.wait("element('view').dataset.page === '8'"), "a button turns the page")
    browser.value("element('colours').click()")
    held.tell(browser.wait("element('view').dataset.coloured === '8' && waiting === 0"), "a page is in colours on a phone")
    held.tell(browser.value(FITS + " && " + IN_A_ROW + " && element('small').offsetHeight > 200 && element('legend').offsetWidth === 390"),
              f"the page is seen above the legend: {browser.value(PLACES)}")
    browser.value("element('colours').click()")
    open_job(held, browser, program, REFUSED)
    browser.wait("element('advice').textContent !== ''")
    seen = browser.value("""[document.querySelector("#bytes mark").getBoundingClientRect()].every(one =>
      one.left >= 0 && one.right <= innerWidth && one.bottom <= innerHeight)""")
    held.tell(seen and browser.value(FITS), "the marked byte is in view on a phone")
    browser.resize(1280, 800)


def test_photograph(held, browser, program):
    """A photograph where it is smaller: as grey as its dots in the mean."""
    open_job(held, browser, program, "picture.pcl")
    held.tell(browser.wait("element('view').dataset.page === '1' && " + DRAWN), "a picture is shown")
    page = json.loads(program.run("pages", "--json", "picture.pcl")[0])["pages"][0]
    browser.value("element('fit').click()")
    browser.wait("element('page').hidden")
    _, _, greys, small = browser.value(GREYS)
    mean, wanted = sum(greys) / len(greys), 255 * (1 - page["black_dots"] / page["dots"])
    held.tell(abs(mean - wanted) < 0.5 and abs(small - wanted) < 1, f"the picture is as grey as {wanted}: {mean}, {small}")


def test_full(held, browser, program):
    """A job that is opened while the server has no room."""
    room = server.Handler.room
    in_time(lambda: room.left == server.HELD)
    with room.taken(server.HELD):
        browser.choose(os.path.join(program.folder, "two.pcl"))
        time.sleep(0.5)
        held.tell(browser.value("element('said').textContent") == "reading two.pcl ...", "a job waits for room")
    held.tell(browser.wait("element('view').dataset.page === '1'"), "and is shown when there is some")
    browser.forget_status(503)


def test_sample(held, browser):
    """The first page, and the job that it offers."""
    held.tell(browser.value("!element('drop').hidden && element('sample').offsetWidth > 0"),
              "there is a place to drop a job, and a sample")
    browser.value("element('sample').click()")
    held.tell(browser.wait("element('view').dataset.page === '1' && " + DRAWN), "the sample is shown")
    held.tell(browser.value(INKED) == [True, True], "the sample has ink")


def test_drop(held, browser, job):
    """A file that is dropped on the page."""
    content = json.dumps(base64.b64encode(JOBS[job]).decode())
    browser.value(f"""(() => {{
      const dropped = new DataTransfer();
      dropped.items.add(new File([Uint8Array.from(atob({content}), letter => letter.charCodeAt(0))], "dropped.pcl"));
      document.body.dispatchEvent(new DragEvent("drop", {{ dataTransfer: dropped, bubbles: true, cancelable: true }}));
    }})()""")
    held.tell(browser.wait("element('said').textContent.startsWith('dropped.pcl:')"), "a dropped job is opened")


def test_zoom(held, browser):
    """The keys and buttons that change the size of the page."""
    held.tell(browser.wait("element('view').dataset.page === '1'"), "the page is shown")
    for what, wanted in (("document.body.dispatchEvent(new KeyboardEvent('keydown', { key: '1', bubbles: true }))", "100 %"),
                         ("element('larger').click()", "200 %"), ("element('smaller').click()", "100 %")):
        browser.value(what)
        zoom = browser.value("element('zoom').textContent")
        held.tell(zoom == wanted, f"{what} leads to {wanted}: {zoom}")
    browser.value("element('fit').click()")
    browser.wait("element('page').hidden")
    seen = browser.value("""(() => {
      const small = element("small").getBoundingClientRect();
      return small.height > 300 && small.height <= element("view").clientHeight && element("page").hidden;
    })()""")
    held.tell(seen, "the whole page is seen")


def test_page(held, address, program, folder, jobs, picture):
    """The page in Chromium."""
    browser = Browser(folder)
    browser.go(address)
    test_sample(held, browser)
    for job in jobs:
        if job == REFUSED:
            test_refused(held, browser, program, job)
        else:
            test_pages(held, browser, program, job)
    test_refused(held, browser, program, REFUSED)
    test_words(held, browser, program)
    test_greys(held, browser, program)
    test_photograph(held, browser, program)
    test_many(held, browser, program)
    test_first(held, browser, program)
    test_cancel(held, browser, program)
    test_tabs(held, browser, program, address)
    test_where(held, browser, program, int(address.strip("/").rsplit(":", 1)[1]))
    test_keys(held, browser, program)
    test_phone(held, browser, program)
    test_full(held, browser, program)
    test_drop(held, browser, "two.pcl")
    test_saved(held, browser, program, folder, "picture.pcl")
    test_zoom(held, browser)
    held.tell(not browser.faults, f"nothing fails in the page: {browser.faults}")
    if picture:
        taken = browser.send("Page.captureScreenshot", format="png")["data"]
        with open(picture, "wb") as file:
            file.write(base64.b64decode(taken))
    browser.close()


def main():
    parser = argparse.ArgumentParser(description="Tests the page that shows jobs.")
    parser.add_argument("program", nargs="?", default=os.path.join(TOP, "build/pclmin"))
    parser.add_argument("--picture", help="a file for a picture of the page")
    words = parser.parse_args()
    if not os.path.exists(words.program):
        sys.exit(f"there is no {words.program}: run make build first")
    held = Held()
    with tempfile.TemporaryDirectory() as folder:
        for name, content in JOBS.items():
            with open(os.path.join(folder, name), "wb") as file:
                file.write(content)
        for name in ("dot.pcl", "picture.pcl"):
            shutil.copy(os.path.join(TOP, "examples", name), folder)
        jobs = ["dot.pcl", *JOBS, "picture.pcl"]
        program = Program(os.path.abspath(words.program), folder)
        serving = server.make_server(0)
        threading.Thread(target=serving.serve_forever, daemon=True).start()
        port = serving.server_address[1]
        test_server(held, port, program, jobs)
        test_bounds(held, port)
        test_kept(held, port, program, jobs)
        test_room(held)
        test_colours(held, port, program, [job for job in jobs if job != REFUSED])
        if CHROMIUM:
            test_page(held, f"http://127.0.0.1:{port}/", program, folder, jobs, words.picture)
        else:
            print("there is no Chromium: the page itself isn't tested")
        serving.shutdown()
    print(f"{held.yes} comparisons hold, {held.no} don't")
    sys.exit(1 if held.no else 0)


if __name__ == "__main__":
    main()
