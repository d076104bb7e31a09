#!/usr/bin/env python3
"""Serves the page of this folder to this machine, and answers what it asks of a job by the calls of build/libpclmin.so (make web), and
where the job's bytes go by tools/colours.py.

    web/server.py [--port PORT]        PORT is 8631 where none is given, and any free one by 0

It listens on 127.0.0.1 alone, opens no other connection, and writes no file. A job that is to be kept stays in memory, with what was
made of it, for KEPT_SECONDS after its last use; what was used longest ago goes earlier where there is no room. Each call runs in a
process of its own, which has SECONDS of processor time and MEMORY bytes, and which ends when nobody waits for it any more. So a job
that would run for hours ends in one line, as any fault does. So does one that would have more than HELD bytes held at once, or that
doesn't come within a minute; past CONNECTIONS others wait.
"""
import argparse
import collections
import contextlib
import hashlib
import http.server
import io
import json
import os
import re
import resource
import select
import socket
import subprocess
import sys
import threading
import time

HERE = os.path.dirname(os.path.abspath(__file__))
sys.path[:0] = [os.path.join(HERE, "..", "lib"), os.path.join(HERE, "..", "tools")]
sys.dont_write_bytecode = True

# The most bytes of a job or of an answer, and of all that are held at once; and how many connections are served at once.
LIMIT, HELD, CONNECTIONS = 64 << 20, 256 << 20, 32
# How many bytes are kept, as how many jobs and answers, and for how long after their last use.
KEPT, KEPT_NUMBER, KEPT_SECONDS = 256 << 20, 1 << 12, 600
# What a call has, and how many run at once; and what one has that tools/colours.py answers, which is slower.
SECONDS, MEMORY, CALLS = 60, 4 << 30, 4
COLOURS_SECONDS = 30
# The calls, and how many numbers each takes after the resolution.
NUMBERS = {"count": 0, "pages": 0, "preview": 2, "grey": 3, "shrink": 0, "explain": 0, "colours": 1, "purposes": 0}
COLOURS_CALLS = ("colours", "purposes")
IMAGES = ("preview", "grey")
# How many pages are made together, so that their images have fewer bytes than an answer may; of greys it is by their scale too.
PAGES_TOGETHER, GREYS_TOGETHER = 8, 64
# How many seconds pass before it is looked whether somebody still waits for an answer.
PATIENCE = 0.2
# The status of a call's process whose answer is too long.
TOO_LONG = 3

POLICY = "default-src 'none'; script-src 'unsafe-inline'; style-src 'unsafe-inline'; connect-src 'self'; img-src blob: data:"


def answered(call, numbers, job):
    """What a call answers: a line of JSON, and the bytes that were made."""
    import pclmin

    function = getattr(pclmin, {"count": "page_count"}.get(call, call))
    answer = answer_of(function, call, numbers, job)
    head = {name: getattr(answer, name) for name in ("fault", "place", "resolution", "line", "pages")}
    head["kind"] = pclmin.KINDS[answer.kind]
    return head, answer.bytes


def answer_of(function, call, numbers, job):
    """What the library answers. Where a job says its resolution itself, that is mostly 300, so this is tried alone first: an answer is
    the same then, but for `explain`, which refuses no job, and `shrink`, which looks at both."""
    import pclmin

    resolution, *others = numbers
    if resolution == 0 and call not in ("explain", "shrink"):
        answer = function(job, 300, *others)
        if answer.fault != pclmin.REFUSED:
            return answer
    return function(job, resolution, *others)


def coloured(call, numbers, job):
    """What tools/colours.py answers, in the same form: of a page a line that lists the ways in which its dots were sent, and an image of
    the dots of each; of the job a line that lists what its bytes are for."""
    import colours

    resolution, *number = numbers
    head = {"fault": 0, "place": 0, "resolution": resolution, "line": "", "pages": 0, "kind": ""}
    if resolution not in (300, 600):
        return {**head, "fault": 3, "line": "a resolution is 300 or 600 here"}, b""
    try:
        if call == "purposes":
            return head, colours.purposes_listed(job)
        return head, colours.page_in_colours(job, resolution, *number)
    except (colours.reference.Refused, colours.NoPage) as fault:
        return {**head, "fault": 1, "line": f"{fault}"}, b""


def call_alone(seconds, call, numbers):
    """The process of one call: a job on standard input, and its answer on standard output."""
    resource.setrlimit(resource.RLIMIT_CPU, (seconds, seconds + 1))
    resource.setrlimit(resource.RLIMIT_AS, (MEMORY, MEMORY))
    head, made = (coloured if call in COLOURS_CALLS else answered)(call, numbers, sys.stdin.buffer.read())
    if len(made) > LIMIT:
        sys.exit(TOO_LONG)
    sys.stdout.buffer.write(json.dumps(head).encode() + b"\n" + made)


def seconds_of(call):
    """How many seconds of processor time a call has."""
    return COLOURS_SECONDS if call in COLOURS_CALLS else SECONDS


def call_in_process(call, numbers, job, is_awaited):
    """What a call in a process of its own answers. That ends early where nobody waits for it."""
    seconds = seconds_of(call)
    words = [sys.executable, os.path.abspath(__file__), "--call", str(seconds), call, *map(str, numbers)]
    with subprocess.Popen(words, stdin=subprocess.PIPE, stdout=subprocess.PIPE, stderr=subprocess.DEVNULL) as process:
        try:
            answer = awaited(process, job, time.monotonic() + 4 * seconds, is_awaited)
        finally:
            process.kill()
    if process.returncode == TOO_LONG:
        raise Fault(413, f"the answer has more than {LIMIT >> 20} megabytes: ask for fewer pages")
    if process.returncode != 0:
        raise Fault(504, f"the call took more than {seconds} seconds or {MEMORY >> 30} gigabytes")
    return answer


def feed(pipe, job):
    """Gives a process its job, which it may end without."""
    with contextlib.suppress(OSError), pipe:
        pipe.write(job)


def awaited(process, job, deadline, is_awaited):
    """What a process writes that gets a job, until a deadline, and as long as somebody waits."""
    threading.Thread(target=feed, args=(process.stdin, job), daemon=True).start()
    process.stdin = None
    while time.monotonic() < deadline:
        try:
            return process.communicate(timeout=PATIENCE)[0]
        except subprocess.TimeoutExpired:
            if not is_awaited():
                raise Gone from None
    return b""


class Fault(Exception):
    """Why a request isn't answered: a status, and one line."""


class Gone(OSError):
    """Who asked doesn't wait any more."""


def call_of(words):
    """The call that words name, and its numbers: CALL RESOLUTION, and where the call takes more, RESOLUTION FIRST LAST SCALE."""
    call, *numbers = words or [""]
    if len(numbers) != NUMBERS.get(call, -2) + 1 or not all(number.isdecimal() and len(number) < 6 for number in numbers):
        raise Fault(404, "there is no such call")
    return call, [int(number) for number in numbers]


class Room:
    """A number of bytes, for the jobs that are held."""

    def __init__(self, size):
        self.left, self.lock = size, threading.Lock()

    @contextlib.contextmanager
    def taken(self, size):
        """Takes this many for as long as a block runs, and gives them back however it ends."""
        with self.lock:
            if size > self.left:
                raise Fault(503, "the server holds as many jobs as it can: try again")
            self.left -= size
        try:
            yield
        finally:
            with self.lock:
                self.left += size


class Kept:
    """Jobs and answers, by names: what was used longest ago goes first, where there is no room or its time is over."""

    def __init__(self, size, number, seconds):
        self.size, self.left, self.number, self.seconds = size, size, number, seconds
        self.entries, self.lock = collections.OrderedDict(), threading.Lock()

    def keep(self, name, content):
        """Keeps this for some time, unless it has more bytes than there is room."""
        if len(content) > self.size:
            return
        with self.lock:
            self.drop(name)
            while len(content) > self.left or len(self.entries) >= self.number:
                self.drop(next(iter(self.entries)))
            self.entries[name] = time.monotonic(), content
            self.left -= len(content)

    def found(self, name):
        """What is kept by a name, which is used now; None where there is nothing."""
        self.forget()
        with self.lock:
            if name not in self.entries:
                return None
            _, content = self.entries.pop(name)
            self.entries[name] = time.monotonic(), content
            return content

    def forget(self):
        """Drops all whose time is over."""
        with self.lock:
            while self.entries and next(iter(self.entries.values()))[0] + self.seconds < time.monotonic():
                self.drop(next(iter(self.entries)))

    def drop(self, name):
        """Drops what is kept by a name, if anything is."""
        _, content = self.entries.pop(name, (0, b""))
        self.left += len(content)


class OneByOne:
    """Lets one thread at a time do what has a name, so that others find what it has kept."""

    def __init__(self):
        self.names, self.changed = set(), threading.Condition()

    @contextlib.contextmanager
    def at(self, name):
        """Does a block alone."""
        with self.changed:
            self.changed.wait_for(lambda: name not in self.names)
            self.names.add(name)
        try:
            yield
        finally:
            with self.changed:
                self.names.remove(name)
                self.changed.notify_all()


HEADER = re.compile(rb"P(?:4|(5))\n(\d+) (\d+)\n(?(1)255\n)")


def split_images(made):
    """Images in P4 or P5, one after the other, each for itself."""
    images, at = [], 0
    while at < len(made):
        header = HEADER.match(made, at)
        width, height = int(header[2]), int(header[3])
        end = header.end() + height * (width if header[1] else (width + 7) // 8)
        images.append(made[at:end])
        at = end
    return images


class Jobs:
    """Jobs that are kept, and what was made of them. What isn't there yet is made by a function of a call, its numbers, and a function
    that gives the job."""

    def __init__(self, kept):
        self.kept, self.one_by_one = kept, OneByOne()

    def keep(self, job):
        """Keeps a job; its digest, by which it is asked for."""
        digest = hashlib.sha256(job).hexdigest()
        self.kept.keep((digest,), job)
        return digest

    def job(self, digest):
        """A job that is kept."""
        job = self.kept.found((digest,))
        if job is None:
            raise Fault(410, "the job isn't kept any more: send it again")
        return job

    def answer(self, digest, call, numbers, make):
        """What a call on a job answers."""
        if call in IMAGES and 0 < numbers[1] <= numbers[2]:
            return self.images(digest, call, numbers, make)
        with self.one_by_one.at((digest, call, *numbers)):
            return self.kept.found((digest, call, *numbers)) or self.made(digest, call, numbers, make)

    def made(self, digest, call, numbers, make):
        """The same where it isn't kept yet. What is made at the resolution that a job wants is kept as made at that resolution too."""
        answer = make(call, numbers, lambda: self.job(digest))
        wanted = json.loads(answer[:answer.index(b"\n")])["resolution"]
        for resolution in {numbers[0], wanted or numbers[0]}:
            self.kept.keep((digest, call, resolution, *numbers[1:]), answer)
        return answer

    def images(self, digest, call, numbers, make):
        """The same of a range of pages, each of which is kept for itself."""
        resolution, first, last, *scale = numbers
        pages = range(first, last + 1)
        with self.one_by_one.at((digest, call, resolution, *scale)):
            found = {page: self.kept.found((digest, call, resolution, page, page, *scale)) for page in pages}
            if None in found.values():
                window = self.window(digest, resolution, first, last, *scale)
                answer = make(call, [resolution, *window, *scale], lambda: self.job(digest))
                found = self.kept_apart(digest, call, answer, resolution, window, scale)
        if not all(map(found.get, pages)):
            return answer if window == (first, last) else self.made(digest, call, numbers, make)
        head = found[first][:found[first].index(b"\n") + 1]
        return head + b"".join(found[page][len(head):] for page in pages)

    def window(self, digest, resolution, first, last, scale=None):
        """The pages to ask for where some are wanted: those around too, since for each call a job is performed whole."""
        count = self.kept.found((digest, "count", resolution))
        if count is None:
            return first, last
        together = PAGES_TOGETHER if scale is None else max(1, min(scale * scale, GREYS_TOGETHER))
        end = min(json.loads(count)["pages"], -(-last // together) * together)
        return (first - 1) // together * together + 1, max(last, end)

    def kept_apart(self, digest, call, answer, resolution, window, scale):
        """The images of an answer by the numbers of their pages, as they are kept from now on, each with the answer's line."""
        head = answer[:answer.index(b"\n") + 1]
        found = {page: head + image for page, image in enumerate(split_images(answer[len(head):]), window[0])}
        for page, content in found.items():
            for kept_at in {resolution, json.loads(head)["resolution"] or resolution}:
                self.kept.keep((digest, call, kept_at, page, page, *scale), content)
        return found


class UntilDeadline(io.RawIOBase):
    """What comes over a connection until a deadline, however slowly."""

    def __init__(self, connection):
        self.connection, self.deadline = connection, 0

    def readable(self):
        return True

    def readinto(self, buffer):
        left = self.deadline - time.monotonic()
        if left <= 0:
            raise socket.timeout
        self.connection.settimeout(left)
        return self.connection.recv_into(buffer)


class Handler(http.server.BaseHTTPRequestHandler):
    """Answers the page, and calls."""

    server_version, sys_version = "pclmin", ""
    protocol_version = "HTTP/1.1"
    # The seconds in which a request comes, and then its job, and in which its answer is taken.
    timeout = 60
    running = threading.BoundedSemaphore(CALLS)
    room = Room(HELD)
    jobs = Jobs(Kept(KEPT, KEPT_NUMBER, KEPT_SECONDS))

    def setup(self):
        super().setup()
        self.rfile.close()
        self.rfile = io.BufferedReader(UntilDeadline(self.connection))

    def handle_one_request(self):
        self.wait_from_now()
        try:
            super().handle_one_request()
        except OSError:
            # Who asked has gone away.
            self.close_connection = True

    def wait_from_now(self):
        """Sets the time at which what is awaited must have come."""
        self.rfile.raw.deadline = time.monotonic() + self.timeout

    def do_GET(self):
        if not self.is_ours():
            self.refuse(403, "this server is for this machine alone")
        elif self.path == "/":
            with open(os.path.join(HERE, "index.html"), "rb") as page:
                self.reply(200, "text/html; charset=utf-8", page.read())
        else:
            self.refuse(404, "there is no such page")

    def do_POST(self):
        try:
            answer = self.answer(self.path.lstrip("/").split("/"))
            with self.room.taken(len(answer)):
                self.reply(200, "application/octet-stream", answer)
        except Fault as fault:
            self.refuse(*fault.args)
            self.forget_the_rest()

    def answer(self, words):
        """What is answered: to /keep, whose job comes with it, to /kept/DIGEST and a call, and to a call whose job comes with it."""
        if not self.is_ours():
            raise Fault(403, "this server is for this machine alone")
        if words[0] == "kept":
            digest, *call = words[1:] or [""]
            if self.headers.get("Content-Length", "0") != "0" or "Transfer-Encoding" in self.headers:
                raise Fault(400, "the job is kept: nothing comes with a call")
            return self.jobs.answer(digest, *call_of(call), self.made)
        call, numbers = ("keep", []) if words == ["keep"] else call_of(words)
        length = self.length()
        with self.room.taken(length):
            job = self.job(length)
            if call == "keep":
                return json.dumps({"digest": self.jobs.keep(job), "seconds": KEPT_SECONDS}).encode() + b"\n"
            return self.made(call, numbers, lambda: job)

    def made(self, call, numbers, job):
        """What a call in a process of its own answers, when it is this one's turn."""
        while not self.running.acquire(timeout=PATIENCE):
            if not self.is_awaited():
                raise Gone
        try:
            return call_in_process(call, numbers, job(), self.is_awaited)
        finally:
            self.running.release()

    def is_awaited(self):
        """Whether who asked still waits, and hasn't closed the connection."""
        return not select.select([self.connection], [], [], 0)[0] or self.connection.recv(1, socket.MSG_PEEK) != b""

    def is_ours(self):
        """Whether the request is for this server by its own name, and not from a page of another."""
        port = self.server.server_address[1]
        ours = (f"127.0.0.1:{port}", f"localhost:{port}")
        origin = self.headers.get("Origin", "http://" + ours[0])
        return self.headers.get("Host") in ours and origin in tuple("http://" + name for name in ours)

    def length(self):
        """How many bytes are sent."""
        length = self.headers.get("Content-Length")
        if length is None:
            raise Fault(411, "the length of the job is missing")
        if not length.isdecimal() or len(length) > 18:
            raise Fault(400, "the length of the job is no number of bytes")
        if int(length) > LIMIT:
            raise Fault(413, f"the job has more than {LIMIT >> 20} megabytes")
        return int(length)

    def job(self, length):
        """The bytes that are sent."""
        self.wait_from_now()
        try:
            job = self.rfile.read(length)
        except socket.timeout:
            raise Fault(408, f"the job didn't come within {self.timeout} seconds") from None
        if len(job) != length:
            raise Fault(400, "the job was cut on its way")
        return job

    def forget_the_rest(self):
        """Reads what still comes of a job that is refused, since who sends it looks for the answer at its end."""
        while self.rfile.read1(1 << 16):
            pass

    def refuse(self, status, line):
        self.reply(status, "text/plain; charset=utf-8", line.encode() + b"\n")

    def reply(self, status, kind, body):
        self.send_response(status)
        self.send_header("Content-Type", kind)
        self.send_header("Content-Length", str(len(body)))
        self.send_header("Cache-Control", "no-store")
        self.send_header("Content-Security-Policy", POLICY)
        self.send_header("X-Content-Type-Options", "nosniff")
        self.send_header("Referrer-Policy", "no-referrer")
        if status != 200:
            self.send_header("Connection", "close")
        self.connection.settimeout(self.timeout)
        self.end_headers()
        self.wfile.write(body)

    def log_message(self, *_):
        """Says nothing of a request."""


class Server(http.server.ThreadingHTTPServer):
    """Serves up to this many connections at once, each in a thread; others wait until one ends."""

    request_queue_size = 128

    def __init__(self, *words):
        super().__init__(*words)
        self.free = threading.BoundedSemaphore(CONNECTIONS)

    def service_actions(self):
        """Drops what is kept no longer, twice a second."""
        Handler.jobs.kept.forget()

    def process_request(self, request, client_address):
        self.free.acquire()
        try:
            super().process_request(request, client_address)
        except BaseException:
            self.free.release()
            raise

    def process_request_thread(self, request, client_address):
        try:
            super().process_request_thread(request, client_address)
        finally:
            self.free.release()


def make_server(port):
    """A server of this machine at a port, or at a free one by 0."""
    return Server(("127.0.0.1", port), Handler)


def main():
    parser = argparse.ArgumentParser(description="Serves the page that shows print jobs, to this machine alone.")
    parser.add_argument("--port", type=int, default=8631, help="the port, 8631 where none is given; any free one by 0")
    parser.add_argument("--call", nargs="+", help=argparse.SUPPRESS)
    words = parser.parse_args()
    if words.call:
        seconds, call, *numbers = words.call
        call_alone(int(seconds), call, [int(number) for number in numbers])
        return
    try:
        import pclmin  # noqa: F401
    except OSError as fault:
        sys.exit(f"web/server.py: {fault}: make web builds it")
    try:
        server = make_server(words.port)
    except (OSError, OverflowError) as fault:
        sys.exit(f"web/server.py: port {words.port}: {fault}")
    print(f"http://127.0.0.1:{server.server_address[1]}/ shows print jobs, to this machine alone; Ctrl-C ends it", flush=True)
    try:
        server.serve_forever()
    except KeyboardInterrupt:
        pass


if __name__ == "__main__":
    main()
