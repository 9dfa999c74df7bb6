"""Requests over HTTP/1.1 to a server on this machine and their answers, over connections that are kept, and watches."""
import base64
import http
import json
import select
import socket
import time
from typing import NamedTuple

from shared.report import Wrong, want

SECONDS = 60
PIECE = 1 << 18
LINE_END, HEAD_END, LAST_CHUNK = b"\r\n", b"\r\n\r\n", b"\r\n0\r\n\r\n"
# How `Content-Length: ` ends, whichever of its letters are small; nothing else in a head of these servers ends so.
LENGTH = b"ength: "


class Ended(Wrong):
    """The other end has closed a connection from which more was to come."""


def shown(data):
    return repr(bytes(data)) if len(data) <= 300 else f"{bytes(data[:300])!r}.. ({len(data):,} bytes)"


# What is asked.


def text(data):
    """Bytes as base64."""
    return base64.b64encode(data).decode()


def body_of(members):
    return json.dumps(members, separators=(",", ":")).encode()


def path(tenant, call):
    return f"/t/{tenant}/v3/{call}"


def head(target, lines=(), method="POST", version="HTTP/1.1"):
    return "\r\n".join([f"{method} {target} {version}", "host: here", *lines, "", ""]).encode()


def request(target, body="", lines=(), method="POST", version="HTTP/1.1"):
    """A request whose body has a length."""
    body = body if isinstance(body, bytes) else body.encode()
    return head(target, [*lines, f"content-length: {len(body)}"], method, version) + body


def watch_request(tenant, create, lines=()):
    return request(path(tenant, "watch"), f'{{"create_request":{create}}}', lines)


def chunk(data):
    return b"%x\r\n%s\r\n" % (len(data), data)


def in_both_forms(target, body, lines=()):
    """A request with its body by its length, and in chunks."""
    chunks = b"".join(chunk(body[at:at + 100_000]) for at in range(0, len(body), 100_000))
    return [request(target, body, lines), head(target, [*lines, "transfer-encoding: chunked"]) + chunks + chunk(b"")]


# What is answered.


def is_whole(message):
    """Whether a request or a response has ended: by its length, or by its last chunk where it has none."""
    end = message.find(HEAD_END)
    if end < 0:
        return False
    at = message.find(LENGTH, 0, end)
    if at < 0:
        return message.endswith(LAST_CHUNK)
    length = message[at + len(LENGTH) : message.index(LINE_END, at)]
    return len(message) >= end + len(HEAD_END) + int(length)


def read_response(response):
    """The status and the body of a whole response."""
    front, _, rest = response.partition(HEAD_END)
    if LENGTH not in front:
        chunks, rest = rest, b""
        while chunks:
            length, _, chunks = chunks.partition(LINE_END)
            rest, chunks = rest + chunks[: int(length, 16)], chunks[int(length, 16) + 2 :]
    return int(front.split(b" ", 2)[1]), rest


class Answer(NamedTuple):
    version: str
    status: int
    reason: str
    lines: list
    body: bytes

    def values(self, name):
        return [value for one, value in self.lines if one == name]

    def check(self, *wanted):
        """Refuses a status and a body that are none of those wanted, and a head that does not fit."""
        self.check_head()
        want(self.values("content-length") == [str(len(self.body))], f"content-length: {self.lines}")
        status, body = wanted[0]
        good = (self.status, self.body) in wanted
        want(good, f"{self.status} {shown(self.body)}, wanted {status} {shown(body)}")

    def check_head(self):
        want(self.version == "HTTP/1.1", f"version {self.version}")
        want(self.reason == http.HTTPStatus(self.status).phrase, f"{self.status} {self.reason}")
        want(self.values("content-type") == ["application/json"], f"content-type: {self.lines}")


class Connection:
    """A connection to a port, with what has come and was not looked at yet.

    The system takes in so much for it if a window is given; `wrap` puts TLS round its socket.
    """

    def __init__(self, port, window=None, wrap=None):
        self.got = bytearray()
        self.socket = socket.socket()
        if window:
            self.socket.setsockopt(socket.SOL_SOCKET, socket.SO_RCVBUF, window)
        self.socket.settimeout(SECONDS)
        self.socket.connect(("127.0.0.1", port))
        self.socket.setsockopt(socket.IPPROTO_TCP, socket.TCP_NODELAY, 1)
        if wrap:
            self.socket = wrap(self.socket)

    def __enter__(self):
        return self

    def __exit__(self, *_):
        self.close()

    def close(self):
        self.socket.close()

    def fileno(self):
        return self.socket.fileno()

    # Calls that are timed: of a response no more is looked at than where it ends.

    def ask(self, message):
        """Sends a request, and gives back its whole response as it came."""
        self.socket.sendall(message)
        response = self.socket.recv(PIECE)
        return response if is_whole(response) else self.rest_of(bytearray(response))

    def rest_of(self, response):
        while not is_whole(response):
            piece = self.socket.recv(PIECE)
            if not piece:
                raise Ended(f"the connection ended after {shown(response)}")
            response += piece
        return response

    # All others.

    def end_sending(self):
        self.socket.shutdown(socket.SHUT_WR)

    def send(self, data):
        self.socket.settimeout(SECONDS)
        self.socket.sendall(data)

    def more(self, last):
        """Waits for more until a moment, and tells whether there is any, or the end has come."""
        left = last - time.monotonic()
        want(left > 0, f"nothing more in time after {shown(self.got)}")
        self.socket.settimeout(left)
        try:
            piece = self.socket.recv(PIECE)
        except TimeoutError:
            raise Wrong(f"nothing more in time after {shown(self.got)}") from None
        self.got += piece
        return bool(piece)

    def need(self, last):
        """Waits until a moment for more, which has to come."""
        if not self.more(last):
            raise Ended(f"the connection ended after {shown(self.got)}")

    def comes(self, seconds):
        """Whether there is more, or the end has come, within so many seconds."""
        return bool(select.select([self.socket], [], [], seconds)[0])

    def take(self, count, last):
        while len(self.got) < count:
            self.need(last)
        taken = bytes(self.got[:count])
        del self.got[:count]
        return taken

    def line(self, last):
        """The next line of a head, without its end."""
        while LINE_END not in self.got:
            self.need(last)
        return self.take(self.got.index(LINE_END) + 2, last)[:-2]

    def head(self, last):
        """The next head, as an answer with no body."""
        version, status, reason = self.line(last).decode("latin-1").split(" ", 2)
        lines = []
        while one := self.line(last):
            name, _, value = one.decode("latin-1").partition(":")
            lines.append((name.lower(), value.strip()))
        return Answer(version, int(status), reason, lines, b"")

    def whole_chunk(self):
        """The next chunk of a body, or None where it has not come whole; the last one is empty."""
        end = self.got.find(LINE_END)
        if end < 0:
            return None
        first = end + len(LINE_END)
        last = first + int(bytes(self.got[:end]), 16)
        if len(self.got) < last + len(LINE_END):
            return None
        data = bytes(self.got[first:last])
        del self.got[: last + len(LINE_END)]
        return data

    def chunk(self, last):
        """The next chunk of a body."""
        while (data := self.whole_chunk()) is None:
            self.need(last)
        return data

    def answer(self, method="POST", seconds=SECONDS):
        """The next answer, with its body."""
        last = time.monotonic() + seconds
        told = self.head(last)
        if method == "HEAD" or told.status in {100, 204, 304}:
            return told
        if told.values("transfer-encoding") == ["chunked"]:
            return told._replace(body=b"".join(iter(lambda: self.chunk(last), b"")))
        if told.values("content-length"):
            return told._replace(body=self.take(int(told.values("content-length")[0]), last))
        return told._replace(body=self.rest(seconds))

    def rest(self, seconds=SECONDS):
        """All that comes until the server ends the connection; a reset is such an end."""
        last = time.monotonic() + seconds
        try:
            while self.more(last):
                pass
        except ConnectionResetError:
            pass
        rest = bytes(self.got)
        self.got.clear()
        return rest

    def ended(self, seconds=SECONDS):
        rest = self.rest(seconds)
        want(not rest, f"more came: {shown(rest)}")

    def call(self, tenant, call, body="{}", seconds=SECONDS):
        self.send(request(path(tenant, call), body))
        return self.answer(seconds=seconds)

    def expect(self, tenant, call, body, *wanted):
        """Makes a call whose answer has to be one of those wanted."""
        try:
            self.call(tenant, call, body).check(*wanted)
        except Wrong as wrong:
            raise Wrong(f"{call} {body[:100]}: {wrong}") from None


class Watch(Connection):
    """A watch whose head has come; its body is read line by line. `refused` is the answer where it is none."""

    def __init__(self, port, message, window=None, wrap=None):
        super().__init__(port, window, wrap)
        self.text, self.over, self.refused = bytearray(), False, None
        self.send(message)
        last = time.monotonic() + SECONDS
        told = self.head(last)
        if told.status != 200:
            self.refused = told._replace(body=self.take(int(told.values("content-length")[0]), last))
            return
        told.check_head()
        want(told.values("transfer-encoding") == ["chunked"], f"the head of a watch: {told.lines}")
        want(not told.values("content-length"), f"the head of a watch: {told.lines}")

    def fill(self, last):
        """Waits for more text; there is none after the last chunk."""
        if not self.over:
            piece = self.chunk(last)
            self.text += piece
            self.over = not piece
        return not self.over

    def told(self, seconds=SECONDS):
        """The next line."""
        last = time.monotonic() + seconds
        while b"\n" not in self.text:
            if not self.fill(last):
                raise Ended(f"the watch ended after {shown(self.text)}")
        line, _, self.text = self.text.partition(b"\n")
        return bytes(line) + b"\n"

    def expect_line(self, wanted, seconds=SECONDS):
        line = self.told(seconds)
        want(line == wanted, f"told {shown(line)}, wanted {shown(wanted)}")

    def expect_last(self, wanted, seconds=SECONDS):
        """Asks for a line behind which the body ends."""
        self.expect_line(wanted, seconds)
        want(not self.fill(time.monotonic() + seconds) and not self.text, f"more was told: {shown(self.text)}")

    def expect_quiet(self, seconds):
        ready = self.text or self.got or self.comes(seconds)
        want(not ready, f"told {shown(self.text + self.got) if self.text or self.got else 'more'}")

    def events(self, count, seconds=SECONDS):
        """So many events, each line's header at or past its last one."""
        last, events = time.monotonic() + seconds, []
        while len(events) < count:
            result = json.loads(self.told(last - time.monotonic()))["result"]
            want("events" in result, f"told {result}")
            events += result["events"]
            at = int(events[-1]["kv"]["mod_revision"])
            want(int(result["header"]["revision"]) >= at, f"an event of {at} under {result['header']}")
        want(len(events) == count, f"{len(events)} events")
        return events
