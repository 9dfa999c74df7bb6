"""Calls of a store that is measured, which is the server, etcd, or the fixed answer of nginx."""
import json
from typing import NamedTuple

from shared.http_client import PIECE, Connection, Watch, body_of, read_response, request, text
from shared.report import Wrong


class Place(NamedTuple):
    """Where calls go: a program's name, its port, what stands before the name of a call, and the first revision from which
    a watch is told all."""

    who: str
    port: int
    front: str
    first: int = 1

    def message(self, call, body):
        """A whole request."""
        return request(self.front + call, body, ["content-type: application/json"])

    def watch_message(self, create):
        return self.message("watch", body_of({"create_request": create}))


def using_puts(quota, cells):
    """Puts that take all cells of a quota but for three at most, each so many or the rest. Of each, two are kept for the
    delete of its key."""
    for number, first in enumerate(range(0, quota - 3, cells)):
        value = bytes(48 * (min(cells, quota - first) - 4))
        yield "kv/put", {"key": text(b"%d" % number), "value": text(value)}


class Client(Connection):
    """A connection to a place, over which calls are made that have to be done."""

    def __init__(self, place):
        super().__init__(place.port)
        self.place = place

    def make(self, call, members):
        """What a call answers."""
        body = body_of(members)
        status, answer = read_response(self.ask(self.place.message(call, body)))
        if status != 200:
            raise Wrong(f"{self.place.who}: {call} {body[:200]!r} was answered {status} {bytes(answer[:400])!r}")
        return json.loads(answer)

    def revision(self):
        return int(self.make("kv/range", {"key": text(b"none")})["header"]["revision"])

    def compact(self, revision):
        self.make("kv/compaction", {"revision": str(revision)})


class CountedWatch(Watch):
    """A watch of one key. Of its events it keeps how many came, `count`, and the last one's revision, `last`."""

    FIELD = b'"mod_revision":"'

    def __init__(self, place, key):
        super().__init__(place.port, place.watch_message({"key": text(key)}))
        self.who, self.count, self.last = place.who, 0, 0
        if not self.refused and b'"created":true' not in (first := self.told()):
            raise Wrong(f"{self.who}: a watch began with {first[:400]!r}")

    def take_in(self):
        """Reads what has come: lines, which may be cut into chunks anywhere. It is timed, so it reads no more than it needs."""
        piece = self.socket.recv(PIECE)
        if not piece:
            raise Wrong(f"{self.who}: a watch was closed after {bytes(self.got[:200])!r}")
        self.got += piece
        while (data := self.whole_chunk()) is not None:
            if not data:
                raise Wrong(f"{self.who}: a watch was ended")
            self.text += data
        end = self.text.rfind(b"\n") + 1
        if end:
            self.read(bytes(self.text[:end]))
            del self.text[:end]

    def read(self, lines):
        """Counts the events of whole lines."""
        at = lines.rfind(self.FIELD) + len(self.FIELD)
        if at < len(self.FIELD) or b'"canceled"' in lines:
            raise Wrong(f"{self.who}: a watch was told {lines[-400:]!r}")
        self.count += lines.count(self.FIELD)
        self.last = int(lines[at : lines.index(b'"', at)])
