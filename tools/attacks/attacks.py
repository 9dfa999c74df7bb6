"""The attacks of bench/rude, check-rude and check-size: what clients of one tenant do to a host.

Each has a number, its count, that says how much of it there is, and a smaller one that is brief. Before it the tenant
may be filled. Then the attack is given a crowd and the count, goes on as long as the crowd does, and tells what it did.
A server may refuse it or close its connections; only an attack that reached no server is wrong.
"""
import collections
import time
from typing import Callable, NamedTuple

from attacks.crowd import NARROW, Crowd
from shared.http_client import body_of, text
from shared.load import fill, key, put, ranges
from shared.report import Wrong
from shared.store_calls import Client
from shared.wanted import LARGEST_BODY, WATCHES

ALL = {"key": text(b"\0"), "range_end": text(b"\0")}
# Values whose puts have almost as many bytes as a body may have.
LARGE_VALUE, LARGE_ROWS, FEW_ROWS = 1_400_000, 10, 2
TXN_PUTS = 128
# New connections are made at such moments, and so many of them are kept open.
TURN, YOUNG = 0.002, 500
DRIP, LEFT_OF_BODY = 0.1, 4_096
PIPELINED = 20_000
# What is inside of an object is one deep, and at most 127 may be inside one another.
DEPTH = 125


def put_value(name, value):
    return "kv/put", {"key": text(name), "value": text(value)}


# What the tenant has before.


def nothing(place, count):
    """The attack needs nothing."""


def large_rows(place, count):
    """Rows of 14 MB together."""
    with Client(place) as client:
        for number in range(LARGE_ROWS):
            client.make(*put_value(b"large/%d" % number, b"v" * LARGE_VALUE))


def few_large_rows(place, count):
    """Rows of 3 MB together."""
    with Client(place) as client:
        for number in range(FEW_ROWS):
            client.make(*put_value(b"large/%d" % number, b"v" * LARGE_VALUE))


def many_changes(place, count):
    """So many changes, of a few keys."""
    puts = [{"request_put": put(key(number))[1]} for number in range(TXN_PUTS)]
    with Client(place) as client:
        for _ in range(count // TXN_PUTS):
            client.make("kv/txn", {"success": puts})


def small_rows(place, count):
    """Rows of which ranges of 100 are asked."""
    fill(place, rows=0)


# What its clients do.


def range_message(place, members):
    return place.message("kv/range", body_of(members))


def watch_message(place, members):
    return place.watch_message({**members, "start_revision": str(place.first)})


def one_large_answer(crowd, count):
    """A transaction of so many ranges over all rows, whose answer is read to its end."""
    txn = {"success": [{"request_range": ALL}] * count}
    crowd.enter(crowd.place.message("kv/txn", body_of(txn)))
    crowd.read_on()
    return f"{crowd.sent():,} bytes sent, {crowd.got():,} read"


def leave_unread(crowd, message, count):
    """A message over each of so many connections, of whose answers nothing is read; gives how many were sent."""
    for _ in range(count):
        crowd.enter(message, NARROW)
    crowd.send_all()
    crowd.stay()
    return crowd.reached()


def unread_answers(crowd, count):
    return f"{leave_unread(crowd, range_message(crowd.place, ALL), count)} sent a range"


def endless_bodies(crowd, count):
    """Bodies without their last bytes, which then come one by one."""
    whole = crowd.place.message("kv/put", b" " * LARGEST_BODY)
    most, rest = whole[:-LEFT_OF_BODY], whole[-LEFT_OF_BODY:]
    for _ in range(count):
        crowd.enter(most)
    crowd.send_all()
    for one in crowd.open():
        one.left = memoryview(rest)
    crowd.drip(DRIP)
    return f"{crowd.reached()} sent {crowd.sent():,} bytes, {len(crowd.open())} are still open"


def unread_watches(crowd, count):
    return f"{leave_unread(crowd, watch_message(crowd.place, ALL), count)} watches were asked for"


def costly_bodies(crowd, count):
    """The largest bodies, of objects as deep as they may be; whoever is answered asks once more."""
    front, piece, end = b'{"key":"Zm9v","x":[', b'{"":' * DEPTH + b"0" + b"}" * DEPTH, b"]}"
    body = front + b",".join([piece] * (LARGEST_BODY // (len(piece) + 1) - 1)) + end
    for _ in range(count):
        crowd.enter(crowd.place.message("kv/range", body))
    crowd.read_on(again=True)
    return f"{crowd.sent() / LARGEST_BODY:,.1f} bodies sent"


def late_watches(crowd, count):
    """As many watches as there may be, from the first change on, of a key that none of the changes has."""
    for _ in range(WATCHES):
        crowd.enter(watch_message(crowd.place, {"key": text(b"unchanged")}))
    crowd.read_on()
    return f"{crowd.reached()} watches, {count:,} changes"


def new_connections(crowd, count):
    """So many a second, each with a read whose answer nobody waits for."""
    message = range_message(crowd.place, {"key": text(b"none")})
    began, young = time.monotonic(), collections.deque()
    while crowd.goes_on():
        while len(crowd.all) < (time.monotonic() - began) * count:
            young.append(crowd.enter(message))
        for one in young:
            if one.left and one.is_open():
                one.push()
        while len(young) > YOUNG:
            young.popleft().close()
        time.sleep(TURN)
    return f"{crowd.reached():,} connections in {time.monotonic() - began:.1f} seconds"


def idle_connections(crowd, count):
    """More than the server has descriptors for; each sends the front of a head."""
    for _ in range(count):
        crowd.enter(b"P")
    crowd.send_all()
    crowd.stay()
    return f"{crowd.reached()} connections"


def dripping_heads(crowd, count):
    message = range_message(crowd.place, {"key": text(b"none")})
    for _ in range(count):
        crowd.enter(message)
    crowd.drip(DRIP)
    return f"{crowd.reached()} connections, {crowd.sent():,} bytes"


def unread_pipelines(crowd, count):
    """Ranges of 100 rows, one behind another, as far as the server takes them."""
    call, members = ranges()[0]
    messages = crowd.place.message(call, body_of(members)) * PIPELINED
    for _ in range(count):
        crowd.enter(messages, NARROW)
    crowd.send_all()
    crowd.stay()
    return f"{crowd.reached()} connections, {crowd.sent():,} bytes"


class Attack(NamedTuple):
    """One attack. The server has so many workers, and so many descriptors more than it uses if a number is given."""

    name: str
    before: Callable
    act: Callable
    count: int
    brief: int
    workers: int = 4
    descriptors: int = 0

    def make(self, place, seconds, count):
        """Attacks a place for so many seconds, and gives back what it did."""
        crowd = Crowd(place, seconds)
        did = self.act(crowd, count)
        if not crowd.reached():
            raise Wrong(f"{self.name}: it reached no server: {did}")
        return did


ATTACKS = [
    Attack("one answer of 600 MB", large_rows, one_large_answer, 32, 8),
    Attack("answers of 19 MB that nobody reads", large_rows, unread_answers, 100, 20),
    Attack("bodies that never come to their end", nothing, endless_bodies, 300, 100),
    Attack("watches that nobody reads", few_large_rows, unread_watches, WATCHES, WATCHES),
    Attack("bodies that are costly to read, and one worker", nothing, costly_bodies, 8, 8, workers=1),
    Attack("watches from before many changes", many_changes, late_watches, 500_000, 250_000),
    Attack("new connections, 2,000 a second", nothing, new_connections, 2_000, 2_000),
    Attack("descriptors used up", nothing, idle_connections, 1_000, 400, descriptors=200),
    Attack("heads that come byte by byte", nothing, dripping_heads, 1_000, 400),
    Attack("pipelines that nobody reads", small_rows, unread_pipelines, WATCHES, 32),
]
