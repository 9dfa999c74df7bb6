"""A tenant beside one that is attacked: how long its puts, its ranges and the events of its puts take."""
import contextlib
import json
import time
from typing import NamedTuple

from shared.http_client import Connection, body_of, read_response
from shared.load import fill, put, ranges
from shared.report import Wrong
from shared.store_calls import Client, CountedWatch

KEY = b"watched"
# Rounds a second.
PACE = 100


class Times(NamedTuple):
    """Seconds of each put and each range, from a put's answer to its event, and of another program's fixed answer."""

    puts: list
    ranges: list
    events: list
    fixed: list


class Neighbour(contextlib.ExitStack):
    """A client of the other tenant, which looks at each answer. It may ask another program beside it, at `fixed`, which
    answers at once: so it shows what the machine alone takes of the time."""

    def __init__(self, place, fixed=None):
        super().__init__()
        fill(place, rows=0)
        self.putting, self.reading = (self.enter_context(Client(place)) for _ in range(2))
        self.watch = self.enter_context(CountedWatch(place, KEY))
        if self.watch.refused:
            raise Wrong(f"another tenant's watch is answered {self.watch.refused.status}")
        self.put, self.range = (place.message(call, body_of(body)) for call, body in [put(KEY), ranges()[0]])
        self.revision, self.rows = self.putting.revision(), None
        self.asking = self.enter_context(Connection(fixed.port)) if fixed else None
        self.asked = fixed.message("kv/put", b"{}") if fixed else None

    def answer(self, connection, message):
        """An answer as it is read, and the seconds that it took."""
        began = time.perf_counter()
        response = connection.ask(message)
        took = time.perf_counter() - began
        status, body = read_response(response)
        if status != 200:
            raise Wrong(f"it is answered {status} {bytes(body[:200])!r}")
        return json.loads(body), took

    def event(self):
        """The seconds until the last put's event has come."""
        began = time.perf_counter()
        while self.watch.last < self.revision:
            self.watch.take_in()
        return time.perf_counter() - began

    def round(self, times):
        """One put, its event, and one range."""
        told, took = self.answer(self.putting, self.put)
        self.revision += 1
        times.puts.append(took)
        times.events.append(self.event())
        found = [int(told["header"]["revision"]), self.watch.last]
        if found != [self.revision] * 2:
            raise Wrong(f"a put and its event are of {found}, and not of {self.revision}")
        told, took = self.answer(self.reading, self.range)
        times.ranges.append(took)
        self.rows = self.rows or told["kvs"]
        if told["kvs"] != self.rows:
            raise Wrong("a range has other rows than before")
        if self.asking:
            times.fixed.append(self.answer(self.asking, self.asked)[1])

    def measured(self, seconds):
        """The times of so many seconds of rounds, at an even pace."""
        times = Times([], [], [], [])
        began = time.monotonic()
        try:
            while (now := time.monotonic()) < began + seconds:
                self.round(times)
                time.sleep(max(0, now + 1 / PACE - time.monotonic()))
        except (Wrong, OSError) as fault:
            raise Wrong(f"another tenant, after {time.monotonic() - began:.1f} seconds: {fault}") from None
        return times
