"""Events of one watched key, by the number of its watchers."""
import contextlib
import selectors
import time
from statistics import median
from typing import NamedTuple

from shared.http_client import SECONDS
from shared.load import put, watched
from shared.report import Wrong, part, spread, table
from shared.store_calls import Client, CountedWatch

WATCHERS = [1, 64]
# Connections that put, for so many seconds at a time: the watchers come to the end of it before the next.
WRITERS, SLICE = 16, 1
LATE_PUTS, REST = 200, 0.005
OPENING = 10
KEY = b"watched"


class Reading(NamedTuple):
    """Events a second, puts a second, the client's share of one processor; and seconds from an answer to its events."""

    rate: float
    puts: float
    client: float
    delays: list


def opened(place):
    """A watch of the key. A slot may still be held by a watch whose connection was closed, for a while."""
    end = time.monotonic() + OPENING
    while True:
        watch = CountedWatch(place, KEY)
        if not watch.refused:
            return watch
        watch.close()
        if time.monotonic() > end:
            raise Wrong(f"{place.who}: a watch was refused with {watch.refused.status} for {OPENING} seconds")
        time.sleep(0.05)


class Watchers:
    """So many watches of the key."""

    def __init__(self, place, count, stack):
        self.who, self.poll = place.who, stack.enter_context(selectors.DefaultSelector())
        self.all = []
        for _ in range(count):
            self.all.append(stack.enter_context(opened(place)))
            self.poll.register(self.all[-1], selectors.EVENT_READ)

    def ready(self, seconds):
        return [chosen.fileobj for chosen, _ in self.poll.select(seconds)]

    def until(self, wanted):
        """Reads until each was told of a revision."""
        end = time.monotonic() + SECONDS
        while behind := [watch for watch in self.all if watch.last < wanted]:
            if time.monotonic() > end:
                late = f"{len(behind)} of {len(self.all)} watches are behind revision {wanted}"
                raise Wrong(f"{self.who}: after {SECONDS} seconds {late}, at {min(one.last for one in behind)}")
            for watch in self.ready(1):
                watch.take_in()


def one_slice(bench, place, asking, watchers):
    """Puts for a second, all of whose events are waited for. Gives back the puts and the seconds."""
    begin = asking.revision()
    watchers.until(begin)
    asking.compact(begin)
    before = [(watch.count, watch.last) for watch in watchers.all]
    started = time.perf_counter()
    with bench.wrk.running(place, "watched", WRITERS, SLICE) as running:
        while running.child.poll() is None:
            for watch in watchers.ready(0.02):
                watch.take_in()
        bench.wrk.finish(running, f"{place.who}, puts before {len(watchers.all)} watchers")
    watchers.until(asking.revision())
    took = time.perf_counter() - started
    for watch, (events, last) in zip(watchers.all, before):
        if watch.count - events != watch.last - last:
            told = f"{watch.count - events:,} events of {watch.last - last:,} revisions"
            raise Wrong(f"{place.who}: a watch was told {told}")
    return watchers.all[0].last - begin, took


def delays(place, watchers):
    """The seconds from a put's answer to the event at each watcher."""
    call, body = put(KEY)
    found = []
    with Client(place) as writer:
        for _ in range(LATE_PUTS):
            revision = int(writer.make(call, body)["header"]["revision"])
            answered = time.perf_counter()
            behind = [watch for watch in watchers.all if watch.last < revision]
            while behind:
                chosen, now = watchers.ready(SECONDS), time.perf_counter()
                if not chosen:
                    raise Wrong(f"{place.who}: no event of a put within {SECONDS} seconds")
                for watch in chosen:
                    watch.take_in()
                found += [now - answered for watch in behind if watch.last >= revision]
                behind = [watch for watch in behind if watch.last < revision]
            time.sleep(REST)
    return found


def one_reading(bench, program, count):
    with contextlib.ExitStack() as stack:
        asking = stack.enter_context(Client(program.place))
        asking.make(*watched()[0])
        watchers = Watchers(program.place, count, stack)
        late = delays(program.place, watchers)
        events, puts, took, client = 0, 0, 0.0, time.process_time()
        while took < bench.seconds:
            more, seconds = one_slice(bench, program.place, asking, watchers)
            puts, events, took = puts + more, events + more * count, took + seconds
        client = time.process_time() - client
        program.look()
    return Reading(events / took, puts / took, client / took, late)


def measure(bench):
    """The readings of each number of watchers and program, in the order of the rounds."""
    readings = {}
    for turn in range(bench.rounds):
        for count in WATCHERS:
            for program in bench.in_turn(turn):
                if program.who in ["ours", "etcd"]:
                    readings.setdefault((count, program.who), []).append(one_reading(bench, program, count))
    return readings


CLIENT = "share of a processor that the client took"
ROWS = [
    ("events a second", lambda one: one.rate, ",.0f"),
    ("puts a second", lambda one: one.puts, ",.0f"),
    (CLIENT, lambda one: one.client, ".2f"),
    ("from an answer to its event, middle, microseconds", lambda one: part(one.delays, 50) * 1e6, ",.0f"),
    ("from an answer to its event, 99th, microseconds", lambda one: part(one.delays, 99) * 1e6, ",.0f"),
]


def tell(bench, readings):
    names = [program.who for program in bench.programs if program.who in ["ours", "etcd"]]
    rows = []
    for count in WATCHERS:
        for label, number, form in ROWS:
            row = [f"{count}: {label}"]
            row += [f"{median(number(one) for one in readings[count, who]):{form}}" for who in names]
            if len(names) == 2:
                pairs = zip(readings[count, "ours"], readings[count, "etcd"])
                row.append("" if label == CLIENT else spread([number(one) / number(two) for one, two in pairs], ".2f"))
            rows.append(row)
    if names:
        table(["one key, by the number of its watchers", *names, "ours by etcd's"][: len(rows[0])], rows)
