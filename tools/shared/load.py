"""What a store is asked under load: its keys, the works that wrk drives, and compactions beside them."""
import contextlib
import multiprocessing
import os
import subprocess
import time
from typing import NamedTuple

from shared.http_client import body_of, text
from shared.process import Process
from shared.report import Wrong
from shared.store_calls import Client

KEYS, VALUE = 1_000, b"0123456789"
RANGE_ROWS, LARGE_ROWS = 100, 10_000
TXN_PUTS = 100
# Compactions, so that no store fills up: after so many changes, which are looked at so often.
CHANGES, PAUSE = 10_000, 0.05
WRK_THREADS = 2
# Milliseconds between an answer and the next call of a connection that rests.
REST = 3
PATIENCE = 10
SCRIPT = """\
local calls = {{{calls}}}
local threads, messages, at = 0, {{}}, 0
if {rest} > 0 then
    function delay()
        return {rest}
    end
end
function setup(thread)
    thread:set("number", threads)
    threads = threads + 1
end
function init(args)
    local kind = {{["Content-Type"] = "application/json"}}
    for place, call in ipairs(calls) do
        messages[place] = wrk.format("POST", wrk.path .. call[1], kind, call[2])
    end
    at = number * 500 % #messages
end
function request()
    at = at % #messages + 1
    return messages[at]
end
function done(summary, latency, requests)
    local bad = summary.errors
    io.write(string.format("told %d %d %d %d %d %d %d\\n", summary.requests, summary.duration,
        bad.status, bad.connect, bad.read, bad.write, bad.timeout))
end
"""
FAULTS = ["answers other than 200", "lost connections", "broken reads", "broken writes", "late answers"]


def key(number):
    return b"key/%012d" % number


def row(number):
    return b"row/%012d" % number


def put(name):
    return "kv/put", {"key": text(name), "value": text(VALUE)}


def rows_from(first, end):
    return "kv/range", {"key": text(first), "range_end": text(end)}


def reads():
    return [("kv/range", {"key": text(key(number))}) for number in range(KEYS)]


def ranges():
    starts = range(0, KEYS - RANGE_ROWS, 9)
    return [rows_from(key(start), key(start + RANGE_ROWS)) for start in starts]


def large():
    return [rows_from(b"row/", b"row0")]


def mixed():
    """Of ten calls four puts, three reads, a range, a transaction and a delete."""
    calls = []
    for number in range(0, KEYS, 10):
        calls += [put(key(number + more)) for more in range(4)]
        calls += [("kv/range", {"key": text(key(number + more))}) for more in range(3)]
        calls.append(rows_from(key(0), key(RANGE_ROWS)))
        pair = [{"request_put": put(key(number + more))[1]} for more in [8, 9]]
        calls.append(("kv/txn", {"success": pair}))
        calls.append(("kv/deleterange", {"key": text(key(number))}))
    return calls


def watched():
    return [put(b"watched")]


def works():
    """The calls that each work makes in turn."""
    named = {"puts": [put(key(number)) for number in range(KEYS)], "reads": reads(), "ranges": ranges()}
    return {**named, "large": large(), "watched": watched(), "mixed": mixed()}


def fill(place, rest=0, rows=LARGE_ROWS):
    """Puts the keys and so many rows, with a rest after each transaction, and looks at ranges of them."""
    names = [key(number) for number in range(KEYS)] + [row(number) for number in range(rows)]
    with Client(place) as client:
        for at in range(0, len(names), TXN_PUTS):
            puts = [{"request_put": put(name)[1]} for name in names[at : at + TXN_PUTS]]
            client.make("kv/txn", {"success": puts})
            time.sleep(rest)
        for call, wanted in [(ranges()[-1], RANGE_ROWS), (large()[0], rows)]:
            found = len(client.make(*call).get("kvs", []))
            if found != wanted:
                raise Wrong(f"{place.who}: a range of {wanted:,} rows was answered {found:,}")


class Load(NamedTuple):
    """What wrk counted: calls that were done, and seconds."""

    calls: int
    seconds: float

    def rate(self):
        return self.calls / self.seconds


class Wrk:
    """Runs of wrk, whose scripts lie in a folder. `faults` tells the runs in which not all was answered.

    After each answer a connection may rest, so many milliseconds.
    """

    def __init__(self, folder):
        self.folder, self.faults = folder, []
        for name, calls in works().items():
            pairs = ",".join(f"{{'{call}','{body_of(body).decode()}'}}" for call, body in calls)
            for rest in [0, REST]:
                with open(self.script(name, rest), "w", encoding="ascii") as file:
                    file.write(SCRIPT.format(calls=pairs, rest=rest))

    def script(self, name, rest):
        return os.path.join(self.folder, f"{name}-{rest}.lua")

    def running(self, place, name, connections, seconds, rest=0):
        """wrk while it runs, beside what is done meanwhile."""
        words = ["wrk", "-t", str(min(WRK_THREADS, connections)), "-c", str(connections), "-d", f"{seconds}s"]
        words += ["--timeout", f"{PATIENCE}s", "-s", self.script(name, rest), f"http://127.0.0.1:{place.port}{place.front}"]
        how = {"stdin": subprocess.DEVNULL, "stdout": subprocess.PIPE, "stderr": subprocess.STDOUT}
        return Process(words, **how)

    def finish(self, running, label):
        """The load of a run that comes to its end."""
        printed = running.child.communicate()[0].decode(errors="replace")
        told = [line.split()[1:] for line in printed.splitlines() if line.startswith("told ")]
        if running.child.returncode != 0 or not told:
            raise Wrong(f"wrk, {label}: {printed[-1000:]}")
        calls, duration, *bad = map(int, told[0])
        kinds = [f"{count:,} {kind}" for count, kind in zip(bad, FAULTS) if count]
        if kinds:
            self.faults.append(f"{label}: {', '.join(kinds)} beside {calls:,} calls")
        return Load(max(calls - bad[0], 1), duration / 1e6)

    def run(self, place, name, connections, seconds):
        with self.running(place, name, connections, seconds) as running:
            return self.finish(running, f"{place.who}, {name} over {connections}")


def compact_always(place, told):
    """Compacts the store after each so many changes. It counts the compactions, and keeps the longest's seconds."""
    try:
        with Client(place) as client:
            last = client.revision()
            while True:
                time.sleep(PAUSE)
                now = client.revision()
                if now - last >= CHANGES:
                    started = time.perf_counter()
                    client.compact(now)
                    told[0] += 1
                    told[1] = max(told[1], time.perf_counter() - started)
                    last = now
    except (Wrong, OSError) as wrong:
        print(f"bench/server: the compactions ended: {wrong}", flush=True)


@contextlib.contextmanager
def compacted(place):
    """What compactions there were, by a process of their own: their number, and the longest's seconds."""
    told = multiprocessing.Array("d", 2)
    words = {"target": compact_always, "args": (place, told), "daemon": True}
    process = multiprocessing.get_context("fork").Process(**words)
    process.start()
    try:
        yield told
    finally:
        process.kill()
        process.join()
