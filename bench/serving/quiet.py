"""A quiet tenant beside a neighbour that is flooded, and resident memory over minutes of mixed load."""
import contextlib
import itertools
import os
import time
from statistics import median
from typing import NamedTuple

from shared.http_client import Connection, Watch, body_of, read_response, text
from shared.load import LARGE_ROWS, REST, compacted, key, large, put, reads
from shared.report import Wrong, part, spread, table

FLOOD = 32
# Reads of the quiet tenant a second; the seconds of flood before them, and those before and after them together.
PACE, BEFORE, AROUND = 200, 0.5, 2
# What a flood's end leaves behind may still be worked at for a while.
AFTER = 1
JOBS = 20
MIXED, SAMPLE, MINUTE = 16, 10, 60
TOLD = {
    "": "alone",
    "puts": f"beside puts over {FLOOD} connections",
    "rested": f"the same, where each rests {REST} milliseconds after an answer",
    "large": f"beside ranges of {LARGE_ROWS:,} rows over {FLOOD} connections",
    "nginx": f"beside an nginx that is flooded over {FLOOD} connections",
}


class Reading(NamedTuple):
    """Seconds of each quiet read, and of those of an idle nginx if there is one; the flood's calls a second, the
    seconds of the longest compaction in it, and how many processors had nothing to do.
    """

    times: list
    beside: list
    flood: float
    compaction: float
    idle: float


class Idle:
    """How many processors have nothing to do, from its making on."""

    def __init__(self):
        self.ticks, self.began = self.read(), time.perf_counter()

    @staticmethod
    def read():
        with open("/proc/stat", encoding="ascii") as file:
            return int(file.readline().split()[4])

    def processors(self):
        seconds = (self.read() - self.ticks) / os.sysconf("SC_CLK_TCK")
        return seconds / (time.perf_counter() - self.began)


def quiet_reads(places, seconds):
    """The seconds of each point read, at a gentle rate. The places are asked one after another."""
    calls = [(call, body_of(body)) for call, body in reads()]
    times = [[] for _ in places]
    with contextlib.ExitStack() as stack:
        connections = [stack.enter_context(Connection(place.port)) for place in places]
        first = time.perf_counter()
        for number in itertools.count(1):
            for place, connection, found in zip(places, connections, times):
                message = place.message(*calls[number % len(calls)])
                started = time.perf_counter()
                response = connection.ask(message)
                found.append(time.perf_counter() - started)
                status, _ = read_response(response)
                if status != 200:
                    raise Wrong(f"{place.who}: a quiet read was answered {status}")
            if (now := time.perf_counter()) > first + seconds:
                return times
            time.sleep(max(0, first + number / PACE - now))


def one_reading(bench, quiet, flooded, work, rest):
    """Reads of quiet places while another is flooded, or none."""
    if flooded is None:
        idle = Idle()
        times, *beside = quiet_reads(quiet, bench.seconds)
        return Reading(times, beside, 0, 0, idle.processors())
    with contextlib.ExitStack() as stack:
        told = stack.enter_context(compacted(flooded)) if flooded.who == "ours" else [0, 0]
        running = stack.enter_context(bench.wrk.running(flooded, work, FLOOD, bench.seconds + AROUND, rest))
        time.sleep(BEFORE)
        idle = Idle()
        times, *beside = quiet_reads([place for place in quiet if place != flooded], bench.seconds)
        processors = idle.processors()
        load = bench.wrk.finish(running, f"{flooded.who}, a flood of {work}")
        time.sleep(AFTER)
        return Reading(times, beside, load.rate(), told[1], processors)


def job_times(place, message):
    """The seconds of one call at a time, on a server with nothing else to do."""
    times = []
    with Connection(place.port) as connection:
        for _ in range(JOBS):
            started = time.perf_counter()
            connection.ask(message)
            times.append(time.perf_counter() - started)
    return times


def measure(bench, ours, nginx):
    """The readings beside each flood, in the order of the rounds, and the times of a flood's single jobs."""
    floods = {"": (None, "", 0), "puts": (ours.beside, "puts", 0), "rested": (ours.beside, "puts", REST)}
    floods["large"] = (ours.beside, "large", 0)
    if nginx:
        floods["nginx"] = (nginx.place, "puts", 0)
    readings = {name: [] for name in floods}
    jobs = {"puts": [], "large": []}
    quiet = [ours.place, nginx.place] if nginx else [ours.place]
    for turn in range(bench.rounds):
        for name, (call, body) in [("puts", put(b"one")), ("large", large()[0])]:
            jobs[name] += job_times(ours.beside, ours.beside.message(call, body_of(body)))
        names = list(floods)
        for name in names[turn % len(names) :] + names[: turn % len(names)]:
            readings[name].append(one_reading(bench, quiet, *floods[name]))
            ours.look()
    return readings, jobs


def tell(readings, jobs):
    rows = []
    for name, found in readings.items():
        middle, late = ([part(one.times, hundredth) for one in found] for hundredth in [50, 99])
        alone, most = [part(one.times, 99) for one in readings[""]], max(max(one.times) for one in found)
        row = [TOLD[name], *(f"{one * 1e6:,.0f}" for one in [median(middle), median(late), most])]
        row.append(spread([one / other for one, other in zip(late, alone)], ".2f") if name else "")
        idle = [part(times, 99) for one in found for times in one.beside]
        row.append(f"{median(idle) * 1e6:,.0f}" if idle else "-")
        row.append(f"{median(one.flood for one in found):,.0f}" if name else "")
        row.append(f"{median(one.idle for one in found):.1f}")
        rows.append(row)
    heads = ["a quiet tenant's point reads, microseconds", "middle", "99th", "longest"]
    table([*heads, "99th by that alone", "99th of a quiet nginx", "flood a second", "processors idle"], rows)
    for name, label in [("puts", "one put"), ("large", f"one range of {LARGE_ROWS:,} rows")]:
        middle, most = median(jobs[name]) * 1e6, max(jobs[name]) * 1e6
        print(f"{label} on an idle server, microseconds: middle {middle:,.0f}, longest {most:,.0f}")
    most = max(one.compaction for one in readings["puts"]) * 1e6
    print(f"the flood of puts was compacted meanwhile; the longest compaction, microseconds: {most:,.0f}\n")


def measure_memory(bench, ours, minutes):
    """Resident bytes, each ten seconds of mixed load, which have new connections, and each second a new watch."""
    found, refused = [], 0
    with compacted(ours.place):
        for _ in range(minutes * MINUTE // SAMPLE):
            with bench.wrk.running(ours.place, "mixed", MIXED, SAMPLE) as running:
                for second in range(1, SAMPLE):
                    with Watch(ours.port, ours.place.watch_message({"key": text(key(second))})) as watch:
                        refused += bool(watch.refused)
                        time.sleep(1)
                found.append(ours.memory()["now"])
                bench.wrk.finish(running, "ours, mixed load")
            ours.look()
    if refused:
        bench.wrk.faults.append(f"ours, mixed load: {refused} watches were refused")
    return found


def tell_memory(found, minutes):
    some = MINUTE // SAMPLE
    first, last = median(found[:some]), median(found[-some:])
    print(f"resident bytes over {minutes} minutes of mixed load over {MIXED} connections, each {SAMPLE} seconds:")
    print(f"  the first minute's middle {first:,.0f}, the last minute's {last:,.0f}, {last / first:.3f} times that")
    print(f"  least {min(found):,}, greatest {max(found):,}\n")
