"""Calls a second, and processor time a call, over 1, 16 and 64 connections."""
import contextlib
from statistics import median
from typing import NamedTuple

from serving.redis import COMMANDS
from shared.load import KEYS, RANGE_ROWS, compacted
from shared.report import spread, table

CONNECTIONS = [1, 16, 64]
TOLD = {
    "puts": f"puts of {KEYS:,} keys in turn",
    "reads": f"point reads of {KEYS:,} keys in turn",
    "ranges": f"ranges of {RANGE_ROWS} rows",
}


class Reading(NamedTuple):
    """Calls a second, and seconds of processor a call where they are known."""

    rate: float
    processor: float


def load_of(bench, program, kind, connections):
    if program.who == "redis":
        return program.load(kind, connections, bench.seconds)
    return bench.wrk.run(program.place, kind, connections, bench.seconds)


def one_reading(bench, program, kind, connections):
    keeps = kind == "puts" and program.who in ["ours", "etcd"]
    with compacted(program.place) if keeps else contextlib.nullcontext():
        before = program.processor()
        load = load_of(bench, program, kind, connections)
        used = program.processor() - before
    program.look()
    return Reading(load.rate(), used / load.calls)


def programs_for(programs, kind):
    """Those that have such calls: Redis has no ranges."""
    return [program for program in programs if program.who != "redis" or kind in COMMANDS]


def measure(bench, kinds):
    """The readings of each kind, number of connections and program, in the order of the rounds."""
    readings = {}
    for turn in range(bench.rounds):
        for kind in kinds:
            for connections in CONNECTIONS:
                for program in programs_for(bench.in_turn(turn), kind):
                    reading = one_reading(bench, program, kind, connections)
                    readings.setdefault((kind, connections, program.who), []).append(reading)
    return readings


def ratios(readings, kind, connections, other, number):
    """Ours by another's, one for each round."""
    pairs = zip(readings[kind, connections, "ours"], readings[kind, connections, other])
    return [number(one) / number(two) for one, two in pairs if number(two)]


def told_ratio(numbers):
    return spread(numbers, ".2f") if numbers else "-"


def tell_rates(readings, kinds, names):
    rows = []
    for kind in kinds:
        for connections in CONNECTIONS:
            rates = [median(one.rate for one in readings[kind, connections, who]) for who in names]
            row = [f"{TOLD[kind]}, over {connections}", *(f"{rate:,.0f}" for rate in rates)]
            for other in others_of(names):
                row.append(told_ratio(ratios(readings, kind, connections, other, lambda one: one.rate)))
            rows.append(row)
    heads = ["calls a second", *names]
    table(heads + [f"ours by {other}'s" for other in others_of(names)], rows)


def tell_processor(readings, kinds, names):
    names = [who for who in names if who != "nginx"]
    rows = []
    for kind in kinds:
        for connections in CONNECTIONS:
            row = [f"{TOLD[kind]}, over {connections}"]
            for who in names:
                row.append(f"{median(one.processor for one in readings[kind, connections, who]) * 1e6:,.1f}")
            for other in others_of(names):
                row.append(told_ratio(ratios(readings, kind, connections, other, lambda one: one.processor)))
            rows.append(row)
    if names:
        table(["microseconds of processor a call", *names, *(f"ours by {who}'s" for who in others_of(names))], rows)


def others_of(names):
    """Those beside which ours is told, if it is there."""
    return names[1:] if names[:1] == ["ours"] else []


def tell(bench, readings, kinds):
    for kind in kinds:
        if names := [program.who for program in programs_for(bench.programs, kind)]:
            tell_rates(readings, [kind], names)
            tell_processor(readings, [kind], names)
