"""etcd through its JSON gateway, with as many live keys, for bench/growth."""
import json
import random
from time import sleep

from growing.tenant import ALL, LEAST, MOST, TRIED, key, put_body
from shared.calls import Call
from shared.etcd import Etcd
from shared.process import processor_clock
from shared.report import Wrong

# Of each range of all keys its rows, and what else it asks.
RANGES = {
    "range of all keys, limit 1": (1, b'"limit":"1"'),
    "range of all keys, limit 100": (100, b'"limit":"100"'),
    "count of all keys": (0, b'"count_only":true'),
}
TXN_PUTS = 100
# Each read of etcd 3.4 copies a buffer that has the room of the most puts between two commits, of which there are ten a
# second. So it is not filled in one burst.
REST = 0.02
# Of a measure so many seconds: other threads of etcd work on beside its calls.
SECONDS = 0.5


def fill(etcd, numbers):
    """Puts the keys, in transactions of a hundred."""
    for at in range(0, len(numbers), TXN_PUTS):
        puts = b",".join(b'{"request_put":{%s}}' % put_body(key(number)) for number in numbers[at : at + TXN_PUTS])
        [(status, body)], _ = etcd.answer([Call("kv/txn", b'{"success":[%s]}' % puts, {})])
        if status != 200:
            raise Wrong(f"etcd: a transaction of puts was answered {status} {body[:400]!r}")
        sleep(REST)


def seconds(etcd, call, count):
    """The seconds of processor of one call, over so many, each of which has to be answered as wanted."""
    before = processor_clock(etcd.child.pid)
    answers, _ = etcd.answer([call] * count)
    took = processor_clock(etcd.child.pid) - before
    for status, body in answers:
        told = json.loads(body) if status == 200 else {}
        if (int(told.get("count", 0)), len(told.get("kvs", []))) != call.wanted:
            raise Wrong(f"etcd: {call.body!r} was answered {status} {body[:400]!r}, wanted {call.wanted}")
    return took / count


def time_of(etcd, call, rounds):
    once = seconds(etcd, call, TRIED)
    count = max(LEAST, min(MOST, int(SECONDS / once)))
    return min(seconds(etcd, call, count) for _ in range(rounds))


def measured_etcd(sizes, rounds):
    """By measures and sizes, the least seconds of processor of one call. One etcd grows from size to size."""
    times = {name: {} for name in RANGES}
    order = random.Random(1).sample(range(max(sizes)), max(sizes))
    with Etcd() as etcd:
        there = 0
        for keys in sorted(sizes):
            fill(etcd, order[there:keys])
            there = keys
            for name, (rows, more) in RANGES.items():
                call = Call("kv/range", b"{%s,%s}" % (ALL, more), (keys, rows))
                times[name][keys] = time_of(etcd, call, rounds)
    return times
