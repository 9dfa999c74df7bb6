"""The calls that bench/replay makes of both programs, and what each has to answer."""
import json
import random
from typing import NamedTuple

from shared.http_client import body_of, text
from shared.report import Wrong

KEY_BYTES = 16
VALUE_BYTES = 100
RANGE_KEYS = 100
# The puts of a transaction, in one work for each.
TXN_PUTS = [1, 10, 100]
CELL_BYTES = 48
# A record of such a key and value is one cell and three for its bytes; its delete would be one and one.
RECORD_CELLS = 6
FIRST_REVISION = 1


class Call(NamedTuple):
    """A call of the gateway; `wanted` is its answer, with the revision alone for a header."""

    name: str
    body: bytes
    wanted: dict


class Phase(NamedTuple):
    """Calls that are timed together; phases of one label are counted together."""

    label: str
    calls: list


def header(revision):
    return {"header": {"revision": str(revision)}}


def put(key, value, revision):
    return Call("kv/put", body_of({"key": text(key), "value": text(value)}), header(revision))


def size(revision):
    """Asks for the bytes in use, which are looked at by themselves."""
    return Call("maintenance/status", b"{}", header(revision))


def row(key, value, revision):
    """The row of a key that was put once."""
    at = str(revision)
    return {"create_revision": at, "key": text(key), "mod_revision": at, "value": text(value), "version": "1"}


def found(rows, revision):
    return {"count": str(len(rows)), **header(revision), "kvs": rows}


def filled(count):
    """Puts of `count` new keys in a scattered order, point reads of them in another, and ranges."""
    chance = random.Random(1)
    keys = [b"key/%0*d" % (KEY_BYTES - 4, number) for number in range(count)]
    values = [chance.randbytes(VALUE_BYTES) for _ in keys]
    order = chance.sample(range(count), count)
    puts, rows = [], [None] * count
    for revision, number in enumerate(order, FIRST_REVISION + 1):
        puts.append(put(keys[number], values[number], revision))
        rows[number] = row(keys[number], values[number], revision)
    last = FIRST_REVISION + count
    reads = []
    for number in chance.sample(range(count), count):
        reads.append(Call("kv/range", body_of({"key": text(keys[number])}), found([rows[number]], last)))
    ranges = []
    for _ in range(range_count(count)):
        start = chance.randrange(count - RANGE_KEYS)
        end = start + RANGE_KEYS
        body = body_of({"key": text(keys[start]), "range_end": text(keys[end])})
        ranges.append(Call("kv/range", body, found(rows[start:end], last)))
    return [Phase("put", puts), Phase("size", [size(last)]), Phase("read", reads), Phase("range", ranges)]


def range_count(count):
    return count // 20


def compaction_interval(count):
    return count // 100


def overwritten(count):
    """`count` puts of one key, with a compaction at the current revision after each hundredth of them.

    The first tenth is a phase of its own, so that what is used after it can be held against the end.
    """
    chance = random.Random(2)
    calls, ends = [], []
    for number in range(1, count + 1):
        revision = FIRST_REVISION + number
        calls.append(put(b"key/%0*d" % (KEY_BYTES - 4, 0), chance.randbytes(VALUE_BYTES), revision))
        if number % compaction_interval(count) == 0:
            calls += [Call("kv/compaction", body_of({"revision": str(revision)}), header(revision)), size(revision)]
        if number == count // 10:
            ends.append(len(calls))
    return [Phase("overwrite", calls[: ends[0]]), Phase("overwrite", calls[ends[0] :])]


def txn(rows, revision):
    """Puts rows whose first key has to be new."""
    first, _ = rows[0]
    compare = {"key": text(first), "result": "EQUAL", "target": "VERSION", "version": "0"}
    puts = [{"request_put": {"key": text(key), "value": text(value)}} for key, value in rows]
    wanted = {**header(revision), "responses": [{"response_put": header(revision)}] * len(rows), "succeeded": True}
    return Call("kv/txn", body_of({"compare": [compare], "success": puts}), wanted)


def txn_label(puts):
    return f"txn of {puts}"


def txn_count(count, puts):
    """The works of all sizes put as many records, but for what is left of a transaction."""
    return count // 4 // puts


def transactions(count, puts):
    """Transactions of as many puts of new keys, in a scattered order."""
    chance = random.Random(3)
    order = iter(chance.sample(range(count), count))
    calls = []
    for number in range(txn_count(count, puts)):
        rows = [(b"key/%0*d" % (KEY_BYTES - 4, next(order)), chance.randbytes(VALUE_BYTES)) for _ in range(puts)]
        calls.append(txn(rows, FIRST_REVISION + 1 + number))
    return [Phase(txn_label(puts), calls)]


def works(count):
    """The phases of each work, by its name. A work begins with fresh programs."""
    sizes = {txn_label(puts): transactions(count, puts) for puts in TXN_PUTS}
    return {"filled": filled(count), "overwritten": overwritten(count), **sizes}


def in_use(who, call, status, body):
    """Looks at an answer, and gives back the bytes in use where the call asks for them."""
    told = f"{who}: {call.name} {call.body[:200]!r} was answered {status} {body[:400]!r}"
    if status != 200:
        raise Wrong(told)
    try:
        got = json.loads(body)
        got["header"] = {"revision": got["header"]["revision"]}
        if call.name == "maintenance/status":
            used, got = int(got["dbSizeInUse"]), {"header": got["header"]}
        else:
            used = None
    except (KeyError, TypeError, ValueError):
        raise Wrong(told) from None
    if got != call.wanted:
        raise Wrong(f"{told}, wanted {json.dumps(call.wanted)[:400]}")
    return used


def check(who, calls, answers):
    """Looks at every answer, each a status and a body; gives back the bytes in use, as often as they were asked."""
    if len(answers) != len(calls):
        raise Wrong(f"{who}: {len(calls)} calls, {len(answers)} answers")
    looked = [in_use(who, call, *answer) for call, answer in zip(calls, answers)]
    return [used for used in looked if used is not None]
