"""Single calls of the replay program, each with the most bytes that it may take and leave."""
import base64
import json
from typing import NamedTuple

from shared.held import HeldProgram
from shared.report import fault_of, want
from shared.script import SEGMENT_CELLS
from sizing.host_size import ROW, ROW_NAMES, ROW_VALUE, SEGMENT_MOST, TENANT_MOST

KEYS = 240_000
CELLS = 1_048_576
# As many operations as a branch of a transaction may have.
MAX_OPS = 128
# A tenant that is added with so many cells, and one that is resized from so many to twice as many.
SMALL = 65_536
# What a tenant's rooms take for a cell, with TENANT_MOST beside: lists have 512 places for each 240 items, and an item has 4
# bytes in each of the index's and the order's two, 32 among the leases and 16 among their keys; what collects the leases that
# have run out has 24, and a segment's bay 48.
CELL_ROOMS = 164
ROWS = 1_000
# A long value, in bytes: about half of the longest body.
LONG = 1_000_000

# What a call takes beside rows and lists: the tree of its short body, what is planned of it, and a text without rows.
FRONT = 2_048
# What an operation of a transaction takes while its body is a tree; and then the request, the change, and the answer.
OPERATION_READ, OPERATION_PLANNED = 2_304, 512
# A place in a list of cells; a row without its key and its value; and a change that a plan writes, with its tag.
CELL_NUMBER, ROW_HELD, CHANGE = 4, 80, 88
# The notes of a watch.
RING = 256 * 16
# A long list is rounded up to pages. One that doubles is held twice while it moves: as it was, and for twice as many.
PAGE, DOUBLED = 4_096, 3


def text(data):
    return base64.b64encode(data).decode()


def block(size):
    """What the allocator keeps for so many bytes."""
    return max(24, (size + 8 + 15) // 16 * 16 - 8) if size else 0


def listed(size, count=KEYS):
    """A list of so many items of a size."""
    return size * count + PAGE


def row(key, value):
    """The bytes of one row that is answered, by the lengths of its key and its value: as it is held and as it is written."""
    return ROW_HELD + block(key) + block(value) + ROW + len(text(bytes(key))) + len(text(bytes(value)))


def written(key, value, digits):
    """The bytes of a row that is written from its cells, by the lengths of its key and its value, with three such numbers."""
    return ROW_NAMES + 3 * digits + len(text(bytes(key))) + ROW_VALUE + len(text(bytes(value)))


def key_of(number):
    return b"key%06d" % number


VALUE = b"v"
ONE_ROW = row(len(key_of(0)), len(VALUE))
ONE_WRITTEN = written(len(key_of(0)), len(VALUE), len(str(KEYS // MAX_OPS)))


class Single(NamedTuple):
    """A call, or a line of the operator, with the front of its answer and the most bytes that it may take and leave."""

    name: str
    line: str
    answer: str
    most: int
    left: int = 0


def call(path, body, tenant="one"):
    return f"call POST /t/{tenant}/v3/{path} {json.dumps(body, separators=(',', ':'))}\n"


def all_keys(**more):
    return {"key": "AA==", "range_end": "AA==", **more}


def put_of(number, **more):
    return {"key": text(key_of(number)), "value": text(VALUE), **more}


def txn_of(numbers, *others):
    """A transaction that puts keys, and whatever else it does."""
    return call("kv/txn", {"success": [*({"request_put": put_of(number)} for number in numbers), *others]})


def filled():
    """The lines of a tenant with so many keys, and of one with none."""
    yield f"pool {(CELLS + 3 * SMALL) // SEGMENT_CELLS}\n"
    yield f"add one 7 {CELLS} 1\n"
    yield f"add two 8 {SMALL} 1\n"
    for first in range(0, KEYS, MAX_OPS):
        yield txn_of(range(first, min(first + MAX_OPS, KEYS)))


def ranges():
    """Reads of all keys. They leave nothing."""
    before = str(KEYS // MAX_OPS)
    cells = listed(CELL_NUMBER)
    for name, more, most in [
        ("a count", {"count_only": True}, 0),
        ("a count at a revision before", {"count_only": True, "revision": before}, 0),
        ("the first row", {"limit": "1"}, ONE_ROW),
        # They are written from their cells, one after another.
        (f"the first {ROWS:,} rows", {"limit": str(ROWS)}, ROWS * (CELL_NUMBER + ONE_WRITTEN) + ONE_ROW),
        # All cells are listed, and three rows are held at the most.
        ("the row of the least value", {"limit": "1", "sort_target": "VALUE"}, cells + 3 * ONE_ROW),
        ("the first row at a revision before", {"limit": "1", "revision": before}, DOUBLED * cells + ONE_ROW),
    ]:
        yield Single(f"{name} of {KEYS:,} keys", call("kv/range", all_keys(**more)), '200 {"count":"2', FRONT + most)


def transactions():
    """Transactions of as many operations as one may have. The tree of their bodies is gone before they are planned."""
    read, planned = MAX_OPS * OPERATION_READ, MAX_OPS * OPERATION_PLANNED
    behind = {"request_range": all_keys(limit="1")}
    answer = '200 {"header"'
    yield Single(f"{MAX_OPS} puts", txn_of(range(MAX_OPS)), answer, FRONT + read)
    # A range of an interval in which puts are pending lists its cells.
    line = txn_of(range(MAX_OPS - 1), behind)
    most = FRONT + max(read, planned + listed(CELL_NUMBER) + ONE_ROW)
    # It is the longest line so far, and the program keeps room for that, which doubles.
    yield Single(f"a range behind {MAX_OPS - 1} pending puts", line, answer, most, 2 * len(line))


def compares():
    """A transaction that compares as many versions as one may, and does nothing."""
    compare = {"key": text(key_of(0)), "target": "VERSION", "result": "GREATER", "version": "0"}
    line = call("kv/txn", {"compare": [compare] * MAX_OPS})
    yield Single(f"{MAX_OPS} compares", line, '200 {"header"', FRONT + MAX_OPS * OPERATION_READ)


def short_calls():
    """Calls whose answers have at most a row."""
    watch = {"create_request": {"key": text(b"a"), "range_end": text(b"z")}}
    interval = 2 * block(1)
    yield Single("a grant", call("lease/grant", {"TTL": "100", "ID": "5"}), '200 {"ID":"5"', FRONT)
    yield Single("a put that takes a lease", call("kv/put", put_of(7, lease="5")), '200 {"header"', FRONT)
    yield Single("a keepalive", call("lease/keepalive", {"ID": "5"}), '200 {"result":{"ID":"5"', FRONT)
    yield Single("all leases", call("lease/leases", {}), '200 {"header"', FRONT)
    yield Single("a lease and its key", call("lease/timetolive", {"ID": "5", "keys": True}), '200 {"ID":"5"', FRONT)
    yield Single("a watch", call("watch", watch), '200 {"result":{"created":true', FRONT + RING, block(RING) + interval)
    yield Single("a put that is watched", call("kv/put", put_of(8)), '200 {"header"', FRONT)
    yield Single("a catch-up", "catchup one 1000\n", "204", 0)
    yield Single("a take", "take one 0\n", '200 {"result":{"events"', FRONT + ONE_ROW)
    yield Single("a quiet take", "take one 0\n", "204", 0)
    yield Single("the end of a watch", "drop one 0\n", "204", 0, -block(RING))
    yield Single("a tick", "tick one 1\n", "204", 0)
    yield Single("a status", call("maintenance/status", {}), '200 {"dbSize"', FRONT)
    yield Single("the alarms", call("maintenance/alarm", {}), '200 {"header"', FRONT)
    yield Single("a defragmentation", call("maintenance/defragment", {}), '200 {"header"', FRONT)
    yield Single("the end of a lease", call("lease/revoke", {"ID": "5"}), '200 {"header"', FRONT)
    yield Single("a compaction", call("kv/compaction", {"revision": str(KEYS // MAX_OPS)}), '200 {"header"', FRONT)


def long_calls():
    """Puts of a long value. Its text is held twice while the body is read, and is gone before the put is planned."""
    key, before = key_of(9), {"prev_kv": True}
    put = {"key": text(key), "value": text(bytes(LONG))}
    line, again = call("kv/put", put), call("kv/put", {**put, **before})
    held = 2 * len(put["value"])
    answer = '200 {"header"'
    # The program keeps room for the longest line, which doubles.
    yield Single("the first long put", again, answer, FRONT + DOUBLED * len(again) + held, 2 * len(again))
    yield Single("a long put", line, answer, FRONT + held)
    yield Single("a long put with the row before", again, answer, FRONT + 2 * LONG + row(len(key), LONG))


def large_calls():
    """A tenant that is added, with its rooms and no more; a resize, which has room at the most for what tools/size counts;
    and a delete of all keys."""
    rooms = CELL_ROOMS * SMALL + TENANT_MOST
    yield Single(f"a tenant of {SMALL:,} cells", f"add three 9 {SMALL} 1\n", "ok", rooms, rooms)
    yield Single("a resize to the quota that is", f"resize three {SMALL}\n", "ok", 0)
    room = SMALL // SEGMENT_CELLS * SEGMENT_MOST
    yield Single(f"a resize by {SMALL:,} cells", f"resize two {2 * SMALL}\n", "ok", room, room)
    yield Single("a resize back", f"resize two {SMALL}\n", "ok", 0)
    yield Single("the end of a tenant", "remove three\n", "ok", 0)
    deleted = listed(CELL_NUMBER) + listed(CHANGE)
    yield Single("a delete of all keys", call("kv/deleterange", all_keys()), '200 {"deleted":"2', FRONT + deleted)


def check(program, single):
    told, most, left = program.ask_alone(single.line.encode())
    print(f"{single.name}: {most:,} of {single.most:,} bytes, and {left:,} of {single.left:,} left", flush=True)
    want(told.startswith(single.answer.encode()), f"it is answered {told[:200]!r}")
    want(0 <= most <= single.most, "the call takes too much")
    want(left <= single.left, "the call leaves too much")


def results(path):
    """Of each call its name, and what is wrong with it, or nothing."""
    with HeldProgram(path) as program:
        for line in filled():
            told = program.ask_line(line.encode())
            want(told.startswith((b"ok", b"200")), f"{line[:100]} is answered {told[:200]!r}")
        want(program.held.now() > KEYS, "the allocator counts nothing")
        for kind in [ranges, transactions, compares, short_calls, long_calls, large_calls]:
            for single in kind():
                yield single.name, fault_of(check, program, single)
