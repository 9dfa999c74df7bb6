"""Answers that the server writes from their cells, each with the most bytes that it may take beside its text."""
from memory_checks.single import MAX_OPS, all_keys, key_of
from shared.held import Held
from shared.http_client import body_of, text
from shared.places import HOST_PROGRAM
from shared.report import fault_of, want
from shared.server import Server, configuration, tenant_of

ROWS = 10_000
VALUE = bytes(100)
CELLS = 65_536
# The rows lie in their cells, and no second time in a reply: beside the text stand their cells' numbers, and what a
# connection and other threads take.
MOST = 1.1


def filled(connection):
    """Puts all rows."""
    for first in range(0, ROWS, MAX_OPS):
        keys = map(key_of, range(first, min(first + MAX_OPS, ROWS)))
        puts = [{"request_put": {"key": text(key), "value": text(VALUE)}} for key in keys]
        told = connection.call("two", "kv/txn", body_of({"success": puts}).decode())
        want(told.status == 200, f"a transaction is answered {told.body[:200]!r}")


def parts():
    """A transaction of as many ranges as one may have, which give all rows."""
    ends = [ROWS * part // MAX_OPS for part in range(MAX_OPS + 1)]
    intervals = [{"key": text(key_of(first)), "range_end": text(key_of(end))} for first, end in zip(ends, ends[1:])]
    return {"success": [{"request_range": interval} for interval in intervals]}


# Of each answer its name, and the call.
ANSWERS = {
    f"a range of {ROWS:,} rows over the server": ("kv/range", all_keys()),
    f"a transaction of {MAX_OPS} ranges, of as many rows": ("kv/txn", parts()),
}


def beside(connection):
    """What the first and the third tenant are answered of a key of theirs, with their revisions."""
    told = [connection.call(name, "kv/range", body_of({"key": text(b"own")}).decode()).body for name in ("one", "three")]
    want(all(b'"kvs"' in body for body in told), f"the tenants beside it have no row: {told}")
    return told


def check(name, path):
    way, body = ANSWERS[name]
    asked = body_of(body).decode()
    tenants = [tenant_of("one"), tenant_of("two", CELLS), tenant_of("three")]
    with Held() as held, Server(path, configuration(tenants, segments=2 * CELLS // 64), held.variables) as server:
        with server.connect() as connection:
            for other in ("one", "three"):
                connection.call(other, "kv/put", body_of({"key": text(b"own"), "value": text(other.encode())}).decode())
            before = beside(connection)
            filled(connection)
            connection.call("two", way, asked)
            answer, most, left = held.of(lambda: connection.call("two", way, asked))
            want(beside(connection) == before, "the tenants beside it are answered otherwise")
    length = len(answer.body)
    print(f"{name}: {most:,} bytes for {length:,} of text, and {left:,} left", flush=True)
    want(length > ROWS * len(VALUE), f"it is answered {answer.body[:200]!r}")
    want(most <= MOST * length, "the answer takes too much")


def results(path=HOST_PROGRAM):
    """Of each answer its name, and what is wrong, or nothing."""
    for name in ANSWERS:
        yield name, fault_of(check, name, path)
