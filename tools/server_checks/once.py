"""Tests of check-server that each call is made once, and answered to who asked it.

Each test is given the program, and raises `Wrong` where something is not as it is wanted. The tenant that is called is the
second of three; the other two stay as they were. By contract and by type a request is called once and answered once. What
threads do beside each other no contract says: so clients ask the same at the same time here, and what they are told has
to differ.
"""
import json
from concurrent.futures import ThreadPoolExecutor

from shared.http_client import path, request, text
from shared.report import want
from shared.server import Server, configuration, tenant_of
from shared.wanted import ALL

CLIENTS = 16
ROUNDS = 8
TENANT = "two"
# Over the length up to which an event loop reads a body: a worker reads it.
LONG = text(b"v" * 9_000)
# How many calls wait in a tenant's queue at once.
WAITING = 450
# What keeps a worker busy meanwhile, some times: ranges that look at each of so many rows.
BUSY, ROWS = 8, 1_000


def three(program, **members):
    tenants = [tenant_of(name, quota=65_536, **members) for name in ("one", TENANT, "three")]
    return Server(program, configuration(tenants, segments=4_096))


def told(client, call, body, tenant=TENANT):
    answer = client.call(tenant, call, json.dumps(body))
    want(answer.status == 200, f"{call} is answered {answer.status}: {answer.body[:80]}")
    return json.loads(answer.body)


def put(client, key, value):
    return int(told(client, "kv/put", {"key": key, "value": value})["header"]["revision"])


def create(key, value):
    """A transaction that puts a key where it is not there."""
    return {"compare": [{"key": key, "target": "CREATE", "create_revision": "0"}],
            "success": [{"request_put": {"key": key, "value": value}}]}


def all_at_once(server, ask):
    """What each of some clients is told, which ask at the same time; `ask` is given a client and its number."""
    clients = [server.connect() for _ in range(CLIENTS)]
    try:
        with ThreadPoolExecutor(CLIENTS) as threads:
            return list(threads.map(ask, clients, range(CLIENTS)))
    finally:
        for client in clients:
            client.close()


def others_are_untouched(client):
    for name in ("one", "three"):
        want(told(client, "kv/range", {"key": text(b"k")}, name)["header"]["revision"] == "1", f"{name} has changed")
        want("leases" not in told(client, "lease/leases", {}, name), f"{name} has a lease")


def a_call_is_made_once(program):
    """Brief calls, calls that wait for a worker, and bodies that a worker reads."""
    with three(program) as server, server.connect() as client:
        revision = 1
        for number in range(1, 20):
            for value in (text(b"short"), LONG):
                revision += 1
                want(put(client, text(b"k"), value) == revision, f"a put did not come to revision {revision}")
            for size, value in (("short", text(b"short")), ("long", LONG)):
                key = text(f"{size} {number}".encode())
                want(told(client, "kv/txn", create(key, value)).get("succeeded"), "a key was there before it was created")
                want("deleted" in told(client, "kv/deleterange", {"key": key}), "a key was deleted before")
                revision += 2
            told(client, "lease/grant", {"TTL": "600"})
            want(len(told(client, "lease/leases", {})["leases"]) == number, "more leases than were asked for")
        row = told(client, "kv/range", {"key": text(b"k")})["kvs"][0]
        want(row["version"] == "38", f"the key has version {row['version']}")
        others_are_untouched(client)


def equal_calls_are_each_made(program):
    """Puts, grants and transactions of many clients, the same to the byte."""
    with three(program) as server, server.connect() as client:
        revisions = []
        for number in range(ROUNDS):
            for value in (text(b"short"), LONG):
                revisions += all_at_once(server, lambda asker, _, value=value: put(asker, text(b"k"), value))
            leases = all_at_once(server, lambda asker, _: told(asker, "lease/grant", {"TTL": "600"})["ID"])
            want(len(set(leases)) == CLIENTS, "two clients were told one lease")
            for size, value in (("short", text(b"short")), ("long", LONG)):
                lock = create(text(f"{size} {number}".encode()), value)
                locked = all_at_once(server, lambda asker, _, lock=lock: told(asker, "kv/txn", lock).get("succeeded", False))
                want(sum(locked) == 1, f"{sum(locked)} clients have a lock")
                # It made a revision too.
                revisions.append(None)
        made = [revision for revision in revisions if revision is not None]
        want(len(set(made)) == len(made), "two puts were told one revision")
        last = int(told(client, "kv/range", {"key": text(b"k")})["header"]["revision"])
        want(last == 1 + len(revisions), f"{last - 1} revisions of {len(revisions)} changes")
        want(len(told(client, "lease/leases", {})["leases"]) == ROUNDS * CLIENTS, "leases that nobody was told")
        others_are_untouched(client)


def txn(operations):
    return json.dumps({"success": operations})


def calls_that_wait_are_each_made(program):
    """While their tenant keeps a worker busy, calls wait in its queue."""
    with three(program, open_connections=WAITING + BUSY + 8, budget=1 << 28) as server, server.connect() as client:
        for front in range(0, ROWS, 100):
            puts = [{"request_put": {"key": text(b"%05d" % number), "value": "dg=="}} for number in range(front, front + 100)]
            told(client, "kv/txn", {"success": puts})
        look = json.loads("{" + ALL + ',"sort_target":"VALUE","sort_order":"DESCEND","limit":"1"}')
        slow = request(path(TENANT, "kv/txn"), txn([{"request_range": look}] * 30))
        same = request(path(TENANT, "kv/txn"), txn([{"request_put": {"key": text(b"k"), "value": "dg=="}}]))
        clients = [server.connect() for _ in range(BUSY + WAITING)]
        try:
            for number, asker in enumerate(clients):
                asker.send(slow if number < BUSY else same)
            answers = [asker.answer() for asker in clients]
        finally:
            for asker in clients:
                asker.close()
        statuses = {answer.status for answer in answers}
        want(statuses == {200}, f"calls were answered {statuses}")
        made = {json.loads(answer.body)["header"]["revision"] for answer in answers[BUSY:]}
        want(len(made) == WAITING, f"{WAITING} puts were told {len(made)} revisions")
        row = told(client, "kv/range", {"key": text(b"k")})["kvs"][0]
        want(row["version"] == str(WAITING), f"the key has version {row['version']}")
        others_are_untouched(client)


TESTS = [a_call_is_made_once, equal_calls_are_each_made, calls_that_wait_are_each_made]
