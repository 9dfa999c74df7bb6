"""What tools/move-tenant does: the copy of a tenant at another host, which follows the old one until the switch."""
import contextlib
import http.client
import itertools
import json
import os
import queue
import socket
import sys
import threading
import time
from urllib.parse import urlsplit

sys.path.insert(0, os.path.join(os.path.dirname(__file__), os.pardir, os.pardir, "examples", "clients"))

from gateway import Canceled, Failed, Gateway, Refused

ALL = {"key": b"\0", "range_end": b"\0"}
PAGE = 128
OPERATIONS = 128
# So many bytes of keys and values go in one transaction, or one row that has more.
BYTES = 1_000_000
# The copy's own history is forgotten after so many revisions.
FORGET = 200
# So few revisions behind the old host a copy has caught up.
NEAR = 50
COMPACTED, LEASE_NOT_FOUND = 11, 5


class Ends(Exception):
    """The move ends with this word."""


class Overtaken(Exception):
    """The old tenant was compacted, and the copy has to begin again."""


class Operator:
    """The operator's calls of a host."""

    def __init__(self, url, token=None):
        self.url, self.address = url, urlsplit(url).netloc
        self.headers = {"authorization": "Bearer " + token} if token else {}

    def ask(self, method, target, body=None):
        """The status of a call, and what it says."""
        connection = http.client.HTTPConnection(self.address, timeout=30)
        try:
            connection.request(method, target, None if body is None else json.dumps(body), self.headers)
            told = connection.getresponse()
            said = told.read()
            return told.status, json.loads(said) if said else {}
        except (OSError, http.client.HTTPException, ValueError) as fault:
            raise Ends(f"the operator of {self.url} does not answer: {fault!r}") from fault
        finally:
            connection.close()

    def tenant(self, name):
        """What is told of a tenant, or None where there is none."""
        status, said = self.ask("GET", f"/tenants/{name}")
        if status not in (200, 404) or (status == 404 and said.get("error") != "tenant"):
            raise Ends(f"the operator of {self.url} answers {status} {said}")
        return said if status == 200 else None

    def does(self, wanted, *asked):
        status, said = self.ask(*asked)
        if status != wanted:
            raise Ends(f"the operator of {self.url} answers {status} {said} to {' '.join(asked[:2])}")
        return said


class Side:
    """A tenant on one host: its plain calls and the operator's."""

    def __init__(self, name, host, operator):
        self.name, self.operator, self.url = name, operator, f"{host.rstrip('/')}/t/{name}"
        self.gateway = Gateway(self.url, timeout=60)

    def call(self, what, **members):
        try:
            return self.gateway.call(what, **members)
        except Refused as fault:
            if fault.code == COMPACTED and "compacted" in fault.message and what == "kv/range":
                raise Overtaken(str(fault)) from fault
            raise

    def told(self):
        return self.operator.tenant(self.name)

    def leases(self):
        return {lease["ID"] for lease in self.call("lease/leases").get("leases", [])}

    def time_of(self, lease):
        """The seconds that a lease was granted, or None where it has ended."""
        return self.call("lease/timetolive", ID=lease).get("grantedTTL")

    def rows(self):
        """All rows at one revision, and that revision."""
        answer = self.call("kv/range", **ALL, limit=PAGE)
        rows, revision = answer.get("kvs", []), answer["header"]["revision"]
        while answer.get("more"):
            begin = {**ALL, "key": rows[-1]["key"] + b"\0"}
            answer = self.call("kv/range", **begin, limit=PAGE, revision=revision)
            rows += answer.get("kvs", [])
        return rows, revision


class Followed(threading.Thread):
    """All that changes at a tenant from a revision on: what is put into its queue are the events of one revision, and at
    last the fault that ended it. It reads on by itself, so that no compaction overtakes it."""

    def __init__(self, side, revision):
        super().__init__(daemon=True)
        self.watch = side.gateway.watch(silence=86_400, **ALL, start_revision=revision + 1)
        self.changes = queue.Queue()
        self.start()

    def run(self):
        try:
            for result in self.watch:
                for events in by_revision(result.get("events", [])):
                    self.changes.put(events)
        except Canceled as fault:
            self.changes.put(Overtaken(str(fault)))
        except Exception as fault:  # whatever ended it, the copy has to know
            self.changes.put(fault)

    def close(self):
        with contextlib.suppress(OSError, AttributeError):  # it may have ended by itself
            self.watch.connection.sock.shutdown(socket.SHUT_RDWR)
        self.join(10)
        self.watch.close()


def is_delete(event):
    return event.get("type") == "DELETE"


def created(row):
    return row["create_revision"]


def by_revision(events):
    """The events of each revision together."""
    groups = []
    for event in events:
        if groups and groups[-1][-1]["kv"]["mod_revision"] == event["kv"]["mod_revision"]:
            groups[-1].append(event)
        else:
            groups.append([event])
    return groups


class Kept(threading.Thread):
    """Keeps leases alive, those of a dictionary of lease and seconds, by a connection of its own."""

    def __init__(self, side):
        super().__init__(daemon=True)
        self.gateway, self.leases, self.due, self.over = Gateway(side.url), {}, {}, threading.Event()
        self.start()

    def run(self):
        while not self.over.wait(0.1):
            now = time.monotonic()
            for lease, seconds in list(self.leases.items()):
                if self.due.get(lease, 0) <= now:
                    # What fails is tried again at the next round; one that was lost shows when both are compared.
                    with contextlib.suppress(Failed):
                        self.gateway.call("lease/keepalive", ID=lease)
                        self.due[lease] = now + seconds / 4

    def close(self):
        self.over.set()
        self.join(10)
        self.gateway.connection.close()


class Copy:
    """The tenant at the new host, made equal to the old one and kept so."""

    def __init__(self, old, new):
        self.old, self.new, self.kept = old, new, Kept(new)
        self.followed, self.applied, self.since, self.rows = None, 0, 0, 0
        # The keys that are there, and changes of them that are still to be made.
        self.live, self.pending = set(), {}

    def close(self):
        self.kept.close()
        self.let_go()

    def let_go(self):
        if self.followed:
            self.followed.close()
            self.followed = None

    def begin(self):
        """Copies all at one revision, and follows from there on."""
        self.let_go()
        self.empty()
        for lease in self.old.leases():
            self.grant(lease)
        rows, revision = self.old.rows()
        self.followed, self.applied = Followed(self.old, revision), revision
        # In the order in which they were created, which locks and elections go by; together what came together.
        self.rows = len(rows)
        for _, together in itertools.groupby(sorted(rows, key=created), created):
            self.change([{"kv": row} for row in together])
        self.forget()

    def empty(self):
        """What an earlier try left goes."""
        self.kept.leases, self.live, self.pending = {}, set(), {}
        self.new.call("maintenance/alarm", action="DEACTIVATE", alarm="NOSPACE")
        self.new.call("kv/deleterange", **ALL)
        for lease in self.new.leases():
            self.new.call("lease/revoke", ID=lease)
        self.forget()

    def forget(self):
        """Forgets the copy's own history."""
        self.since = 0
        revision = self.new.call("maintenance/status")["header"]["revision"]
        with contextlib.suppress(Refused):  # it was compacted there before
            self.new.call("kv/compaction", revision=revision)

    def grant(self, lease):
        """Grants a lease of the old tenant, unless it is there or has ended; tells whether it is there."""
        if lease in self.kept.leases:
            return True
        if not (seconds := self.old.time_of(lease)):
            return False
        self.new.call("lease/grant", ID=lease, TTL=seconds)
        self.kept.leases = {**self.kept.leases, lease: seconds}
        return True

    def change(self, events):
        """Does at the new tenant what the events of one revision say, in one transaction if it has room for them."""
        operations, size = [], 0
        for event in events:
            row = event["kv"]
            length = len(row["key"]) + len(row.get("value", b""))
            if operations and (len(operations) == OPERATIONS or size + length > BYTES):
                self.do(operations)
                operations, size = [], 0
            operations.append(self.operation(event))
            size += length
            (self.live.discard if is_delete(event) else self.live.add)(row["key"])
        self.do(operations)
        self.since += 1
        if self.since >= FORGET:
            self.forget()

    def do(self, operations):
        """By itself a put may be as long as the old host took it, and a transaction would be longer."""
        if len(operations) == 1 and (put := operations[0].get("request_put")):
            self.new.call("kv/put", **put)
        else:
            self.new.call("kv/txn", success=operations)

    def operation(self, event):
        row = event["kv"]
        if is_delete(event):
            return {"request_delete_range": {"key": row["key"]}}
        # A lease that has ended meanwhile takes its key along, which is told next.
        lease = {"lease": row["lease"]} if row["lease"] and self.grant(row["lease"]) else {}
        return {"request_put": {"key": row["key"], "value": row["value"], **lease}}

    def take(self, events):
        """Does what the events of one revision say, now or later: where no key comes, up to so many changes go in one
        transaction, since nobody reads them yet, and of a key the last one counts alone."""
        comes = any(not is_delete(event) and event["kv"]["key"] not in self.live for event in events)
        if comes or len(self.pending) + len(events) > OPERATIONS:
            self.flush()
        if comes:
            self.change(events)
            return
        for event in events:
            self.pending[event["kv"]["key"]] = event
            if is_delete(event):
                self.live.discard(event["kv"]["key"])

    def flush(self):
        if self.pending:
            self.change(list(self.pending.values()))
            self.pending = {}

    def follow(self, revision, seconds):
        """Does what has changed up to a revision of the old tenant."""
        last = time.monotonic() + seconds
        while self.applied < revision:
            try:
                events = self.followed.changes.get(timeout=max(0.01, last - time.monotonic()))
            except queue.Empty:
                raise Ends(f"the watch of the old tenant tells nothing behind revision {self.applied}") from None
            if isinstance(events, Exception):
                raise events
            self.take(events)
            self.applied = events[-1]["kv"]["mod_revision"]
        self.flush()

    def catch_up(self, seconds):
        """Follows until little is missing; what is written faster than it is copied can't be moved."""
        last = time.monotonic() + seconds
        while (revision := self.old.told()["revision"]) > self.applied + NEAR:
            if time.monotonic() > last:
                raise Ends("the old tenant is written faster than the new one can follow")
            self.follow(revision, seconds)

    def keep_all_alive(self, *sides):
        """Each lease has its whole time from now on."""
        for side in sides:
            for lease in self.kept.leases:
                side.call("lease/keepalive", ID=lease)

    def match_leases(self):
        """Grants what has come without a key, and revokes what has ended."""
        there = self.old.leases()
        for lease in there:
            self.grant(lease)
        for lease in set(self.kept.leases) - there:
            self.kept.leases = {one: seconds for one, seconds in self.kept.leases.items() if one != lease}
            try:
                self.new.call("lease/revoke", ID=lease)
            except Refused as fault:
                if fault.code != LEASE_NOT_FOUND:
                    raise

    def finish(self, seconds):
        """Comes to the very state of the old tenant, of which nothing but ends of leases changes any more."""
        last = time.monotonic() + seconds
        while True:
            self.follow(self.old.told()["revision"], seconds)
            self.match_leases()
            old, new = self.old.told(), self.new.told()
            if old["revision"] == self.applied and all(old[what] == new[what] for what in ["keys", "leases"]):
                break
            if time.monotonic() > last and old["revision"] != self.applied:
                raise Ends("the old tenant goes on changing")
            if time.monotonic() > last:
                raise Ends(f"the copy differs: {counts(old)} at the old host, {counts(new)} at the new one")
        if new["revision"] <= old["revision"]:
            raise Ends(f"the old tenant has come to revision {old['revision']}, the new one to {new['revision']}")
        self.forget()


def counts(told):
    return f"{told['keys']} keys and {told['leases']} leases"
