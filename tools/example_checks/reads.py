"""Checks of check-examples: the client, what reads and what follows.

Each is given a stage, and raises `Wrong` where something is not as it is wanted.
"""
import signal
import socket
import threading
import time

from example_checks.stage import wait_until, want_open_watches
from shared.report import want
from shared.wanted import (REFUSALS, WATCHES, cancel_line, created_line, delete_event, done, events_line, found,
                           put_event, row)

import pages as pages_module
from configuration import Followed
from gateway import Canceled, Gateway, NoAnswer, Refused
from keys import interval

EVERY_BYTE = bytes(range(256))
# The code and the text of a refusal are in its body.
CALLS_REFUSED = {
    "NoKey": ("kv/put", {"value": b"1"}),
    "Future": ("kv/range", {"key": b"a", "revision": 99}),
    "LeaseNotFound": ("lease/revoke", {"ID": 9}),
    "NoPath": ("kv/none", {}),
    "TtlTooLarge": ("lease/grant", {"TTL": 9_000_000_001}),
}


def failure(kind, asked, *arguments, **members):
    """The failure of this kind that is raised."""
    try:
        asked(*arguments, **members)
    except kind as fault:
        return fault
    want(False, f"no {kind.__name__}")


# The client.


def a_client_has_bytes_and_numbers(stage):
    gateway = Gateway(stage.url())
    gateway.call("lease/grant", TTL=100, ID=-5)
    put = gateway.call("kv/put", key=EVERY_BYTE, value=EVERY_BYTE, lease=-5)
    want(put["header"] == {"cluster_id": 7, "member_id": 1, "raft_term": 1, "revision": 2}, f"a put: {put}")
    put = gateway.call("kv/put", key=b"12", value=b"")
    want(put["header"]["revision"] == 3, f"a put: {put}")
    rows = [{"key": EVERY_BYTE, "value": EVERY_BYTE, "create_revision": 2, "mod_revision": 2, "lease": -5},
            {"key": b"12", "value": b"", "create_revision": 3, "mod_revision": 3, "lease": 0}]
    answer = gateway.call("kv/range", **interval(b""))
    want(answer["kvs"] == [{**one, "version": 1} for one in rows] and answer["count"] == 2, f"a range: {answer}")
    left = gateway.call("lease/timetolive", ID=-5, keys=True)
    want(left["keys"] == [EVERY_BYTE] and left["grantedTTL"] == 100, f"a time to live: {left}")
    kept = gateway.call("lease/keepalive", ID=-5)
    want((kept["ID"], kept["TTL"]) == (-5, 100), f"a keepalive: {kept}")
    for members in [{"key": "a"}, {"key": b"a", "lease": b"1"}, {"key": b"a", "value": "1"}]:
        failure(TypeError, gateway.call, "kv/put", **members)


def a_client_tells_refusals(stage):
    gateway = Gateway(stage.url())
    for name, (call, members) in CALLS_REFUSED.items():
        body = REFUSALS[name][1].decode()
        fault = failure(Refused, gateway.call, call, **members)
        want(f'"code":{fault.code},' in body and f'"message":"{fault.message}"' in body, f"{name}: {fault!r}")
        want(not fault.is_temporary, f"{name} is temporary")
    with_all = [gateway.watch(key=b"a") for _ in range(WATCHES)]
    fault = failure(Refused, gateway.watch, key=b"a")
    want(fault.code == 8 and fault.is_temporary, f"a watch too many: {fault!r}")
    for watch in with_all:
        watch.close()


def a_client_without_a_host(stage):
    """Nobody listens; a connection ends; something else answers."""
    relay = stage.relay()
    gateway = Gateway(stage.url(relay.port))
    relay.cut()
    failure(NoAnswer, gateway.call, "kv/range", key=b"a")
    failure(NoAnswer, gateway.watch, key=b"a")
    relay.mend()
    want(gateway.call("kv/range", key=b"a")["header"]["revision"] == 1, "no answer through a relay that is mended")
    closed = socket.create_server(("127.0.0.1", 0))
    port = closed.getsockname()[1]
    closed.close()
    failure(NoAnswer, Gateway(stage.url(port)).call, "kv/range", key=b"a")
    others = [(502, b"<html>"), (404, b'"none"'), (200, b"[]"), (200, b"")]
    gateway = Gateway(stage.url(stage.scripted(*others).port))
    for _ in others:
        failure(NoAnswer, gateway.call, "kv/range", key=b"a")


def a_client_keeps_its_connection(stage):
    """But none that the server is about to end, and none on which an answer may be left."""
    relay = stage.relay()
    gateway = Gateway(stage.url(relay.port))
    ports = set()
    for _ in range(3):
        gateway.call("kv/put", key=b"a")
        ports.add(gateway.connection.sock.getsockname())
    want(len(ports) == 1, "three calls take more than one connection")
    gateway.used -= 25
    gateway.call("kv/put", key=b"a")
    want(gateway.connection.sock.getsockname() not in ports, "a connection is used after 25 seconds without a call")
    gateway.connection.getresponse = interrupted
    failure(KeyboardInterrupt, gateway.call, "kv/put", key=b"a")
    del gateway.connection.getresponse
    want(gateway.call("lease/grant", TTL=50)["TTL"] == 50, "the answer of another call")


def interrupted():
    raise KeyboardInterrupt


def a_watch_of_a_client(stage):
    gateway = Gateway(stage.url())
    gateway.call("kv/put", key=b"a", value=b"1")
    with gateway.watch(1, key=b"a", start_revision=2) as watch:
        line = watch.connection.sock
        want(line.getsockopt(socket.SOL_SOCKET, socket.SO_KEEPALIVE) == 1, "no keepalive")
        want(line.getsockopt(socket.IPPROTO_TCP, socket.TCP_KEEPIDLE) == 20, "another keepalive")
        event, = next(watch)["events"]
        want(event["kv"]["value"] == b"1" and event["kv"]["mod_revision"] == 2, f"{event}")
        moment = time.monotonic()
        fault = failure(NoAnswer, next, watch)
        want(isinstance(fault.__cause__, TimeoutError), f"silence is told as {fault!r}")
        want(time.monotonic() - moment < 3, "a silence of one second is borne for longer")
    gateway.call("kv/compaction", revision=2)
    failure(Canceled, next, gateway.watch(key=b"a", start_revision=1))
    failure(Canceled, gateway.watch, key=b"a", start_revision=4)
    gateway.cluster = 9
    failure(Canceled, gateway.watch, key=b"a", start_revision=3)


def the_interval_of_a_prefix(_):
    """All keys that begin so, and no other: each key from the first on and before the end, by FORMATS and BEHAVIOUR."""
    ends = {b"a": b"b", b"a/": b"a0", b"a\xff": b"b", b"a\xfe\xff\xff": b"a\xff", b"\xff": b"\0", b"\xff\xff": b"\0"}
    for prefix, wanted in ends.items():
        want(interval(prefix) == {"key": prefix, "range_end": wanted}, f"{prefix!r}: {interval(prefix)}")
    want(interval(b"") == {"key": b"\0", "range_end": b"\0"}, f"all keys: {interval(b'')}")


def end_without_a_tenant(stage, arguments):
    """Programs whose tenant is not there end, since no try does better."""
    url = stage.url().rpartition("/")[0] + "/nobody"
    runs = [stage.run(name, url, *more) for name, more in arguments.items()]
    for run in runs:
        run.expect_end(1, 10)
        want(b"no such tenant" in run.told_errors(), f"{run.who} tells {run.told_errors()[-600:]}")


def programs_without_a_tenant(stage):
    end_without_a_tenant(stage, {"configuration.py": ["a"], "discovery.py": ["a"], "registration.py": ["a", "1"],
                                 "lock.py": ["a"], "leader.py": ["a"], "pages.py": ["a"]})


def programs_by_curl_without_a_tenant(stage):
    end_without_a_tenant(stage, {"watch.sh": ["a"], "put_get.sh": ["a", "1"], "lock.sh": ["a", 5, "true"]})


# Configurations.


def a_configuration_is_followed(stage):
    gateway = Gateway(stage.url())
    gateway.call("kv/put", key=b"apq", value=b"1")
    gateway.call("kv/put", key=b"app/a", value=b"1")
    run = stage.run("configuration.py", stage.url(), "app/")
    run.expect("put app/a 1", "revision 3")
    gateway.call("kv/put", key=b"app/b", value=b"2")
    run.expect("put app/b 2", "revision 4")
    both = [{"request_put": {"key": b"app/a", "value": b"3"}}, {"request_delete_range": {"key": b"app/b"}}]
    gateway.call("kv/txn", success=both)
    run.expect("put app/a 3", "delete app/b", "revision 5")
    gateway.call("kv/put", key=b"app", value=b"4")
    gateway.call("kv/deleterange", key=b"app/a")
    run.expect("delete app/a", "revision 7")


def a_configuration_survives_a_cut(stage):
    """What was written meanwhile is told once each, in its order, and without a further range."""
    gateway, relay = Gateway(stage.url()), stage.relay()
    run = stage.run("configuration.py", stage.url(relay.port), "app/")
    run.expect("revision 1")
    gateway.call("kv/put", key=b"app/b")
    run.expect("put app/b ", "revision 2")
    for revision in range(3, 43, 20):
        relay.cut()
        for number in range(revision, revision + 20):
            gateway.call("kv/put", key=b"app/a", value=b"%d" % number)
        run.expect_quiet(0.3)
        relay.mend()
        told = [run.told_line(6)]
        while told[-1] != f"revision {revision + 19}":
            told.append(run.told_line(6))
        puts = [f"put app/a {number}" for number in range(revision, revision + 20)]
        want([line for line in told if line.startswith("put")] == puts, f"after a cut: {told}")
    want(len(relay.moments_of("kv/range")) == 1, "a range though nothing was compacted")
    want(len(relay.moments_of("watch")) == 3, "the watch was not opened anew after each cut")
    tried = relay.tried
    relay.cut()
    time.sleep(2.5)
    # Each wait is at least half of twice the one before: 0.05, 0.1, 0.2, 0.4, 0.8, 1.6 seconds.
    want(3 <= relay.tried - tried <= 6, f"{relay.tried - tried} tries in 2.5 seconds")


def a_configuration_survives_a_compaction(stage):
    """The revisions behind the last one that was seen are compacted while it is cut: the keys are read anew."""
    gateway, relay = Gateway(stage.url()), stage.relay()
    for key in [b"app/a", b"app/b", b"app/c"]:
        gateway.call("kv/put", key=key, value=b"1")
    run = stage.run("configuration.py", stage.url(relay.port), "app/")
    run.expect("put app/a 1", "put app/b 1", "put app/c 1", "revision 4")
    relay.cut()
    gateway.call("kv/deleterange", key=b"app/a")
    gateway.call("kv/put", key=b"app/c", value=b"2")
    gateway.call("kv/put", key=b"app/d", value=b"3")
    gateway.call("kv/compaction", revision=7)
    relay.mend()
    run.expect("delete app/a", "put app/c 2", "put app/d 3", "revision 7", seconds=6)
    want(len(relay.moments_of("kv/range")) == 2, "no second range")
    gateway.call("kv/put", key=b"app/b", value=b"4")
    run.expect("put app/b 4", "revision 8")


def a_configuration_survives_a_new_host(stage):
    """The host is stopped, which loses all. One that has come less far is known by its revision, one that has come
    further by its cluster."""
    gateway, relay = Gateway(stage.url()), stage.relay()
    for number in range(5):
        gateway.call("kv/put", key=b"app/a", value=b"%d" % number)
    run = stage.run("configuration.py", stage.url(relay.port), "app/")
    run.expect("put app/a 4", "revision 6")
    wanted = ["delete app/a", "put app/b 5"]
    for members, revision in [({}, 2), ({"cluster_id": "8", "first": 100}, 101)]:
        relay.cut()
        host = stage.another_host(**members)
        gateway = Gateway(stage.url(host.port))
        gateway.call("kv/put", key=b"app/b", value=b"5")
        relay.mend(host.port)
        run.expect(*wanted, f"revision {revision}", seconds=6)
        gateway.call("kv/put", key=b"app/c", value=b"6")
        run.expect("put app/c 6", f"revision {revision + 1}")
        # On the second one the row of b has other numbers, and c is not there.
        wanted = ["put app/b 5", "delete app/c"]


def a_configuration_goes_on_where_it_has_come(stage):
    """The start of each watch, of a host that answers by a script."""
    a2 = put_event("YQ==", 6, 6, "Mg==", 1)
    b = put_event("Yg==", 7, 7, "MQ==", 1)
    progress = b'{"result":{"header":{"cluster_id":"7","member_id":"1","raft_term":"1","revision":"40"}}}\n'
    host = stage.scripted(
        found(row("YQ==", 5, 5, "MQ==", 1), 5),
        # The header is ahead of the events, of which there are more; then half a line. Neither counts.
        [created_line(30), events_line([a2, b], 30), events_line([delete_event("YQ==", 8)], 30)[:-9]],
        [created_line(40), events_line([delete_event("YQ==", 8)], 40), progress],
        [created_line(50), cancel_line(45, 50)],
        found(row("Yg==", 7, 7, "MQ==", 1), 50),
        # It begins anew.
        [created_line(3), events_line([a2], 3)],
        done(3),
        [created_line(3)])
    run = stage.run("configuration.py", stage.url(host.port), "a")
    run.expect("put a 1", "revision 5", "put a 2", "put b 1", "revision 7", "delete a", "revision 8")
    run.expect("revision 50", "delete b", "revision 3", seconds=10)
    wait_until(lambda: len(host.asked) == 9, f"asked {host.asked}")
    asked = [body["create_request"] if "create_request" in body else body for _, body in host.asked]
    starts = [members.get("start_revision") for members in asked]
    want(starts[:8] == [None, 6, 8, 41, None, 51, None, 4], f"the watches begin at {starts}")
    want(all(members.get("progress_notify") for members in asked if "start_revision" in members), "no word of progress")


def others_may_read_a_configuration(stage):
    """They see all that a transaction changed, or none of it: what they have in hand stays as it is."""
    gateway, followed = Gateway(stage.url()), Followed(stage.url(), b"app/")
    gateway.call("kv/put", key=b"app/a", value=b"1")
    changes = followed.changes()
    next(changes)
    in_hand = followed.rows
    both = [{"request_put": {"key": key, "value": b"2"}} for key in [b"app/a", b"app/b"]]
    gateway.call("kv/txn", success=both)
    told = [(key, before and before["value"], since["value"]) for key, before, since in next(changes)]
    want(told == [(b"app/a", b"1", b"2"), (b"app/b", None, b"2")], f"changes: {told}")
    want([one["value"] for one in in_hand.values()] == [b"1"], f"in hand: {in_hand}")
    want([one["value"] for one in followed.rows.values()] == [b"2", b"2"], f"since: {followed.rows}")


# Pages.


def pages_are_of_one_revision(stage):
    """After each page others write before and behind it."""
    gateway, writer = Gateway(stage.url()), Gateway(stage.url())
    wanted = {b"app/%03d" % number: b"%d" % number for number in range(50)}
    for key, value in wanted.items():
        gateway.call("kv/put", key=key, value=value)
    sizes, rows = [], []
    for revision, page in pages_module.pages(gateway, b"app/", 7):
        want(revision == 51, f"a page of {revision}")
        sizes.append(len(page))
        rows += page
        for number in [len(rows) - 1, len(rows) + 2]:
            writer.call("kv/deleterange", key=b"app/%03d" % number)
        writer.call("kv/put", key=b"app/%03d" % (len(rows) + 1), value=b"new")
        writer.call("kv/put", key=b"app/%03d!" % (len(rows) + 3), value=b"new")
    want(sizes == [7] * 7 + [1], f"pages of {sizes}")
    want({found["key"]: found["value"] for found in rows} == wanted, "other rows")


def pages_while_another_writes(stage):
    """The program's list is what the writer knows to have been there at its revision."""
    url, stop, states = stage.url(), threading.Event(), {1: {}}

    def write():
        gateway, state, number = Gateway(url), {}, 0
        # A writer that never waits would fill the tenant's quota, which nothing compacts.
        while not stop.wait(0.005):
            key, value = b"app/%02d" % (number * 37 % 100), b"%d" % number
            if number % 3 == 2 and key in state:
                answer = gateway.call("kv/deleterange", key=key)
                state = {one: state[one] for one in state if one != key}
            else:
                answer = gateway.call("kv/put", key=key, value=value)
                state = {**state, key: value}
            states[answer["header"]["revision"]] = state
            number += 1

    writer = threading.Thread(target=write, daemon=True)
    writer.start()
    try:
        for _ in range(3):
            time.sleep(0.3)
            run = stage.run("pages.py", url, "app/", 3)
            revision, lines = run.number_after("revision"), run.rest()
            wait_until(lambda: max(states) > revision, f"no write after {revision}")
            rows = [f"{key.decode()} {value.decode()}" for key, value in sorted(states[revision].items())]
            want(lines == rows, f"at {revision}: {lines}, wanted {rows}")
    finally:
        stop.set()
        writer.join()


class Compacting(Gateway):
    """Writes and compacts at the newest revision before some of its ranges."""

    def __init__(self, url, at):
        super().__init__(url)
        self.ranges, self.at, self.other = 0, at, Gateway(url)

    def call(self, name, **members):
        self.ranges += 1
        if self.ranges in self.at:
            put = self.other.call("kv/put", key=b"app/new", value=b"%d" % self.ranges)
            self.other.call("kv/compaction", revision=put["header"]["revision"])
        return super().call(name, **members)


def pages_begin_anew_after_a_compaction(stage):
    gateway = Gateway(stage.url())
    for number in range(9):
        gateway.call("kv/put", key=b"app/%d" % number)
    compacting = Compacting(stage.url(), {3})
    revision, rows = pages_module.listed(compacting, b"app/", 4)
    keys = [found["key"] for found in rows]
    want(revision == 11 and keys == [b"app/%d" % number for number in range(9)] + [b"app/new"], f"{revision}: {keys}")
    want(compacting.ranges == 6, f"{compacting.ranges} ranges")
    fault = failure(Refused, pages_module.listed, Compacting(stage.url(), range(2, 100)), b"app/", 4, tries=3)
    want(fault.code == 11, f"it gives up by {fault!r}")


# By curl.


def put_get_by_curl(stage):
    gateway = Gateway(stage.url())
    values = ["1", "", "two words", 'a "quoted" \\ value', "two\nlines\n", "grüße", "x" * 50_000, "-n", "%s"]
    for number, value in enumerate(values):
        key = f'key "{number}'
        run = stage.run("put_get.sh", stage.url(), key, value)
        told = "\n".join(run.rest())
        want(told == value.rstrip("\n"), f"told {told[:99]!r}, wanted {value[:99]!r}: {run.told_errors()[-600:]}")
        stored, = gateway.call("kv/range", key=key.encode())["kvs"]
        want(stored["value"] == value.encode(), f"stored {stored}")
    refused = stage.run("put_get.sh", stage.url(), "", "1")
    refused.expect_end(1)
    want(REFUSALS["NoKey"][1] in refused.told_errors(), f"a refusal: {refused.told_errors()[-600:]}")


def watch_by_curl(stage):
    gateway, relay = Gateway(stage.url()), stage.relay()
    run = stage.run("watch.sh", stage.url(relay.port), "a b")
    run.expect("1 delete")
    gateway.call("kv/put", key=b"a b", value=b"1")
    run.expect("2 put 1")
    gateway.call("kv/deleterange", key=b"a b")
    run.expect("3 delete")
    relay.cut()
    for number in range(4, 24):
        gateway.call("kv/put", key=b"a b", value=b"%d" % number)
    relay.mend()
    run.expect(*[f"{number} put {number}" for number in range(4, 24)], seconds=6)
    want(len(relay.moments_of("kv/range")) == 1, "a range though nothing was compacted")
    relay.cut()
    gateway.call("kv/put", key=b"a b", value=b"")
    gateway.call("kv/put", key=b"other")
    gateway.call("kv/compaction", revision=25)
    relay.mend()
    run.expect("24 put ", seconds=6)
    for members, revision in [({}, 1), ({"cluster_id": "8", "first": 100}, 100)]:
        relay.cut()
        host = stage.another_host(**members)
        relay.mend(host.port)
        run.expect(f"{revision} delete", seconds=6)
        gateway = Gateway(stage.url(host.port))
        want_open_watches(gateway, 1)
        gateway.call("kv/put", key=b"a b", value=b"new")
        run.expect(f"{revision + 1} put new")
    run.child.terminate()
    run.expect_end(-signal.SIGTERM)
    want_open_watches(gateway, 0)


def watch_by_curl_goes_on_where_it_has_come(stage):
    progress = b'{"result":{"header":{"cluster_id":"7","member_id":"1","raft_term":"1","revision":"40"}}}\n'
    host = stage.scripted(
        found(row("YQ==", 5, 5, "MQ==", 1), 5),
        [created_line(30), events_line([put_event("YQ==", 5, 6, "Mg==", 2)], 30),
         events_line([delete_event("YQ==", 8)], 30)[:-9]],
        [created_line(40), events_line([delete_event("YQ==", 8)], 40), progress],
        [created_line(50), cancel_line(45, 50)],
        done(50),
        [created_line(50)])
    run = stage.run("watch.sh", stage.url(host.port), "a")
    run.expect("5 put 1", "6 put 2", "8 delete", "50 delete", seconds=10)
    wait_until(lambda: len(host.asked) >= 6, f"asked {host.asked}")
    starts = [body.get("create_request", {}).get("start_revision") for _, body in host.asked]
    want(starts[:6] == [None, 6, 7, 41, None, 51], f"the watches begin at {starts}")


CHECKS = [
    a_configuration_goes_on_where_it_has_come, a_configuration_survives_a_new_host, watch_by_curl,
    watch_by_curl_goes_on_where_it_has_come, a_configuration_survives_a_cut, a_configuration_survives_a_compaction,
    a_configuration_is_followed, others_may_read_a_configuration, pages_while_another_writes, pages_are_of_one_revision,
    pages_begin_anew_after_a_compaction, put_get_by_curl, a_client_has_bytes_and_numbers, a_client_tells_refusals,
    a_client_without_a_host, a_client_keeps_its_connection, a_watch_of_a_client, the_interval_of_a_prefix,
    programs_without_a_tenant, programs_by_curl_without_a_tenant,
]
