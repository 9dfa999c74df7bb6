"""Tests of check-server: watches.

Each test is given the host, and raises `Wrong` where something is not as it is wanted.
"""
import json
import socket
import struct
import time
from concurrent.futures import ThreadPoolExecutor

from server_checks.asked import ACTIVATE
from shared.http_client import SECONDS, Connection, chunk, head, path, request, shown, text
from shared.report import Wrong, want
from shared.server import Server, configuration, tenant_of
from shared.wanted import (ALL, KEY, PUT, READ, REFUSALS, WATCHES, alarmed, answer_of, cancel_line, created_line,
                           delete_event, done, events_line, header, put_event, row)

OTHER = '{"key":"Yg==","value":"MQ=="}'
EVERY = f"{{{ALL}}}"


def put_number(number):
    """The body of a put of the key `a`, whose value is a number."""
    return f'{{"key":"YQ==","value":"{text(b"%d" % number)}"}}'


def a_watch_is_told_of_puts_and_deletes(host):
    """Of each as it is made, and of nothing else."""
    tenant = host.tenant()
    with host.connect() as client, host.watch(tenant, KEY) as watch:
        watch.expect_line(created_line(1))
        for number in range(1, 6):
            created = 2 * number
            client.expect(tenant, "kv/put", PUT, done(created))
            watch.expect_line(events_line([put_event("YQ==", created, created, "MQ==", 1)], created))
            client.expect(tenant, "kv/deleterange", KEY, answer_of(f'{{"deleted":"1",{header(created + 1)}}}'))
            watch.expect_line(events_line([delete_event("YQ==", created + 1)], created + 1))
        client.expect(tenant, "kv/put", OTHER, done(12))
        watch.expect_quiet(1.5)


def a_watch_with_all_members(host):
    tenant = host.tenant()
    create = '{"key":"YQ==","range_end":"Yw==","filters":["NOPUT"],"prev_kv":true,"watch_id":"5","progress_notify":true}'
    with host.connect() as client, host.watch(tenant, create) as watch:
        watch.expect_line(f'{{"result":{{"created":true,{header(1)},"watch_id":"5"}}}}\n'.encode())
        client.expect(tenant, "kv/put", OTHER, done(2))
        client.expect(tenant, "kv/deleterange", EVERY, answer_of(f'{{"deleted":"1",{header(3)}}}'))
        event = f'{{"kv":{{"key":"Yg==","mod_revision":"3"}},"prev_kv":{row("Yg==", 2, 2, "MQ==", 1)},"type":"DELETE"}}'
        watch.expect_line(f'{{"result":{{"events":[{event}],{header(3)},"watch_id":"5"}}}}\n'.encode())


def a_watch_from_the_past_is_told_at_once(host):
    """Ten watches in turn."""
    tenant = host.tenant()
    with host.connect() as client:
        for revision in range(2, 22):
            client.expect(tenant, "kv/put", PUT, done(revision))
        events = [put_event("YQ==", 2, revision, "MQ==", revision - 1) for revision in range(2, 22)]
        for _ in range(10):
            with host.watch(tenant, '{"key":"YQ==","start_revision":"2"}') as watch:
                watch.expect_line(created_line(21))
                watch.expect_line(events_line(events[:16], 21))
                watch.expect_line(events_line(events[16:], 21))
        with host.watch(tenant, '{"key":"YQ==","start_revision":"21"}') as watch:
            watch.expect_line(created_line(21))
            watch.expect_line(events_line(events[19:], 21))
            client.expect(tenant, "kv/put", PUT, done(22))
            watch.expect_line(events_line([put_event("YQ==", 2, 22, "MQ==", 21)], 22))


def put_often(client, tenant, revision, count):
    """So many puts of the key `b`, some in one write; gives the last revision."""
    for _ in range(count // 100):
        client.send(request(path(tenant, "kv/put"), OTHER) * 100)
        for _ in range(100):
            revision += 1
            client.answer().check(done(revision))
    return revision


def made_long_ago(client, tenant):
    """Five thousand revisions and more. One of them has more changes than a watch has notes."""
    revision = put_often(client, tenant, 1, 2500)
    for first in range(0, 300, 100):
        keys = ",".join(f'{{"request_put":{{"key":"{text(b"k%03d" % number)}"}}}}' for number in range(first, first + 100))
        want(client.call(tenant, "kv/txn", f'{{"success":[{keys}]}}').status == 200, "a transaction is refused")
    deleted = client.call(tenant, "kv/deleterange", f'{{"key":"{text(b"k")}","range_end":"{text(b"l")}"}}')
    want(b'"deleted":"300"' in deleted.body, f"told {deleted}")
    revision = put_often(client, tenant, revision + 4, 2500)
    client.expect(tenant, "kv/put", PUT, done(revision + 1))
    return revision + 1


def a_watch_from_far_behind_is_told_all(host):
    """Of each change once, in order, and of the last one alone where it is of that key. The tenants beside it are told of
    theirs meanwhile."""
    beside, tenant = [host.tenant(), host.tenant()], host.large()
    with host.connect() as client, host.watch(beside[0], KEY) as one, host.watch(beside[1], KEY) as other:
        last = made_long_ago(client, tenant)
        for watch in (one, other):
            watch.expect_line(created_line(1))
        with host.watch(tenant, '{"key":"YQ==","start_revision":"2"}') as of_one, \
                host.watch(tenant, f'{{{ALL},"start_revision":"2"}}') as of_all:
            for watch in (of_one, of_all):
                watch.expect_line(created_line(last))
            for name, watch in zip(beside, (one, other)):
                client.expect(name, "kv/put", PUT, done(2))
                watch.expect_line(events_line([put_event("YQ==", 2, 2, "MQ==", 1)], 2))
            of_one.expect_line(events_line([put_event("YQ==", last, last, "MQ==", 1)], last))
            events = of_all.events(2500 + 300 + 300 + 2500 + 1)
            revisions = [int(event["kv"]["mod_revision"]) for event in events]
            want(revisions == sorted(revisions) and len(set(revisions)) == last - 1, "not each revision is told, in order")
            told = [(event["kv"]["mod_revision"], event["kv"]["key"]) for event in events]
            want(len(set(told)) == len(told), "a change is told twice")
            of_all.expect_quiet(1.5)


def a_watch_from_the_future_waits(host):
    tenant = host.tenant()
    with host.connect() as client, host.watch(tenant, '{"key":"YQ==","start_revision":"4"}') as watch:
        watch.expect_line(created_line(1))
        for revision in [2, 3, 4]:
            client.expect(tenant, "kv/put", PUT, done(revision))
        watch.expect_line(events_line([put_event("YQ==", 2, 4, "MQ==", 3)], 4))


def a_compaction_ends_a_watch_from_before_it(host):
    tenant = host.tenant()
    with host.connect() as client:
        for revision in range(2, 6):
            client.expect(tenant, "kv/put", PUT, done(revision))
        client.expect(tenant, "kv/compaction", '{"revision":"5"}', done(5))
        with host.watch(tenant, '{"key":"YQ==","start_revision":"3"}') as watch:
            watch.expect_line(created_line(5))
            watch.expect_last(cancel_line(5, 5))
            watch.send(request(path(tenant, "kv/range"), READ))
            watch.answer().check(done(5))


def an_idle_watch_stands_compactions(host):
    """Other keys are put, and compacted at the newest revision at once, again and again."""
    tenant, revision = host.tenant(), 1
    with host.connect() as client, host.watch(tenant, KEY) as watch:
        watch.expect_line(created_line(1))
        for _ in range(30):
            for _ in range(20):
                revision += 1
                client.expect(tenant, "kv/put", OTHER, done(revision))
            client.expect(tenant, "kv/compaction", f'{{"revision":"{revision}"}}', done(revision))
        client.expect(tenant, "kv/put", PUT, done(revision + 1))
        watch.expect_line(events_line([put_event("YQ==", revision + 1, revision + 1, "MQ==", 1)], revision + 1))


def an_idle_watch_stands_compactions_in_one_write(host):
    tenant, last = host.tenant(), 101
    with host.connect() as client, host.watch(tenant, KEY) as watch:
        watch.expect_line(created_line(1))
        compaction = request(path(tenant, "kv/compaction"), f'{{"revision":"{last}"}}')
        client.send(request(path(tenant, "kv/put"), OTHER) * (last - 1) + compaction)
        for revision in [*range(2, last + 1), last]:
            client.answer().check(done(revision))
        client.expect(tenant, "kv/put", PUT, done(last + 1))
        watch.expect_line(events_line([put_event("YQ==", last + 1, last + 1, "MQ==", 1)], last + 1))


def opened(host, tenant, last, create=KEY):
    """A watch, tried until a moment where no place is free."""
    while True:
        watch = host.watch(tenant, create)
        if not watch.refused:
            return watch
        watch.close()
        want(time.monotonic() < last, "no place is free")
        time.sleep(0.02)


def open_all(host, tenant, seconds=0.0):
    """As many watches as a tenant may have."""
    last, watches = time.monotonic() + seconds, []
    try:
        while len(watches) < WATCHES:
            watches.append(opened(host, tenant, last))
    except Wrong as wrong:
        close_all(watches)
        raise Wrong(f"after {len(watches)} watches: {wrong}") from None
    return watches


def close_all(watches):
    for watch in watches:
        watch.close()


def reset(connection):
    """Closes a connection so that the other end meets a reset."""
    connection.socket.setsockopt(socket.SOL_SOCKET, socket.SO_LINGER, struct.pack("ii", 1, 0))
    connection.close()


def sixty_four_watches_and_no_more(host):
    tenant = host.tenant()
    watches = open_all(host, tenant)
    with host.watch(tenant, KEY) as more:
        want(more.refused, "a watch more is opened")
        more.refused.check(REFUSALS["TooManyWatches"])
        more.send(request(path(tenant, "kv/put"), PUT))
        more.answer().check(done(2))
    for watch in watches:
        watch.expect_line(created_line(1))
        watch.expect_line(events_line([put_event("YQ==", 2, 2, "MQ==", 1)], 2), 1)
    watches.pop().close()
    watches.append(opened(host, tenant, time.monotonic() + SECONDS))
    close_all(watches)


def places_are_free_after_clients_go(host):
    """Whether they close, end their sending, or reset."""
    tenant = host.tenant()
    for leave in [Connection.close, Connection.end_sending, reset]:
        for _ in range(3):
            for watch in open_all(host, tenant, SECONDS):
                leave(watch)
            close_all(open_all(host, tenant, SECONDS))


def places_are_free_after_cancels(host):
    tenant = host.tenant()
    with host.connect() as client:
        for revision in [2, 3]:
            client.expect(tenant, "kv/put", PUT, done(revision))
        client.expect(tenant, "kv/compaction", '{"revision":"3"}', done(3))
        for _ in range(2 * WATCHES):
            with host.watch(tenant, '{"key":"YQ==","start_revision":"1"}') as watch:
                watch.expect_line(created_line(3))
                watch.expect_last(cancel_line(3, 3))
    close_all(open_all(host, tenant))


def a_place_taken_over_tells_its_own_watch(host):
    """Half of the watches go, again and again, and watches of other keys take their places. Each is told of its own key
    alone, each event once, also when the places have been looked after for a while. The tenant is the second of three, and
    the watches of the other two are told nothing."""
    first, tenant, third = (host.tenant() for _ in range(3))
    watches, revision, made = {}, 1, 0
    beside = [host.watch(name, EVERY) for name in (first, third)]
    with host.connect() as client:
        for _ in range(4):
            for key in list(watches)[::2]:
                watches.pop(key).close()
            while len(watches) < WATCHES:
                key = text(b"key %d" % made)
                made += 1
                watches[key] = opened(host, tenant, time.monotonic() + SECONDS, f'{{"key":"{key}"}}')
                watches[key].expect_line(created_line(revision))
            time.sleep(1.2)
            for key, watch in watches.items():
                revision += 1
                client.expect(tenant, "kv/put", f'{{"key":"{key}","value":"MQ=="}}', done(revision))
                events = json.loads(watch.told())["result"]["events"]
                want([(it["kv"]["key"], it["kv"]["mod_revision"]) for it in events] == [(key, str(revision))], f"told {events}")
            for watch in watches.values():
                watch.expect_quiet(0.01)
    for watch in beside:
        watch.expect_line(created_line(1))
        watch.expect_quiet(0)
    close_all([*watches.values(), *beside])


def a_slow_reader_loses_nothing(host):
    """It reads nothing while 2,000 puts are made, which fill what lies between it and the server."""
    tenant, count, value = host.large(), 2_000, text(b"v" * 1_000)
    put = request(path(tenant, "kv/put"), f'{{"key":"YQ==","value":"{value}"}}')
    wanted = [put_event("YQ==", 2, revision, value, revision - 1) for revision in range(2, count + 2)]
    with (host.connect() as client, host.watch(tenant, KEY, 4_096) as slow, host.watch(tenant, KEY) as quick,
          ThreadPoolExecutor(1) as thread):
        told = thread.submit(check_events, quick, wanted)
        for first in range(2, count + 2, 50):
            client.send(put * 50)
            for revision in range(first, first + 50):
                client.answer().check(done(revision))
        told.result()
        check_events(slow, wanted)


def check_events(watch, wanted):
    """The events, byte by byte, in lines of 16 revisions at most."""
    told, count = b"", 0
    watch.expect_line(created_line(1))
    while count < len(wanted):
        line = watch.told()
        front, _, rest = line.partition(b'"events":[')
        number = line.count(b'{"kv":')
        want(front == b'{"result":{' and 0 < number <= 16, f"told {shown(line)}")
        told, count = told + rest.rpartition(b'],"header"')[0] + b",", count + number
    want(told == "".join(event + "," for event in wanted).encode(), "other events")


def many_watches_are_told_alike(host):
    """Every one is told all puts of several clients in order."""
    tenant, clients, rounds = host.tenant(), [host.connect() for _ in range(8)], 12
    watches = open_all(host, tenant)
    for number in range(rounds):
        for client in clients:
            client.send(request(path(tenant, "kv/put"), put_number(number)))
        for client in clients:
            want(client.answer().status == 200, "a put is refused")
    count = len(clients) * rounds
    told = []
    for watch in watches:
        watch.expect_line(created_line(1))
        told.append(watch.events(count))
    revisions = [event["kv"]["mod_revision"] for event in told[0]]
    want(revisions == [str(at) for at in range(2, count + 2)], "other revisions")
    want(all(one == told[0] for one in told), "the watches are told otherwise")
    close_all(watches + clients)


def a_watch_of_http_1_0(host):
    """Its body has no chunks, and goes on until the connection ends."""
    tenant = host.tenant()
    with host.connect() as client, host.connect() as watch:
        watch.send(request(path(tenant, "watch"), f'{{"create_request":{KEY}}}', version="HTTP/1.0"))
        last = time.monotonic() + SECONDS
        told = watch.head(last)
        want(told.status == 200 and not told.values("transfer-encoding") + told.values("content-length"), f"{told}")
        created = created_line(1)
        want(watch.take(len(created), last) == created, "no created line")
        client.expect(tenant, "kv/put", PUT, done(2))
        event = events_line([put_event("YQ==", 2, 2, "MQ==", 1)], 2)
        want(watch.take(len(event), last) == event, "no event")


def a_watch_asked_for_in_chunks(host):
    tenant, body = host.tenant(), f'{{"create_request":{KEY}}}'.encode()
    with host.connect() as client, host.connect() as watch:
        watch.send(head(path(tenant, "watch"), ["transfer-encoding: chunked"]) + chunk(body[:9]))
        watch.send(chunk(body[9:]) + b"0\r\n\r\n")
        last = time.monotonic() + SECONDS
        want(watch.head(last).status == 200, "the watch is refused")
        want(watch.chunk(last) == created_line(1), "no created line")
        client.expect(tenant, "kv/put", PUT, done(2))
        want(watch.chunk(last) == events_line([put_event("YQ==", 2, 2, "MQ==", 1)], 2), "no event")


def watches_keep_no_worker(host):
    """One worker serves calls beside as many watches as there may be, and each tenant has its own."""
    config = configuration([tenant_of("one"), tenant_of("two")], workers=1)
    with Server(host.program, config) as server:
        watches = open_all(server, "one") + open_all(server, "two")
        with server.connect() as client:
            for revision in range(2, 22):
                client.expect("one", "kv/put", put_number(revision), done(revision))
            client.expect("two", "maintenance/alarm", ACTIVATE, alarmed(1))
        for watch in watches[:WATCHES]:
            watch.expect_line(created_line(1))
            watch.events(20)
        for watch in watches[WATCHES:]:
            watch.expect_line(created_line(1))
        watches[WATCHES].expect_quiet(0.2)
        close_all(watches)


TESTS = [a_watch_is_told_of_puts_and_deletes, a_watch_with_all_members, a_watch_from_the_past_is_told_at_once,
         a_watch_from_far_behind_is_told_all, a_watch_from_the_future_waits, a_compaction_ends_a_watch_from_before_it, an_idle_watch_stands_compactions,
         an_idle_watch_stands_compactions_in_one_write, sixty_four_watches_and_no_more, places_are_free_after_clients_go,
         places_are_free_after_cancels, a_place_taken_over_tells_its_own_watch, a_slow_reader_loses_nothing,
         many_watches_are_told_alike, a_watch_of_http_1_0, a_watch_asked_for_in_chunks, watches_keep_no_worker]
