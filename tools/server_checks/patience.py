"""Tests of check-server on how long clients may keep the server waiting, and on a machine that was paused.

Each test is given the program, and raises `Wrong` where something is not as it is wanted.
"""
import signal
import time

from shared.http_client import Connection, head, path, request, text
from shared.report import want
from shared.server import Server, configuration, tenant_of
from shared.wanted import ALL, KEY, PUT, WATCHES, created_line, done, granted, kept_alive

QUOTA = 65_536
SHORT = {"body_seconds": 2, "answer_seconds": 2, "silence_seconds": 1}
# A client that reads nothing takes so few bytes that the server's answers have to wait.
WINDOW = 4096
KEEPALIVE = "02"


def patient(program, **members):
    """A server that waits two seconds, and its tenants one and two."""
    tenants = [tenant_of("one", quota=QUOTA), tenant_of("two", quota=QUOTA)]
    return Server(program, configuration(tenants, segments=4_096, **{**SHORT, **members}))


def want_ended(client, started, least=1.5, most=12):
    """The server ends a connection between these seconds after a moment."""
    client.rest(most)
    took = time.monotonic() - started
    want(least < took < most, f"it was ended after {took:.1f} seconds")


def a_head_that_stops_coming_is_given_up(program):
    with patient(program, head_seconds=2) as server, server.connect() as client:
        started = time.monotonic()
        client.send(head(path("two", "kv/put"))[:20])
        want_ended(client, started)


def a_body_that_stops_coming_is_given_up(program):
    """No call is made of it, and others are served."""
    with patient(program) as server, server.connect() as client, server.connect() as other:
        started = time.monotonic()
        client.send(head(path("two", "kv/put"), [f"content-length: {len(PUT)}"]) + PUT[:7].encode())
        other.expect("two", "kv/range", KEY, done(1))
        want_ended(client, started)
        other.expect("two", "kv/range", KEY, done(1))


def a_body_that_comes_slowly_is_read(program):
    """Each byte comes in time, and all of them take longer than that."""
    with patient(program) as server, server.connect() as client:
        client.send(head(path("two", "kv/range"), [f"content-length: {len(KEY)}"]))
        for byte in KEY.encode():
            time.sleep(0.4)
            client.send(bytes([byte]))
        client.answer().check(done(1))


def fill(client, name, count=16):
    """Puts so many values of 100,000 bytes."""
    value = text(b"x" * 100_000)
    for number in range(count):
        key = text(bytes([number]))
        want(client.call(name, "kv/put", f'{{"key":"{key}","value":"{value}"}}').status == 200, "a put is refused")


def an_answer_that_nobody_takes_is_given_up(program):
    with patient(program) as server, server.connect() as other:
        fill(other, "two")
        with Connection(server.port, WINDOW) as client:
            for _ in range(4):
                client.send(request(path("two", "kv/range"), f"{{{ALL}}}"))
            time.sleep(8)
            want(len(client.rest(10)) < 8_000_000, "all of it was sent after eight seconds")
        want(other.call("two", "kv/range", KEY).status == 200, "the tenant is not served")


def watches_that_nobody_reads_are_given_up(program):
    """Their slots are free afterwards."""
    create = f'{{{ALL},"start_revision":"2"}}'
    with patient(program) as server, server.connect() as other:
        fill(other, "two")
        watches = [server.watch("two", create, WINDOW) for _ in range(WATCHES)]
        last = time.monotonic() + 20
        while time.monotonic() < last:
            time.sleep(1)
            with server.watch("two", KEY) as one:
                if one.refused is None:
                    break
        else:
            want(False, "no slot is free after twenty seconds")
        for watch in watches:
            watch.close()


def timers_of(port):
    """Which timer each connection of the server's has, as the system tells them."""
    with open("/proc/net/tcp", encoding="ascii") as table:
        rows = [line.split() for line in table.readlines()[1:]]
    return [row[5].partition(":")[0] for row in rows if row[1].endswith(f":{port:04X}") and row[3] == "01"]


def a_silent_client_is_asked_for(program):
    """An open watch on which nothing comes has the system's timer that asks whether its client is still there."""
    with patient(program) as server, server.watch("two", KEY) as watch:
        watch.expect_line(created_line(1))
        time.sleep(0.3)
        want(timers_of(server.port) == [KEEPALIVE], f"timers {timers_of(server.port)}")


def a_pause_ends_no_lease(program):
    """After a pause that is longer than a lease lives, its client has the time to keep it alive."""
    with patient(program) as server, server.connect() as client:
        client.expect("two", "lease/grant", '{"TTL":"5"}', granted(1, 5, 1))
        server.child.send_signal(signal.SIGSTOP)
        time.sleep(8)
        server.child.send_signal(signal.SIGCONT)
        time.sleep(1.5)
        client.expect("two", "lease/keepalive", '{"ID":"1"}', kept_alive(1, 5, 1))


TESTS = [a_head_that_stops_coming_is_given_up, a_body_that_stops_coming_is_given_up, a_body_that_comes_slowly_is_read,
         an_answer_that_nobody_takes_is_given_up, watches_that_nobody_reads_are_given_up, a_silent_client_is_asked_for,
         a_pause_ends_no_lease]
