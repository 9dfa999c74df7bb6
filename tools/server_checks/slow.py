"""Tests of check-server that take seconds: leases that the clock ends, and slow clients. They go beside the others.

Each test is given the host, and raises `Wrong` where something is not as it is wanted.
"""
import json
import time

from shared.http_client import head, path, request
from shared.report import Wrong, want
from shared.wanted import (KEY, PUT, READ, REFUSALS, answer_of, created_line, delete_event, done, events_line, granted,
                           header, kept_alive, put_event)

# For how long a clock is looked at.
CLOCK_SECONDS = 15


def a_lease_ends_by_the_clock(host):
    """A key of a lease of 4 seconds goes, and not at once; a watch is told."""
    tenant = host.tenant()
    with host.connect() as client, host.watch(tenant, KEY) as watch:
        watch.expect_line(created_line(1))
        client.expect(tenant, "lease/grant", '{"TTL":"4"}', granted(1, 4, 1))
        started = time.monotonic()
        client.expect(tenant, "kv/put", '{"key":"YQ==","value":"MQ==","lease":"1"}', done(2))
        watch.expect_line(events_line([put_event("YQ==", 2, 2, "MQ==", 1, 1)], 2))
        watch.expect_line(events_line([delete_event("YQ==", 3)], 3))
        took = time.monotonic() - started
        want(2.9 < took, f"it ended after {took:.1f} seconds")
        client.expect(tenant, "kv/range", KEY, done(3))
        client.expect(tenant, "lease/leases", "{}", done(3))
        client.expect(tenant, "lease/keepalive", '{"ID":"1"}', answer_of(f'{{"result":{{"ID":"1",{header(3)}}}}}\n'))


def a_lease_that_is_kept_alive_stays(host):
    tenant = host.tenant()
    with host.connect() as client:
        client.expect(tenant, "lease/grant", '{"TTL":"5"}', granted(1, 5, 1))
        client.expect(tenant, "kv/put", '{"key":"YQ==","lease":"1"}', done(2))
        for _ in range(14):
            time.sleep(0.5)
            client.expect(tenant, "lease/keepalive", '{"ID":"1"}', kept_alive(1, 5, 2))
        client.expect(tenant, "kv/range", READ, done(2))
        time.sleep(6)
        client.expect(tenant, "kv/range", READ, done(3))


def left_of_lease(client, tenant):
    answer = client.call(tenant, "lease/timetolive", '{"ID":"1"}')
    want(answer.status == 200, f"a time to live is answered {answer.status}")
    return int(json.loads(answer.body)["TTL"])


def the_clock_skips_no_second(host):
    """What is left of a lease falls by a second at each tick, on each of three tenants: never by none, and by two at the next."""
    tenants = [host.tenant() for _ in range(3)]
    with host.connect() as client:
        for tenant in tenants:
            client.expect(tenant, "lease/grant", '{"TTL":"100"}', granted(1, 100, 1))
        left = {tenant: left_of_lease(client, tenant) for tenant in tenants}
        begun = looked = time.monotonic()
        while looked < begun + CLOCK_SECONDS:
            time.sleep(0.05)
            before, looked = looked, time.monotonic()
            for tenant in tenants:
                now = left_of_lease(client, tenant)
                # Who looks so late may have seen two ticks.
                want(left[tenant] - now <= 1 or looked - before > 0.5, f"{left[tenant]} seconds were left, and then {now}")
                left[tenant] = now
        fell = 100 - min(left.values())
        want(fell >= CLOCK_SECONDS - 2, f"what was left fell by {fell} seconds in {CLOCK_SECONDS}")


def one_byte_a_second_is_answered(host):
    """A short head and a short body, each byte a second after the one before it."""
    tenant = host.tenant()
    with host.connect() as slow_head, host.connect() as slow_body:
        slow_body.send(head(path(tenant, "kv/put"), [f"content-length: {len(KEY)}"]))
        bare = b"POST / HTTP/1.0\r\n\r\n"
        for number in range(max(len(bare), len(KEY))):
            slow_head.send(bare[number:number + 1])
            slow_body.send(KEY[number:number + 1].encode())
            time.sleep(1)
        slow_body.answer().check(done(2))
        answer = slow_head.answer()
        want((answer.status, answer.body) == REFUSALS["NoPath"], f"{answer}")


def small_pieces_rest_before_they_are_read(host):
    """What comes after eight pieces of a byte is read 16 milliseconds later at the soonest. Once that request was answered,
    the next ones are read as they come, of which ten would take 160 milliseconds else."""
    tenant = host.tenant()
    message = request(path(tenant, "kv/put"), KEY)
    with host.connect() as client:
        for at in range(16):
            client.send(message[at:at + 1])
            time.sleep(0.015)
        time.sleep(0.1)
        started = time.monotonic()
        client.send(message[16:])
        client.answer().check(done(2))
        took = time.monotonic() - started
        want(took > 0.0155, f"the last piece was answered after {took * 1e3:.0f} milliseconds")
        started = time.monotonic()
        for number in range(10):
            client.expect(tenant, "kv/put", KEY, done(3 + number))
        took = time.monotonic() - started
        want(took < 0.16, f"ten whole requests were answered after {took * 1e3:.0f} milliseconds")


def a_head_of_many_pieces_is_told_to_continue(host):
    """Its body comes after that, and is read."""
    tenant = host.tenant()
    with host.connect() as client:
        message = head(path(tenant, "kv/put"), ["expect: 100-continue", f"content-length: {len(KEY)}"])
        for at in range(16):
            client.send(message[at:at + 1])
            time.sleep(0.015)
        client.send(message[16:])
        want(client.answer().status == 100, "no 100 comes")
        client.send(KEY.encode())
        client.answer().check(done(2))


def let_go_after(client, started, drip=b""):
    """Waits until the server closes, and sends a byte each second meanwhile."""
    while True:
        try:
            if drip:
                client.send(drip)
            client.rest(1)
            break
        except Wrong:
            want(time.monotonic() - started < 40, "is still open after 40 seconds")
        except OSError:
            break
    took = time.monotonic() - started
    want(20 < took, f"is let go after {took:.1f} seconds")


def a_connection_on_which_nothing_comes_is_let_go(host):
    with host.connect() as client:
        let_go_after(client, time.monotonic())


def half_a_head_is_let_go(host):
    tenant = host.tenant()
    with host.connect() as client:
        client.send(request(path(tenant, "kv/put"), PUT)[:30])
        let_go_after(client, time.monotonic())


def a_head_without_an_end_is_let_go(host):
    tenant = host.tenant()
    with host.connect() as client:
        client.send(head(path(tenant, "kv/put"))[:-2] + b"x: ")
        let_go_after(client, time.monotonic(), b"y")


def an_idle_connection_is_let_go(host):
    tenant = host.tenant()
    with host.connect() as client:
        client.expect(tenant, "kv/put", PUT, done(2))
        let_go_after(client, time.monotonic())


SLOW = [a_lease_ends_by_the_clock, a_lease_that_is_kept_alive_stays, the_clock_skips_no_second,
        one_byte_a_second_is_answered, small_pieces_rest_before_they_are_read, a_head_of_many_pieces_is_told_to_continue,
        a_connection_on_which_nothing_comes_is_let_go, half_a_head_is_let_go, a_head_without_an_end_is_let_go,
        an_idle_connection_is_let_go]
