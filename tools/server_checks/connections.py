"""Tests of check-server on how many connections may be open, and on which one goes to make room.

Each test is given the program, and raises `Wrong` where something is not as it is wanted.
"""
import contextlib
import time

from shared.report import Wrong, want
from shared.server import Server, configuration, tenant_of
from shared.wanted import KEY, PUT, REFUSALS, created_line, done

NAMES = "one", "two", "three"


def bounded(program, of_two=64, **members):
    tenants = [tenant_of(name, open_connections=64) for name in NAMES]
    tenants[1]["open_connections"] = of_two
    return Server(program, configuration(tenants, **members))


def connect(server, stack, name):
    """A connection that has put something; later ones are idle for less long."""
    client = stack.enter_context(server.connect())
    want(client.call(name, "kv/put", PUT).status == 200, f"tenant {name} puts nothing")
    time.sleep(0.05)
    return client


def want_served(*clients_of):
    for name, client in clients_of:
        want(client.call(name, "kv/range", KEY).status == 200, f"a connection of tenant {name} is not served")


def want_ended(client):
    """The server has ended it, and told nothing."""
    client.ended(5)


def a_tenant_has_no_more_connections_than_it_may(program):
    """One more is refused and ends. One that goes over to another tenant, or ends, leaves its place."""
    with bounded(program, of_two=3) as server, contextlib.ExitStack() as stack:
        mine = [connect(server, stack, "two") for _ in range(3)]
        others = [(name, connect(server, stack, name)) for name in ["one", "three"]]
        with server.connect() as more:
            answer = more.call("two", "kv/put", PUT)
            answer.check(REFUSALS["Memory"])
            want(answer.values("connection") == ["close"], f"the head {answer.lines}")
            want_ended(more)
        want_served(*(("two", client) for client in mine), *others)
        want_served(("one", mine[0]))
        connect(server, stack, "two")
        mine[1].close()
        time.sleep(0.3)
        connect(server, stack, "two")
        with server.connect() as more:
            more.call("two", "kv/put", PUT).check(REFUSALS["Memory"])


def the_longest_idle_of_the_tenant_that_has_most_goes(program):
    with bounded(program, open_connections=6) as server, contextlib.ExitStack() as stack:
        others = [("one", connect(server, stack, "one"))]
        longest, *mine = [connect(server, stack, "two") for _ in range(4)]
        others.append(("three", connect(server, stack, "three")))
        others.append(("one", connect(server, stack, "one")))
        want_ended(longest)
        want_served(*(("two", client) for client in mine), *others)


def a_tenant_has_a_quarter_where_nothing_is_told(program):
    tenants = [tenant_of(name) for name in NAMES]
    with Server(program, configuration(tenants, open_connections=12)) as server, contextlib.ExitStack() as stack:
        mine = [connect(server, stack, "two") for _ in range(3)]
        with server.connect() as more:
            more.call("two", "kv/put", PUT).check(REFUSALS["Memory"])
        want_served(*(("two", client) for client in mine), ("one", connect(server, stack, "one")))


def what_asks_nothing_goes_before_others(program):
    """However many connect and say nothing, others keep their connections, and new ones are served."""
    with bounded(program, open_connections=8) as server, contextlib.ExitStack() as stack:
        others = [(name, connect(server, stack, name)) for name in NAMES]
        silent = [stack.enter_context(server.connect()) for _ in range(40)]
        time.sleep(0.3)
        want_served(*others)
        for client in silent[:35]:
            want_ended(client)
        want_served(("two", connect(server, stack, "two")), *others)


def no_watch_goes_for_another(program):
    """Where no connection is idle, one more is closed at once."""
    with bounded(program, of_two=8, open_connections=4) as server, contextlib.ExitStack() as stack:
        watches = [stack.enter_context(server.watch("two", KEY)) for _ in range(4)]
        for watch in watches:
            watch.expect_line(created_line(1))
        for _ in range(3):
            with server.connect() as more, contextlib.suppress(BrokenPipeError, ConnectionResetError):
                want_ended(more)
        for watch in watches:
            watch.expect_quiet(0.1)
        watches[0].close()
        last = time.monotonic() + 5
        while True:
            with server.connect() as more, contextlib.suppress(Wrong, OSError):
                more.expect("two", "kv/put", PUT, done(2))
                break
            want(time.monotonic() < last, "no connection is taken in the place of a watch that ended")
            time.sleep(0.1)
        want(len(watches[1].events(1)) == 1, "a watch is told nothing")


TESTS = [a_tenant_has_no_more_connections_than_it_may, a_tenant_has_a_quarter_where_nothing_is_told,
         the_longest_idle_of_the_tenant_that_has_most_goes, what_asks_nothing_goes_before_others,
         no_watch_goes_for_another]
