"""Tests of check-operator on the terms that a tenant comes with or is given later: that they are in force, for that tenant.

Each test is given the program, and raises `Wrong` where something is not as it is wanted. The other tenants are as before.
"""
import contextlib
import re
import threading
import time
from concurrent.futures import ThreadPoolExecutor

from shared.http_client import text
from shared.operated_host import Host, asked_until, error
from shared.report import want
from shared.server import tenant_of
from shared.wanted import ALL, KEY, PUT, REFUSALS, done

NAMES = "one", "two", "three"
# Of all connections a quarter is a tenant's where nothing is told.
CONNECTIONS, QUARTER = 40, 10
# Twenty values of 100,000 bytes are weighed at two and a half times that: more than the least budget, and less than one of
# which nothing is told.
LARGE_QUOTA, LEAST_BUDGET, VALUES, VALUE_BYTES = 65_536, 4_194_304, 20, 100_000
ALL_VALUES = f"{{{ALL}}}"
TIMES = [("1h1m1s", 3_661), ("5m", 300), ("1h30m", 5_400), ("90m", 5_400), ("1m", 60), ("1s", 1), ("59s", 59), ("1h1s", 3_601),
         (1, 3_600), ("2", 7_200), ("43200m", 2_592_000), ("720h", 2_592_000)]
# Faults beside changes that could be made: in the first member, in a later one, and of the pool.
GOOD = {"quota": 128, "budget": 8_388_608, "open_connections": 5, "auto_compaction_retention": "2s"}
FAULTY = [({"auto_compaction_retention": "5 m", "quota": 128}, 422), ({**GOOD, "auto_compaction_retention": "5 m"}, 422),
          ({**GOOD, "auto_compaction_mode": "revision"}, 422), ({"quota": 128, "auto_compaction_mode": "revision"}, 422),
          ({**GOOD, "quota": 3}, 422), ({**GOOD, "quota": 4_096 * 64}, 507), ({**GOOD, "budget": "x"}, 400),
          ({**GOOD, "open_connections": "x"}, 400)]


def three(program, **members):
    return Host(program, [tenant_of(name) for name in NAMES], **members)


def compacted(host, name):
    return host.expect_status(200, "GET", f"/tenants/{name}")["compacted_revision"]


def hold(host, stack, name, count):
    """So many connections more of a tenant, each of which is served."""
    for _ in range(count):
        told = stack.enter_context(host.connect()).call(name, "kv/put", PUT)
        want(told.status == 200, f"tenant {name} is told {told.status} before it has as many connections as it may")


def one_more_is_refused(host, name):
    with host.connect() as more:
        told = more.call(name, "kv/put", PUT)
        told.check(REFUSALS["Memory"])
        want(told.values("connection") == ["close"], f"the head {told.lines}")
        more.ended(10)


def a_bound_on_connections_is_its_tenants(program):
    """Whether it is told later or the tenant comes with it, and where nothing is told."""
    with three(program, open_connections=CONNECTIONS) as host, contextlib.ExitStack() as stack:
        host.expect_status(200, "PATCH", "/tenants/two", {"open_connections": 1})
        for name, bound in [("four", {"open_connections": 1}), ("five", {})]:
            host.expect_status(201, "POST", "/tenants", {**tenant_of(name), **bound})
        for name, most in [("two", 1), ("four", 1), ("one", QUARTER), ("three", QUARTER), ("five", QUARTER)]:
            hold(host, stack, name, most)
            one_more_is_refused(host, name)
        host.expect_status(200, "PATCH", "/tenants/two", {"open_connections": 3})
        hold(host, stack, "two", 2)
        for name in ("two", "four"):
            one_more_is_refused(host, name)


def want_ranges(client, served, refused):
    """A range of all is answered to some tenants, and to others that there is no memory; these are served all the same."""
    for name in served:
        told = client.call(name, "kv/range", ALL_VALUES)
        want(told.status == 200, f"tenant {name} is refused a range of all by {told.body}")
    for name in refused:
        client.expect(name, "kv/range", ALL_VALUES, REFUSALS["Memory"])
        want(client.call(name, "kv/range", KEY).status == 200, f"tenant {name} is refused a range of one key")


def a_budget_is_its_tenants(program):
    """Whether it is told later, less and more, or the tenant comes with it."""
    tenants = [tenant_of(name, LARGE_QUOTA) for name in NAMES[:2]]
    with Host(program, tenants) as host, host.connect() as client:
        host.expect_status(201, "POST", "/tenants", tenant_of("four", LARGE_QUOTA, budget=LEAST_BUDGET))
        value = text(b"x" * VALUE_BYTES)
        for name in ("one", "two", "four"):
            for number in range(VALUES):
                key = text(b"key/%d" % number)
                want(client.call(name, "kv/put", f'{{"key":"{key}","value":"{value}"}}').status == 200, "a put is refused")
        want_ranges(client, ["one", "two"], ["four"])
        host.expect_status(200, "PATCH", "/tenants/two", {"budget": LEAST_BUDGET})
        want_ranges(client, ["one"], ["two", "four"])
        host.expect_status(200, "PATCH", "/tenants/two", {"budget": 4 * LEAST_BUDGET})
        want_ranges(client, ["one", "two"], ["four"])


def keep_busy(host, name, ends):
    """Makes calls that take a worker long to read, one after another."""
    with host.connect() as client:
        while not ends.is_set():
            client.call(name, "kv/range", '{"key":"%s"}' % ("QUFB" * 400_000))


def watches_of_a_busy_tenant_are_told(program):
    """As many as are open, whoever has its turn: a tenant is moved once they have ended. Nobody has asked for numbers before."""
    ends = threading.Event()
    with three(program) as host, contextlib.ExitStack() as stack, ThreadPoolExecutor(4) as threads:
        for _ in range(5):
            stack.enter_context(host.watch("two", KEY)).told()
        busy = [threads.submit(keep_busy, host, "two", ends) for _ in range(4)]
        told = {host.expect_status(200, "GET", "/tenants/two")["watches"] for _ in range(50)}
        ends.set()
        for one in busy:
            one.result()
        want(told == {5}, f"of five watches are told {told}")
        want([host.expect_status(200, "GET", f"/tenants/{name}")["watches"] for name in ("one", "three")] == [0, 0],
             "another tenant has a watch")


def connections_of_a_tenant_that_was_removed_go_first(program):
    """They ask on, and are nobody's. The others have had no call for longer, and as many as may be open are."""
    with three(program, open_connections=6) as host, contextlib.ExitStack() as stack:
        for name in NAMES:
            host.expect_status(200, "PATCH", f"/tenants/{name}", {"open_connections": 4})
        alive = [(name, stack.enter_context(host.connect())) for name in ("one", "one", "three", "three")]
        for name, client in alive:
            client.call(name, "kv/put", PUT)
        gone = [stack.enter_context(host.connect()) for _ in range(2)]
        for client in gone:
            client.call("two", "kv/put", PUT)
        host.expect_status(204, "DELETE", "/tenants/two")
        for client in gone:
            client.expect("two", "kv/put", PUT, REFUSALS["NoTenant"])
        for _ in range(2):
            stack.enter_context(host.connect()).call("one", "kv/put", PUT)
        for client in gone:
            client.ended(10)
        for name, client in alive:
            want(client.call(name, "kv/put", PUT).status == 200, f"a connection of tenant {name} went before")


def order_of(said):
    """The standing order of a tenant as it is told: what it counts, and how much it keeps."""
    return said["auto_compaction_mode"], said["auto_compaction_retention"]


def a_standing_order_comes_and_goes(program):
    """That of the second of three, of which what it counts stays where nothing else is told; the others are not compacted."""
    with three(program) as host, host.connect() as connection:
        for order, told in [({"auto_compaction_mode": "revision", "auto_compaction_retention": "1000"}, ("revision", "1000")),
                            ({"auto_compaction_retention": "500"}, ("revision", "500")),
                            ({"auto_compaction_mode": "periodic", "auto_compaction_retention": "2s"}, ("periodic", "2s"))]:
            want(order_of(host.expect_status(200, "PATCH", "/tenants/two", order)) == told, f"{order} is not told as {told}")
        for revision in range(2, 12):
            for name in NAMES:
                connection.expect(name, "kv/put", PUT, done(revision))
            time.sleep(0.3)
        want(asked_until(lambda at: at > 0, lambda: compacted(host, "two")) > 0, "the tenant is not compacted")
        said = host.expect_status(200, "PATCH", "/tenants/two", {"auto_compaction_retention": 0})
        want(order_of(said) == ("periodic", "0"), f"told {said}")
        at = compacted(host, "two")
        connection.expect("two", "kv/put", PUT, done(12))
        time.sleep(5)
        want(compacted(host, "two") == at, "it is compacted without an order")
        for revision in range(13, 21):
            connection.expect("two", "kv/put", PUT, done(revision))
        host.expect_status(200, "PATCH", "/tenants/two", {"auto_compaction_mode": "revision", "auto_compaction_retention": "5"})
        at = asked_until(lambda at: at == 15, lambda: compacted(host, "two"))
        want(at == 15, f"with 5 of 20 revisions to keep, it is compacted at {at}")
        want(compacted(host, "one") == compacted(host, "three") == 0, "another tenant was compacted")


def a_tenant_comes_with_its_standing_order(program):
    """It is compacted again and again. The others are not, nor the one to which such an order was refused."""
    with Host(program, [tenant_of(name, LARGE_QUOTA) for name in NAMES[:2]]) as host, host.connect() as client:
        host.expect((422, error("limits")), "PATCH", "/tenants/two", {**GOOD, "quota": 3})
        host.expect_status(201, "POST", "/tenants", tenant_of("four", LARGE_QUOTA, auto_compaction_retention="2s"))

        def put_to_all():
            for name in ("one", "two", "four"):
                want(client.call(name, "kv/put", PUT).status == 200, f"tenant {name} is refused a put")
            return compacted(host, "four")

        first = asked_until(lambda at: at > 1, put_to_all)
        want(first > 1, "the tenant is not compacted")
        want(asked_until(lambda at: at > first, put_to_all) > first, "the tenant is compacted once")
        of_old = '{"key":"YQ==","revision":"1"}'
        client.expect("four", "kv/range", of_old, REFUSALS["Compacted"])
        for name in ("one", "two"):
            want(compacted(host, name) == 0, f"tenant {name} was compacted")
            want(client.call(name, "kv/range", of_old).status == 200, f"tenant {name} has lost its history")


def seconds_of(told):
    """The seconds of a text like `1h30m`."""
    want(re.fullmatch(r"(\d+[hms])+", told), f"no time is told, but {told}")
    return sum(int(number) * {"h": 3_600, "m": 60, "s": 1}[unit] for number, unit in re.findall(r"(\d+)([hms])", told))


def want_time(said, given, seconds):
    mode, told = said["auto_compaction_mode"], said["auto_compaction_retention"]
    want((mode, seconds_of(told)) == ("periodic", seconds), f"of {given!r}, which is {seconds} seconds, {mode} {told!r} is told")


def a_time_is_told_as_it_was_given(program):
    """Hours, minutes and seconds, whether told at the start, when the tenant comes or later."""
    times = dict(zip(NAMES, TIMES))
    tenants = [tenant_of(name, auto_compaction_retention=given) for name, (given, _) in times.items()]
    with Host(program, [*tenants, tenant_of("four")]) as host:
        for number, (given, seconds) in enumerate(TIMES):
            order = {"auto_compaction_retention": given}
            want_time(host.expect_status(201, "POST", "/tenants", tenant_of(f"new-{number}", **order)), given, seconds)
            want_time(host.expect_status(200, "PATCH", "/tenants/four", order), given, seconds)
        for name, of_start in times.items():
            want_time(host.expect_status(200, "GET", f"/tenants/{name}"), *of_start)
        for given in ("43201m", "2592001s", "721h", "1m1", "m1"):
            host.expect((422, error("limits")), "PATCH", "/tenants/four", {"auto_compaction_retention": given})
        want_time(host.expect_status(200, "GET", "/tenants/four"), *TIMES[-1])


def after_a_fault_nothing_changed(program):
    """What is told of the tenant and the others is as it was, and the bounds of before are in force."""
    with three(program) as host, contextlib.ExitStack() as stack:
        terms = {"quota": 192, "budget": LEAST_BUDGET, "open_connections": 2, "auto_compaction_retention": "1h"}
        said = host.expect_status(200, "PATCH", "/tenants/two", terms)
        told = {**terms, "budget": said["budget"]["bytes"], "open_connections": said["open_connections"]["most"]}
        want({name: told[name] for name in terms} == terms and said["quota"] == 192, f"told {said}")
        before = host.ask("GET", "/tenants")
        for body, status in FAULTY:
            host.expect_status(status, "PATCH", "/tenants/two", body)
            told = host.ask("GET", "/tenants")
            want(told == before, f"after {body} {told} is told, and before {before}")
        hold(host, stack, "two", 2)
        one_more_is_refused(host, "two")


TESTS = [a_bound_on_connections_is_its_tenants, a_budget_is_its_tenants, a_standing_order_comes_and_goes,
         a_tenant_comes_with_its_standing_order, a_time_is_told_as_it_was_given, after_a_fault_nothing_changed,
         watches_of_a_busy_tenant_are_told, connections_of_a_tenant_that_was_removed_go_first]
