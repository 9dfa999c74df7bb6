"""Tests of check-server on what one tenant's clients may take, and that no other tenant pays for it: their budget, and
the workers.

Each test is given the program, and raises `Wrong` where something is not as it is wanted.
"""
import contextlib
import threading
import time
from concurrent.futures import ThreadPoolExecutor

from server_checks.patience import fill
from shared.http_client import Connection, head, in_both_forms, path, request, text
from shared.report import want
from shared.server import Server, configuration, tenant_of
from shared.wanted import ALL, KEY, LARGEST_BODY, PUT, REFUSALS, done

NAMES = "one", "two", "three"
LARGE_QUOTA = 200_000
# The least budget has room for two of the largest bodies. The middle one has room for a range of all values once: for
# what is planned, two and a half times the values' bytes, and beside the text of another one for no second.
LEAST_BUDGET, MIDDLE_BUDGET = 4_194_304, 16_777_216
# Of values of 100,000 bytes, so that a range of all has 8.5 million bytes: more than the system takes in for a client
# that reads nothing.
VALUES = 64
RANGE_OF_ALL = f"{{{ALL}}}"
ONE_ROW = '{"key":"AQ=="}'
# A client that reads nothing takes so few bytes that the server's answers have to wait.
WINDOW = 4096
SOON = 10


def budgeted(program, budget):
    """A server whose second tenant has that budget, and waits two seconds for a body."""
    tenants = [tenant_of(name, quota=LARGE_QUOTA) for name in NAMES]
    tenants[1]["budget"] = budget
    return Server(program, configuration(tenants, segments=16_384, body_seconds=2))


def long_put(size=10_000):
    """A put of a value of this size, whose body is not short."""
    return '{"key":"YQ==","value":"%s"}' % text(b"x" * size)


def want_others_served(client):
    """The first tenant and the third put, and read all, whatever becomes of the second: they have their own budgets."""
    for name in NAMES[::2]:
        for call, body in [("kv/put", PUT), ("kv/put", long_put()), ("kv/range", RANGE_OF_ALL)]:
            want(client.call(name, call, body).status == 200, f"tenant {name} is refused {call}")


def want_soon(client, call, body, status):
    """The second tenant is answered so, within some seconds."""
    last = time.monotonic() + SOON
    while (got := client.call("two", call, body)).status != status:
        want(time.monotonic() < last, f"{call} is still answered {got.status}")
        time.sleep(0.1)
    return got.status, got.body


def want_little_more(server, before, most):
    """The server's memory is not much more than it was, and never was."""
    more = server.memory()["peak"] - before
    want(more < most, f"the host takes {more:,} bytes more")


def resident(server):
    return server.memory()["now"]


def an_answer_that_is_too_long_is_refused_before_it_is_made(program):
    """It takes no memory and makes no call; what is shorter is answered, and so are other tenants."""
    with budgeted(program, LEAST_BUDGET) as server, server.connect() as other:
        fill(other, "two", VALUES)
        before = resident(server)
        put = f'{{"requestPut":{PUT}}}'
        ranges = ",".join([f'{{"requestRange":{RANGE_OF_ALL}}}'] * 32)
        for call, body in [("kv/range", RANGE_OF_ALL), ("kv/txn", f'{{"success":[{put},{ranges}]}}'),
                           ("kv/range", f'{{{ALL},"revision":"{VALUES + 1}"}}'),
                           ("kv/range", f'{{{ALL},"revision":"{VALUES}"}}'),
                           ("kv/deleterange", f'{{{ALL},"prev_kv":true}}')]:
            other.expect("two", call, body, REFUSALS["Memory"])
        want_little_more(server, before, 3_000_000)
        other.expect("two", "kv/put", PUT, done(VALUES + 2))
        for call, body in [("kv/range", f'{{{ALL},"limit":"10"}}'), ("kv/range", f'{{{ALL},"count_only":true}}'),
                           ("kv/range", ONE_ROW), ("kv/txn", f'{{"success":[{put},{{"requestRange":{KEY}}}]}}'),
                           ("kv/put", '{"key":"YQ==","prev_kv":true}'), ("lease/leases", "{}"),
                           ("kv/deleterange", f"{{{ALL}}}")]:
            want(other.call("two", call, body).status == 200, f"{call} {body} is refused")
        want_others_served(other)


def a_range_of_what_a_transaction_puts_counts(program):
    """A transaction that puts a long value and reads it many times is refused, though nothing is there before."""
    with budgeted(program, LEAST_BUDGET) as server, server.connect() as other:
        put = f'{{"requestPut":{{"key":"YQ==","value":"{text(b"x" * 1_000_000)}"}}}}'
        reads = ",".join([f'{{"requestRange":{KEY}}}'] * 100)
        other.expect("two", "kv/txn", f'{{"success":[{put},{reads}]}}', REFUSALS["Memory"])
        other.expect("two", "kv/range", KEY, done(1))
        want_others_served(other)


def answers_that_nobody_reads_stop_at_the_budget(program):
    """What the budget has no room for is refused then; what is shorter is served. Once they are gone all is served."""
    with budgeted(program, MIDDLE_BUDGET) as server, server.connect() as other:
        fill(other, "two", VALUES)
        with Connection(server.port, WINDOW) as unread:
            unread.send(request(path("two", "kv/range"), RANGE_OF_ALL))
            want(unread.head(time.monotonic() + SOON).status == 200, "a range of all is refused at first")
            refused = want_soon(other, "kv/range", RANGE_OF_ALL, 503)
            want(refused == REFUSALS["Memory"], f"it is refused by {refused}")
            want(other.call("two", "kv/range", ONE_ROW).status == 200, "a range of one row is refused")
            other.expect("two", "kv/put", PUT, done(VALUES + 2))
            want(other.call("two", "lease/grant", '{"TTL":"60","ID":"7"}').status == 200, "no lease is granted")
            want(other.call("two", "lease/keepalive", '{"ID":"7"}').status == 200, "no lease is kept alive")
            want(other.call("two", "kv/compaction", '{"revision":"2"}').status == 200, "nothing is compacted")
            want_others_served(other)
        want_soon(other, "kv/range", RANGE_OF_ALL, 200)
        want_others_served(other)


def many_answers_that_nobody_reads_take_little_more(program):
    """Thirty clients ask for answers of 3.2 million bytes, more than the system takes in, and four times each."""
    with budgeted(program, MIDDLE_BUDGET) as server, server.connect() as other, contextlib.ExitStack() as stack:
        fill(other, "two", VALUES)
        before = resident(server)
        for _ in range(30):
            client = stack.enter_context(Connection(server.port, WINDOW))
            client.send(request(path("two", "kv/range"), f'{{{ALL},"limit":"24"}}') * 4)
        want_soon(other, "kv/range", RANGE_OF_ALL, 503)
        time.sleep(0.5)
        want_little_more(server, before, 40_000_000)
        want_others_served(other)


def begun_body(server, length=LARGEST_BODY, name="two"):
    """A connection that has announced a body and sends no more than its first byte."""
    client = server.connect()
    client.send(head(path(name, "kv/put"), [f"content-length: {length}"]) + b"{")
    return client


def want_quiet(client, seconds):
    client.socket.settimeout(seconds)
    with contextlib.suppress(TimeoutError):
        want(False, f"it is told {client.socket.recv(100)!r}")


def a_body_waits_for_its_share(program):
    """It is read once another body is gone; short ones are served meanwhile, and so are other tenants."""
    with budgeted(program, LEAST_BUDGET) as server, server.connect() as other:
        with begun_body(server, LEAST_BUDGET // 2), begun_body(server, LEAST_BUDGET // 2), server.connect() as waiting:
            time.sleep(0.3)
            waiting.send(request(path("two", "kv/put"), long_put()))
            want_quiet(waiting, 0.5)
            other.expect("two", "kv/put", PUT, done(2))
            want_others_served(other)
        want_soon(other, "kv/put", long_put(), 200)


def a_budget_that_is_not_told_grows_with_the_quota(program):
    """16 MiB have room for eight of the largest bodies, and four times the bytes of 10,923 cells for one more. A value
    of 200,000 bytes has a body of more than four times the bytes of 1,024 cells, which are left beside eight."""
    quotas = {"small": 1024, "larger": 10_923}
    tenants = [tenant_of(name, quota) for name, quota in quotas.items()]
    with Server(program, configuration(tenants)) as server, contextlib.ExitStack() as stack:
        for name, room in ("small", 8), ("larger", 9):
            for _ in range(room - 1):
                stack.enter_context(begun_body(server, name=name))
            time.sleep(0.3)
            with server.connect() as client:
                told = client.call(name, "kv/put", long_put(200_000))
                want(told.status != 503, f"{name}: a body has no room")
            stack.enter_context(begun_body(server, name=name))
            time.sleep(0.3)
            client = stack.enter_context(server.connect())
            client.send(request(path(name, "kv/put"), long_put(200_000)))
            want_quiet(client, 0.5)


def a_body_that_gets_its_share_is_served(program):
    """One whose length is told waits for that, and one in chunks for the length of the longest body."""
    sized = request(path("two", "kv/put"), long_put())
    _, chunked = in_both_forms(path("two", "kv/put"), PUT.encode())
    with budgeted(program, LEAST_BUDGET) as server, begun_body(server, LEAST_BUDGET // 2):
        for message in sized, chunked:
            gone = begun_body(server, LEAST_BUDGET // 2)
            time.sleep(0.3)
            with server.connect() as waiting:
                waiting.send(message)
                want_quiet(waiting, 0.3)
                gone.close()
                want(waiting.answer().status == 200, "a put is refused")


def a_body_that_gets_no_share_in_time_is_refused(program):
    """It is answered that there is no memory, and makes no call."""
    with budgeted(program, LEAST_BUDGET) as server, begun_body(server) as first, begun_body(server) as second:
        time.sleep(0.3)
        with server.connect() as waiting:
            waiting.send(request(path("two", "kv/put"), long_put()))
            for _ in range(10):
                time.sleep(0.3)
                first.send(b" ")
                second.send(b" ")
            waiting.answer(seconds=1).check(REFUSALS["Memory"])
            waiting.expect("two", "kv/put", PUT, done(2))


def a_body_that_takes_too_much_to_read_is_refused(program):
    """Objects without end would take two hundred times the body's bytes. As large a body with a few is read."""
    with budgeted(program, LEAST_BUDGET) as server, server.connect() as other:
        other.expect("two", "kv/put", PUT, done(2))
        before = resident(server)
        for piece in '{"":1},', "[],", "1,":
            body = '{"a":[%s1]}' % (piece * (LARGEST_BODY // len(piece) - 10))
            other.expect("two", "kv/put", body, REFUSALS["Memory"])
        want_little_more(server, before, 10_000_000)
        puts = ",".join(f'{{"requestPut":{{"key":"{text(b"%d" % number)}","value":"{text(b"x" * 10_000)}"}}}}'
                        for number in range(128))
        padded = other.call("two", "kv/range", KEY + " " * (LARGEST_BODY - len(KEY)))
        want(padded.status == 200, f"a body of spaces is answered {padded.status}")
        want(other.call("two", "kv/txn", f'{{"success":[{puts}]}}').status == 200, "a long transaction is refused")
        want_others_served(other)


def watches_that_nobody_reads_stop_at_the_budget(program):
    """Each would be told 8.5 million bytes. Once they are gone all is served."""
    create = f'{{{ALL},"start_revision":"2"}}'
    with budgeted(program, MIDDLE_BUDGET) as server, server.connect() as other, contextlib.ExitStack() as stack:
        fill(other, "two", VALUES)
        before = resident(server)
        for _ in range(32):
            stack.enter_context(server.watch("two", create, WINDOW))
        want_soon(other, "kv/range", RANGE_OF_ALL, 503)
        time.sleep(2.5)
        want_little_more(server, before, 60_000_000)
        want(other.call("two", "kv/compaction", '{"revision":"2"}').status == 200, "nothing is compacted")
        want_others_served(other)
        stack.close()
        want_soon(other, "kv/range", RANGE_OF_ALL, 200)


def a_text_is_made_where_the_budget_has_room_for_it(program):
    """A text of 16 values has half of the budget and weighs nearly all of it. As long as one is not read no other is made, also
    where the other's client reads; the rest of the budget is for other calls."""
    create = f'{{{ALL},"start_revision":"2"}}'
    with budgeted(program, LEAST_BUDGET) as server, server.connect() as other:
        fill(other, "two", VALUES)
        with server.watch("two", create, WINDOW):
            # The system takes in the first ones.
            time.sleep(1)
            want_soon(other, "kv/range", f'{{{ALL},"limit":"16"}}', 503)
            with server.watch("two", create) as reading:
                reading.told()
                want_quiet(reading, 2.5)
                want(not reading.text, f"it is told {len(reading.text):,} bytes")
                few = other.call("two", "kv/range", f'{{{ALL},"limit":"4"}}')
                want(few.status == 200, f"a range of four values is answered {few.status}")
        with server.watch("two", create) as reading:
            reading.told()
            reading.events(VALUES)
        want_others_served(other)


def a_watch_that_is_read_is_told_all(program):
    """Its texts have more bytes than the budget together, and each comes when the last one is sent."""
    with budgeted(program, LEAST_BUDGET) as server, server.connect() as other:
        fill(other, "two", VALUES)
        with server.watch("two", f'{{{ALL},"start_revision":"2"}}') as watch:
            watch.told()
            watch.events(VALUES)
            other.expect("two", "kv/put", PUT, done(VALUES + 2))
            watch.events(1)


def trickle(client, ends):
    """Sends a byte of a long body each second."""
    while not ends.wait(1):
        client.send(b" ")


def a_watch_far_behind_is_told_beside_one_that_finds_no_budget(program):
    """A body that comes slowly has half of the budget, and the next text of one watch weighs more than what is left. Another one
    is two thousand changes behind."""
    ends = threading.Event()
    with budgeted(program, LEAST_BUDGET) as server, server.connect() as other, server.watch("two", KEY) as starved:
        starved.told()
        for _ in range(20):
            other.send(request(path("two", "kv/put"), '{"key":"Yg=="}') * 100)
            for _ in range(100):
                want(other.answer().status == 200, "a put is refused")
        with begun_body(server) as slow, ThreadPoolExecutor(1) as threads:
            threads.submit(trickle, slow, ends)
            try:
                want(other.call("two", "kv/put", long_put(1_200_000)).status == 200, "a long put is refused")
                want_quiet(starved, 3)
                with server.watch("two", '{"key":"Yg==","start_revision":"2"}') as behind:
                    behind.told()
                    want(len(behind.events(16)) == 16, "sixteen events")
                want_others_served(other)
            finally:
                ends.set()


def keep_busy(server, name, ends, answered):
    """Makes calls that take a worker long to read, one after another, and counts them."""
    with server.connect() as client:
        while not ends.is_set():
            client.call(name, "kv/range", '{"key":"%s"}' % ("QUFB" * 400_000))
            answered.append(name)


def answered_beside(program, workers):
    """How many calls that take long are answered to the first tenant and the third while the second makes fifty that
    don't, each of which goes to a worker too."""
    tenants = [tenant_of(name) for name in NAMES]
    ends, answered = threading.Event(), []
    with Server(program, configuration(tenants, workers=workers)) as server, ThreadPoolExecutor(6) as threads:
        busy = [threads.submit(keep_busy, server, name, ends, answered) for name in NAMES[::2] * 3]
        time.sleep(0.5)
        before = len(answered)
        with server.connect() as brief:
            for _ in range(50):
                told = brief.call("two", "kv/txn", f'{{"success":[{{"requestRange":{KEY}}}]}}')
                want(told.status == 200, f"a transaction is answered {told.status}")
        beside = len(answered) - before
        ends.set()
        for one in busy:
            one.result()
        want(before > 0, "nothing took long")
        return beside


def a_worker_is_left_to_tenants_whose_calls_are_brief(program):
    """With one worker each of fifty calls waits for others that take long, and with two for none."""
    alone, one_more = (answered_beside(program, workers) for workers in (1, 2))
    want(one_more < 25 < alone, f"{one_more} calls that take long are answered meanwhile, and {alone} by one worker")


TESTS = [an_answer_that_is_too_long_is_refused_before_it_is_made, a_range_of_what_a_transaction_puts_counts,
         answers_that_nobody_reads_stop_at_the_budget, many_answers_that_nobody_reads_take_little_more,
         a_budget_that_is_not_told_grows_with_the_quota, a_body_waits_for_its_share,
         a_body_that_gets_its_share_is_served, a_body_that_gets_no_share_in_time_is_refused,
         a_body_that_takes_too_much_to_read_is_refused, watches_that_nobody_reads_stop_at_the_budget,
         a_text_is_made_where_the_budget_has_room_for_it, a_watch_that_is_read_is_told_all,
         a_watch_far_behind_is_told_beside_one_that_finds_no_budget]
# What keeps all processors busy, and so has to go behind all others.
BUSY = [a_worker_is_left_to_tenants_whose_calls_are_brief]
