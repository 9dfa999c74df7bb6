"""Tests of check-server on compactions by a tenant's standing order.

Each test is given the program, and raises `Wrong` where something is not as it is wanted. The tenant with the order is the
second of three; the other two keep their whole history.
"""
import re
import time

from shared.http_client import text
from shared.report import want
from shared.server import Server, configuration, tenant_of
from shared.wanted import ALL, KEY, PUT, created_line, done, events_line, put_event

PERIOD = 10
COMPACTED = "required revision has been compacted"


def three(program, **order):
    tenants = [tenant_of(name, **(order if name == "two" else {})) for name in ("one", "two", "three")]
    return Server(program, configuration(tenants))


def put(client, name, number):
    key, value = text(b"key"), text(str(number).encode())
    answer = client.call(name, "kv/put", f'{{"key":"{key}","value":"{value}"}}')
    want(answer.status == 200, f"a put is answered {answer.status}")
    return int(re.search(rb'"revision":"(\d+)"', answer.body)[1])


def told_at(client, name, revision):
    """What a range at a revision is told: True where it is answered, False where it was compacted."""
    answer = client.call(name, "kv/range", f'{{"key":"{text(b"key")}","revision":"{revision}"}}')
    want(answer.status == 200 or COMPACTED in answer.body.decode(), f"a range at {revision} is told {answer.body}")
    return answer.status == 200


def history_goes_after_its_time(program):
    """What is younger than the period stays, and what is older than two periods and a step is gone."""
    with three(program, auto_compaction_retention=f"{PERIOD}s") as server, server.connect() as client:
        made = []
        for number in range(5 * PERIOD):
            for name in ("one", "three"):
                put(client, name, number)
            made.append((time.monotonic(), put(client, "two", number)))
            want(told_at(client, "two", made[-1][1]), "the newest revision is gone")
            young = [revision for moment, revision in made if time.monotonic() - moment < PERIOD - 2]
            want(told_at(client, "two", young[0]), "a revision that is younger than the period is gone")
            time.sleep(0.5)
        old = [revision for moment, revision in made if time.monotonic() - moment > 2 * PERIOD + 3]
        want(bool(old), "no revision is old yet")
        want(not told_at(client, "two", old[-1]), "a revision that is older than two periods is there")
        for name in ("one", "three"):
            want(told_at(client, name, 2), "another tenant was compacted")


def a_watch_is_told_each_event_beside_compactions(program):
    """A client that reads is cancelled for nothing: each event comes, also of what is compacted soon after it."""
    with three(program, auto_compaction_retention="2s") as server, server.connect() as client:
        with server.watch("two", f"{{{ALL}}}") as watch:
            watch.expect_line(created_line(1))
            for number in range(16):
                revision = put(client, "two", number)
                event = put_event(text(b"key"), 2, revision, text(str(number).encode()), number + 1)
                want(event in watch.told().decode(), f"the event of revision {revision} did not come")
                time.sleep(0.5)
        want(not told_at(client, "two", 2), "nothing was compacted")


def a_quiet_watch_outlives_compactions(program):
    """A watch of a key that nobody puts is brought on before each compaction, and told of the first put."""
    puts = 16
    with three(program, auto_compaction_retention="2s") as server, server.connect() as client:
        with server.watch("two", KEY) as watch:
            watch.expect_line(created_line(1))
            for number in range(puts):
                put(client, "two", number)
                time.sleep(0.5)
            want(not told_at(client, "two", 2), "nothing was compacted")
            client.expect("two", "kv/put", PUT, done(puts + 2))
            watch.expect_line(events_line([put_event("YQ==", puts + 2, puts + 2, "MQ==", 1)], puts + 2))


TESTS = [history_goes_after_its_time, a_watch_is_told_each_event_beside_compactions, a_quiet_watch_outlives_compactions]
