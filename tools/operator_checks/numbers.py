"""Tests of check-operator on what is told of tenants in numbers, by `GET /tenants/<name>` and for a dashboard.

Each test is given the program, and raises `Wrong` where something is not as it is wanted. The numbers are those of the
second of three tenants; the other two have what they had.
"""
import contextlib
import re
import subprocess
import time

from shared.http_client import path, request, text
from shared.operated_host import Host, asked_until
from shared.report import want
from shared.server import tenant_of
from shared.wanted import ALL, KEY, PUT, REFUSALS, created_line, done

NAMES = "one", "two", "three"


def samples(text):
    """Of each sample its value, by what stands before it; each name has its help and its type before it, once."""
    told, described = {}, {}
    for line in text.splitlines():
        if found := re.fullmatch(r"# (HELP|TYPE) (\w+) (.+)", line):
            want((found[1], found[2]) not in described, f"{line} comes twice")
            described[found[1], found[2]] = found[3]
            continue
        found = re.fullmatch(r'((\w+?)(_bucket|_sum|_count)?(?:\{\w+="[^"]*"(?:,\w+="[^"]*")*\})?) (\d+(?:\.\d+)?)', line)
        want(found, f"no sample: {line}")
        kinds = {"histogram"} if found[3] else {"gauge", "counter"}
        want(("HELP", found[2]) in described and described.get(("TYPE", found[2])) in kinds, f"of no type: {line}")
        want(found[1] not in told, f"{line} comes twice")
        told[found[1]] = float(found[4])
    return told


OF_TIMES = re.compile(r"bikazery_(wait|turn)_seconds_(bucket|sum)|process_resident_memory_bytes")
ASKED = [("kv/put", PUT), ("kv/put", PUT), ("kv/range", "{"), ("lease/revoke", '{"ID":"5"}')]


def changes(before, after):
    """What is told otherwise, but for times and what they make."""
    return {name: value for name, value in after.items() if before.get(name) != value and not OF_TIMES.match(name)}


def of_two():
    """What is told otherwise once two was asked. The calls that wait for a worker are the revocation, the watch and the
    compaction."""
    calls, refusals = 'bikazery_calls_total{tenant="two",call="%s",status="%d"}', 'bikazery_refusals_total{tenant="two",number="%d"}'
    asked = {("put", 200): 2, ("range", 400): 1, ("lease_revoke", 404): 1, ("watch", 200): 1, ("compaction", 200): 1}
    own = {"revision": 3, "keys": 1, "compacted_revision": 3, "watches": 1, "connections": 2, "drawn_segments": 1}
    return {**{calls % call: count for call, count in asked.items()}, refusals % 14: 1, refusals % 10: 1,
            **{'bikazery_tenant_%s{tenant="two"}' % name: number for name, number in own.items()},
            "bikazery_connections": 2, 'bikazery_wait_seconds_count{tenant="two"}': 3}


def check_changes(changed, wanted, answered):
    """What is told otherwise is as it is wanted, and what can't be told beforehand lies within bounds."""
    names = ["tenant_cells", "turn_seconds_count", "received_bytes_total", "answered_bytes_total"]
    cells, turns, brought, texts = (changed.pop('bikazery_%s{tenant="two"}' % name, 0) for name in names)
    want(changed == wanted and cells > 0 and 3 <= turns <= 6, f"changed {changed}, wanted {wanted}; {turns} turns")
    least = sum(len(body) for _, body in ASKED) + len("{%s}" % ALL)
    want(least < brought < least + 100, f"{brought} bytes were brought, at least {least}")
    least = sum(len(told.body) for told in answered)
    want(least < texts < least + 400, f"{texts} bytes were answered, at least {least}")


def check_reader(text, count):
    """Prometheus reads so many samples, where its Python client is installed."""
    python = "/usr/bin/python3"
    if subprocess.run([python, "-c", "import prometheus_client"], capture_output=True).returncode == 0:
        parse = ("import sys; from prometheus_client.parser import text_string_to_metric_families as parse; "
                 "print(sum(len(family.samples) for family in parse(sys.stdin.read())))")
        ran = subprocess.run([python, "-c", parse], input=text, capture_output=True, text=True, timeout=60)
        want(ran.stdout.strip() == str(count), f"Prometheus reads {ran.stdout} {ran.stderr[-200:]} of {count}")


def metrics_are_told(program):
    """Of the second of three tenants; the other two have what they had."""
    wanted = of_two()
    with Host(program, [tenant_of(name) for name in NAMES]) as host:
        all_are_told = lambda told: all('bikazery_tenant_revision{tenant="%s"}' % name in told for name in NAMES)
        before = asked_until(all_are_told, lambda: samples(host.text("/metrics")))
        with host.connect() as connection:
            answered = [connection.call("two", call, body) for call, body in ASKED]
            watch = host.watch("two", "{%s}" % ALL)
            watch.told()
            connection.expect("two", "kv/compaction", '{"revision":"3"}', done(3))
            is_told = lambda text: wanted.items() <= changes(before, samples(text)).items()
            text = asked_until(is_told, lambda: host.text("/metrics"))
        after = samples(text)
        check_changes(changes(before, after), wanted, answered)
        want(after["bikazery_tenants"] == 3 and after["bikazery_free_segments"] == 4096 - 3 * 16, f"told {after}")
        want(after["bikazery_segments"] == 4096, f"told {after}")
        told, resident = after["process_resident_memory_bytes"], host.memory()["now"]
        want(abs(told - resident) < resident / 4, f"{told:,} resident bytes are told, the system says {resident:,}")
        for name in ("wait", "turn"):
            whole = [after['bikazery_%s_seconds_%s' % (name, part)] for part in ('bucket{tenant="two",le="+Inf"}', 'count{tenant="two"}')]
            want(whole[0] == whole[1], f"of {name} {whole}")
        check_reader(text, len(after))


# Quotas, the alarm, leases, budgets, connections and times, each against what was done.

ALARM = '{"action":"%s","alarm":"NOSPACE"}'
# What is done, and then whether the alarm is raised and how many leases there are.
STEPS = [("maintenance/alarm", ALARM % "ACTIVATE", True, 0), ("maintenance/alarm", ALARM % "DEACTIVATE", False, 0),
         ("lease/grant", '{"TTL":"600","ID":"7"}', False, 1), ("lease/grant", '{"TTL":"600","ID":"8"}', False, 2),
         ("maintenance/alarm", ALARM % "ACTIVATE", True, 2), ("lease/revoke", '{"ID":"7"}', True, 1),
         ("maintenance/alarm", ALARM % "DEACTIVATE", False, 1), ("lease/revoke", '{"ID":"8"}', False, 0)]
SMALL_QUOTA = 64
BUDGET = 8_388_608
# Where nothing is told: 16 MiB, and 192 bytes for each cell of the quota.
OWN_BUDGET = 16_777_216 + 192 * 1024
VALUE_BYTES = 300_000
ENDS = ["0.00001", "0.0001", "0.001", "0.01", "0.1", "1"]
LONG_CALLS = 8


def numbers_of(host, name, *words):
    """What a dashboard is told of a tenant by these names."""
    told = samples(host.text("/metrics"))
    return [told.get('bikazery_tenant_%s{tenant="%s"}' % (word, name)) for word in words]


def want_at_last(wanted, ask):
    """What is told by and by: of a tenant that is busy it is what it was before."""
    told = asked_until(lambda told: told == wanted, ask)
    want(told == wanted, f"told {told}, wanted {wanted}")


def of_host(host):
    """How many tenants and segments there are, and how many are free."""
    told = samples(host.text("/metrics"))
    return [told[f"bikazery_{word}"] for word in ("tenants", "segments", "free_segments")]


def quotas_and_segments_are_told(program):
    """As tenants come, change and go, and the pool grows. A quota of 64 cells is a segment."""
    with Host(program, [tenant_of(name) for name in NAMES]) as host:
        want_at_last([3, 4096, 4096 - 3 * 16], lambda: of_host(host))
        said = host.expect_status(200, "PATCH", "/tenants/two", {"quota": 192})
        want((said["quota"], said["segments"]) == (192, {"reserved": 3, "drawn": 0}), f"told {said}")
        host.expect_status(201, "POST", "/tenants", tenant_of("four", 65))
        host.expect_status(200, "POST", "/pool", {"segments": 5})
        host.expect_status(204, "DELETE", "/tenants/one")
        want_at_last([3, 4101, 4101 - 3 - 16 - 2], lambda: of_host(host))
        for name, quota, segments in [("one", None, None), ("two", 192, 3), ("three", 1024, 16), ("four", 65, 2)]:
            want_at_last([quota, segments], lambda: numbers_of(host, name, "quota_cells", "reserved_segments"))


def want_alarm_and_leases(host, name, raised, leases):
    said = host.expect_status(200, "GET", f"/tenants/{name}")
    want((said["no_space"], said["leases"]) == (raised, leases), f"of tenant {name} {said} is told")
    want_at_last([int(raised), leases], lambda: numbers_of(host, name, "no_space", "leases"))


def an_alarm_and_leases_are_told_while_they_last(program):
    """The alarm also where a put is refused for its sake, and no lease once its time has passed."""
    with Host(program, [tenant_of(name, SMALL_QUOTA) for name in NAMES]) as host, host.connect() as client:
        for call, body, raised, leases in STEPS:
            want(client.call("two", call, body).status == 200, f"{call} {body} is refused")
            want_alarm_and_leases(host, "two", raised, leases)
        client.expect("two", "kv/put", '{"key":"YQ==","value":"%s"}' % text(b"v" * 48 * SMALL_QUOTA), REFUSALS["NoSpace"])
        want_alarm_and_leases(host, "two", True, 0)
        want(client.call("two", "maintenance/alarm", ALARM % "DEACTIVATE").status == 200, "the alarm stays")
        want(client.call("two", "lease/grant", '{"TTL":"1","ID":"9"}').status == 200, "a lease is refused")
        want_at_last(0, lambda: host.expect_status(200, "GET", "/tenants/two")["leases"])
        want_alarm_and_leases(host, "two", False, 0)
        for name in NAMES[::2]:
            want_alarm_and_leases(host, name, False, 0)


def want_budget(host, name, most, used):
    want_at_last({"bytes": most, "used": used}, lambda: host.expect_status(200, "GET", f"/tenants/{name}")["budget"])
    want_at_last([most, used], lambda: numbers_of(host, name, "budget_bytes", "budget_used_bytes"))


def a_budget_is_told_with_what_is_taken_of_it(program):
    """That is the length of a body that has begun, until it is answered."""
    with Host(program, [tenant_of(name) for name in NAMES]) as host, host.connect() as slow:
        host.expect_status(200, "PATCH", "/tenants/two", {"budget": BUDGET})
        want_budget(host, "two", BUDGET, 0)
        body = '{"key":"YQ==","value":"%s"}' % text(b"v" * VALUE_BYTES)
        whole = request(path("two", "kv/range"), body)
        slow.send(whole[:-1])
        want_budget(host, "two", BUDGET, len(body))
        for name in NAMES[::2]:
            want_budget(host, name, OWN_BUDGET, 0)
        slow.send(whole[-1:])
        slow.answer().check(done(1))
        want_budget(host, "two", BUDGET, 0)


def of_connections(host):
    """How many are open, were refused, were ended for others and were lost."""
    told = samples(host.text("/metrics"))
    return [told["bikazery_connections" + word] for word in ("", "_refused_total", "_ended_total", "_lost_total")]


def connections_that_went_are_counted(program):
    """One that was idle goes for another; where none is idle, one more is refused."""
    with Host(program, [tenant_of(name, open_connections=9) for name in NAMES], open_connections=4) as host, \
            contextlib.ExitStack() as stack:
        watches = [stack.enter_context(host.watch("two", KEY)) for _ in range(3)]
        idle = stack.enter_context(host.connect())
        idle.expect("one", "kv/put", PUT, done(2))
        want_at_last([4, 0, 0, 0], lambda: of_connections(host))
        with host.connect() as other:
            other.expect("three", "kv/put", PUT, done(2))
            idle.ended()
            want_at_last([4, 0, 1, 0], lambda: of_connections(host))
        want_at_last([3, 0, 1, 0], lambda: of_connections(host))
        watches.append(stack.enter_context(host.watch("two", KEY)))
        for watch in watches:
            watch.expect_line(created_line(1))
        for refused in (1, 2):
            with host.connect() as more, contextlib.suppress(BrokenPipeError, ConnectionResetError):
                more.ended()
            want_at_last([4, refused, 1, 0], lambda: of_connections(host))


def of_times(told, kind):
    """Of the second tenant's times: the ends, how many lie below each, their sum and how many there are."""
    front = f"bikazery_{kind}_seconds_"
    ends = [name[name.index('le="') + 4:-2] for name in told if name.startswith(front + 'bucket{tenant="two",le="')]
    below = [told['%sbucket{tenant="two",le="%s"}' % (front, end)] for end in ends]
    return ends, below, *(told['%s%s{tenant="two"}' % (front, part)] for part in ("sum", "count"))


def fault_of_times(told, kind, least, took):
    """What is wrong with the times of one kind, of which there are so many at least: the sum has to be as the ends and the
    counts say, and as long as it took in all at the most."""
    ends, below, total, count = of_times(told, kind)
    if [float(end) for end in ends] != [float(end) for end in [*ENDS, "inf"]]:
        return f"the ends of {kind} are {ends}"
    if below != sorted(below) or below[-1] != count or count < least:
        return f"below the ends of {kind} there are {below}, and {count} in all, at least {least}"
    parts = [after - before for before, after in zip([0, *below], below)]
    bounds = [0, *map(float, ends)]
    shortest = sum(part * bound for part, bound in zip(parts, bounds))
    longest = sum(part * bound for part, bound in zip(parts, bounds[1:]) if part)
    if not shortest <= total <= min(longest, took):
        return f"{kind}: {total} seconds, with {parts} between {bounds}, and all took {took}"
    return None


def times_are_told_in_seconds(program):
    """One call after another is made, each of which takes long to read: a good part of that time is their turns'."""
    long_key = '{"key":"%s"}' % text(b"k" * 200_000)
    with Host(program, [tenant_of(name) for name in NAMES]) as host, host.connect() as client:
        begun = time.monotonic()
        for _ in range(LONG_CALLS):
            client.expect("two", "kv/range", long_key, done(1))
        took = time.monotonic() - begun

        def fault():
            told = samples(host.text("/metrics"))
            faults = [fault_of_times(told, kind, LONG_CALLS, time.monotonic() - begun) for kind in ("turn", "wait")]
            _, _, turns, _ = of_times(told, "turn")
            few = f"the turns took {turns} seconds, and the calls {took}" if turns < took / 500 else None
            return faults[0] or faults[1] or few

        last = asked_until(lambda found: not found, fault)
        want(not last, last)


TESTS = [metrics_are_told, quotas_and_segments_are_told, an_alarm_and_leases_are_told_while_they_last,
         a_budget_is_told_with_what_is_taken_of_it, connections_that_went_are_counted, times_are_told_in_seconds]
