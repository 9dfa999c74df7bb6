"""Tests of check-size: what configurations can be read, and what a host may take at the most."""
import contextlib
import json
import os
import re
import time

from attacks.attacks import ATTACKS, endless_bodies, idle_connections, unread_answers, unread_pipelines, unread_watches
from attacks.measure import Attacker
from server_checks.patience import fill
from shared.http_client import text
from shared.report import want
from shared.server import Server, configuration, run_to_end, tenant_of
from shared.store_calls import Place, using_puts
from size_checks.asked import Asked, Tenant, check_refused, host_of, kept, size_of
from size_checks.page import examples
from sizing import host_size

# So that the body of such a put is short beside what its tenant may take.
CELLS_A_PUT = 2_000
UNIT_ALLOCATOR = "libjemalloc.so.2"
UNREADABLE = b"etcd_host: the configuration can't be read\n"


def starts(program, tenants, segments):
    """Whether the server takes this configuration; else it can't be read."""
    given = json.dumps(configuration(tenants, segments=segments, connections=0)).encode()
    ran = run_to_end(program, given)
    want(ran.returncode == 0 or (ran.returncode, ran.stderr) == (2, UNREADABLE), f"{ran.returncode} {ran.stderr!r}")
    return ran.returncode == 0


def check_quotas(program):
    """The least and the largest quota that tools/size gives are those that the server takes."""
    least, largest = (Asked("", [], leases).sizes()["quota"] for leases in [1, 1_048_576])
    check_refused(Asked("", [], 1_048_577).words(), "so many cells")
    for quota, good in [(least - 1, False), (least, True), (largest, True), (largest + 1, False)]:
        want(starts(program, [tenant_of("one", quota)], 16_384) == good, f"a quota of {quota}: not {good}")


def check_segments(program, sizes):
    """The pool has to have the computed segments, and no more."""
    tenants = [tenant_of("one", sizes["quota"])]
    want(starts(program, tenants, sizes["segments"]), "the computed segments are too few")
    want(not starts(program, tenants, sizes["segments"] - 1), "one segment less is enough")


def resident(program, tenants, segments):
    """The resident bytes of a server with these tenants, whose quotas are used up, and one more of a segment."""
    with Server(program, configuration([tenant_of("more", 64), *tenants], segments=segments + 1)) as server:
        with Tenant(server, "more") as tenant:
            tenant.status()
        for one in tenants:
            with Tenant(server, one["name"]) as tenant:
                for put in using_puts(one["quota"], CELLS_A_PUT):
                    tenant.call(*put)
        return server.memory()["now"]


def check_unused(program):
    """Over the unit's allocator a pool takes memory as it is used: that of 262,144 segments, 940 MB, at the start hardly any."""
    given = configuration([tenant_of(name) for name in ["one", "two", "three"]], segments=262_144)
    with Server(program, given, {"LD_PRELOAD": UNIT_ALLOCATOR}) as server:
        if not server.has_mapped(UNIT_ALLOCATOR):
            print(f"{UNIT_ALLOCATOR} is not installed: an unused pool is not looked at")
            return
        with Tenant(server, "two") as tenant:
            for put in using_puts(1024, 512):
                tenant.call(*put)
        now = server.memory()["now"]
    print(f"a pool of 262,144 segments, of which few were used: {now:,} bytes")
    want(now < 100_000_000, f"{now:,} bytes are resident, of a pool that few used")


def check_memory(program, all_sizes):
    """What a host takes for tenants that are full lies within what tools/size tells."""
    tenants = [tenant_of(f"t{number}", sizes["quota"]) for number, sizes in enumerate(all_sizes)]
    taken = resident(program, tenants, sum(sizes["segments"] for sizes in all_sizes)) - resident(program, [], 0)
    least, most = (sum(sizes[name] for sizes in all_sizes) for name in ["memory_least", "memory_most"])
    want(least <= taken <= most, f"{taken:,} bytes are taken, computed {least:,} to {most:,}")


# Hosts.

# A build that checks memory would keep back what was freed; another one does not look at this.
KEEPS_NOTHING = {"ASAN_OPTIONS": "quarantine_size_mb=0:thread_local_quarantine_size_kb=0:redzone=16:max_redzone=16:"
                                 "detect_stack_use_after_return=0"}
NAMES = ["one", "two"]
# Each tenant has values of 100,000 bytes, so that an answer of all has more than a connection's buffers. The most that
# the host may take has to be less than twice what it takes: so its pool is large.
VALUES = 5
SMALL = configuration([tenant_of(name, 16_384, budget=8_388_608, open_connections=16) for name in NAMES],
                      segments=16_384, workers=1, open_connections=24)
# What each tenant's clients do at once, and how much of it. What takes most comes first, before there is no room.
DEEDS = {endless_bodies: 4, unread_watches: 4, unread_answers: 4, unread_pipelines: 4, idle_connections: 100}
ATTACKED_SECONDS = 5
MEMBERS = '"listen":"127.0.0.1:0","connections":0'
ONE = '"name":"one","cluster_id":"7","quota":64'
# Members of a configuration, and whether it can be read.
CONFIGURATIONS = [
    ("", True), ('"segments":"00064","workers":null,"open_connections":1,"more":[]', True), ('"segments":0', False),
    ('"segments":64.0', False), ('"workers":33', False), ('"workers":true', False), ('"workers":"-1"', False),
    ('"head_seconds":86401', False), ('"open_connections":0', False), ('"tenants":{}', False),
    ('"tenants":[{%s}]' % ONE, True), ('"tenants":[{%s},{%s}]' % (ONE, ONE), False),
    ('"segments":1,"tenants":[{%s},{"name":"two","cluster_id":"8","quota":4}]' % ONE, False),
    ('"tenants":[{"name":"One","cluster_id":"7","quota":64}]', False), ('"tenants":[{"name":"one","quota":64}]', False),
    ('"tenants":[{%s,"budget":4194304,"open_connections":9}]' % ONE, True),
    ('"tenants":[{%s,"budget":4194303}]' % ONE, False), ('"tenants":[{%s,"first":0}]' % ONE, False),
    ('"tenants":[{%s,"audit":65537}]' % ONE, False), ('"operator":"127.0.0.1:0"', True), ('"operator":"here"', False),
    ('"operator":"0.0.0.0:0"', False), ('"operator":"0.0.0.0:0","operator_token":""', False),
    ('"operator":"[::1]:70000"', False), ('"operator":"0.0.0.0:0","operator_token":"t"', True),
    ('"listen":7', False), ('"segments":NaN', False), ('"segments":64,', False),
]


def check_readable(program):
    """What configurations can be read, the script says as the server does."""
    for members, good in CONFIGURATIONS:
        given = ("{%s}" % ",".join(filter(None, [MEMBERS, members]))).encode()
        ran = run_to_end(program, given)
        # The address may be one that this machine has not.
        want((ran.returncode == 2) != good, f"the server reads {members}: {ran.returncode} {ran.stderr!r}")
        with kept(given) as path:
            told = size_of(["--host", path])
        want(told.returncode == (0 if good else 2), f"tools/size reads {members}: {told.returncode} {told.stderr}")
        want(good or told.stderr.startswith("size: "), f"tools/size tells {told.stderr}")


def check_no_bound():
    """Of a host with an audit, and of a configuration that is not there, no bound is told."""
    with kept(json.dumps(configuration([tenant_of("one", 64, audit=1)])).encode()) as path:
        ran = size_of(["--host", path])
    want((ran.returncode, ran.stdout) == (1, "") and "audit of one" in ran.stderr, f"{ran.returncode} {ran.stderr}")
    want(size_of(["--host", path]).returncode == 2, "a configuration that is not there can be read")


def check_sum():
    """All parts are there, and their sum; what is absent is what the server has then, by so many descriptors."""
    operated = configuration([tenant_of("one", 64)], operator="127.0.0.1:0")
    with kept(json.dumps(operated).encode()) as path:
        ran = size_of(["--host", path, "--descriptors", "1000"])
    parts = {name: int(number) for name, number in re.findall(r"^(\w+) +(\d+) ", ran.stdout, re.MULTILINE)}
    bound = parts.pop("bound")
    want(sum(parts.values()) == bound and len(parts) == 10, f"{parts}, in all {bound}")
    want(parts["pool"] == 1_024 * 3_584 and parts["budgets"] == (16 << 20) + 192 * 64, f"defaults: {parts}")
    want(parts["connections"] == 936 * host_size.CONNECTION, f"connections: {parts}")


def check_text(program):
    """A watch that is told of as much as it may be, with long numbers and what was there before, is told no more than
    the bound of a text, and more than half of it."""
    quota, keys, rounds, first, lease = 1_024, 31, 15, 4_000_000_000_000_000_000, "-9223372036854775807"
    puts = [{"requestPut": {"key": text(number.to_bytes(48, "big")), "lease": lease}} for number in range(keys)]
    with Server(program, configuration([tenant_of("one", quota, first=str(first))], segments=64)) as server:
        with Tenant(server, "one") as tenant:
            tenant.call("lease/grant", {"TTL": "3600", "ID": lease})
            for _ in range(rounds):
                tenant.call("kv/txn", {"success": puts})
        create = '{"key":"AA==","range_end":"AA==","prev_kv":true,"start_revision":"%d"}' % (first + 1)
        with server.watch("one", create) as watch:
            watch.told()
            line = watch.told()
    events, most = len(json.loads(line)["result"]["events"]), host_size.text_most(quota)
    want(events == keys * rounds, f"{events} events")
    want(most // 2 < len(line) <= most, f"a text of {len(line):,} bytes, told {most:,}")


def check_process(program):
    """A server without a tenant takes no more than what is told of the process."""
    config = configuration([], segments=1, workers=32)
    with Server(program, config, KEEPS_NOTHING) as server:
        time.sleep(1)
        taken, told = server.memory()["now"], host_of(config)["process"]
    want(taken <= told, f"{taken:,} bytes are taken, told {told:,}")


def attack(server):
    """Has the clients of both tenants do all that is rude at once, by what bench/rude has."""
    with contextlib.ExitStack() as stack:
        attackers = []
        for deed, count in DEEDS.items():
            attack_of = next(one for one in ATTACKS if one.act is deed)
            for name in NAMES:
                place = Place("ours", server.port, f"/t/{name}/v3/")
                attackers.append(stack.enter_context(Attacker(attack_of, place, ATTACKED_SECONDS, count)))
        for attacker in attackers:
            attacker.begin()
        for attacker in attackers:
            attacker.did()


def check_host(program):
    """What a host takes while it is attacked has the bound that tools/size tells, and has its pool."""
    parts = host_of(SMALL)
    with Server(program, SMALL, KEEPS_NOTHING) as server:
        with server.connect() as client:
            for name in NAMES:
                fill(client, name, VALUES)
        attack(server)
        peak = server.memory()["peak"]
    print(f"a host that is attacked: {peak:,} bytes at its peak, of {parts['bound']:,}")
    want(parts["pool"] <= peak <= parts["bound"], f"{peak:,} bytes at its peak, told {parts}")


def of_configurations(program):
    all_sizes = [asked.sizes() for asked, *_ in examples()]
    yield "the least and the largest quota", lambda: check_quotas(program)
    for sizes in [*all_sizes, Asked("", [], 128).sizes(), Asked("", [], 129).sizes()]:
        yield f"the segments of a quota of {sizes['quota']}", lambda: check_segments(program, sizes)
    if not os.path.exists("/proc/self/status"):
        print("there is no /proc: memory is not looked at")
        return
    yield "the memory of the examples' tenants", lambda: check_memory(program, all_sizes)
    yield "a pool that few used", lambda: check_unused(program)
    small = Asked("", [], 64).sizes()
    yield "the memory of 255 small tenants", lambda: check_memory(program, [small] * 255)


def of_hosts(program):
    yield "which configurations can be read", lambda: check_readable(program)
    yield "a host without a bound", check_no_bound
    yield "the parts of a bound", check_sum
    yield "the longest text of a watch", lambda: check_text(program)
    if os.path.exists("/proc/self/status"):
        yield "the memory of the process itself", lambda: check_process(program)
        yield "the memory of a host that is attacked", lambda: check_host(program)
