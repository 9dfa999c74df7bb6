"""Tests of check-size: a tenant of the computed quota takes what it is to hold, and one of a cell less does not."""
from shared.report import want
from shared.server import Server, configuration, tenant_of
from size_checks.asked import Asked, Kind, Tenant, calls_of, check_refused, key_text, put
from size_checks.page import examples

# With a key of two bytes the body of this value's put has exactly as many bytes as a body may have.
LONGEST = 1_572_846
# Keys and values around the ends of a cell: each is put twice, under two keys.
SIZES = [(1, 0), (1, 46), (1, 47), (1, 48), (3, 45), (3, 46), (47, 0), (47, 1), (47, 2), (48, 0), (48, 1), (49, 0),
         (49, 47), (96, 0), (97, 0), (100, 1_000)]
ALARM = {"alarms": [{"alarm": "NOSPACE", "memberID": "1"}]}


def check_exact(server, name, asked):
    """A tenant of exactly the quota takes all, and is as large as computed, before and after a compaction."""
    sizes = asked.sizes()
    with Tenant(server, name) as tenant:
        for call, body in calls_of(asked):
            tenant.call(call, body)
        told = tenant.status()[:2]
        want(told == (sizes["dbSize"], sizes["dbSizeInUse"]), f"told {told}, computed {sizes}")
        tenant.compact()
        told, computed = tenant.in_use(), asked.compacted().sizes()["dbSizeInUse"]
        want(told == computed, f"told {told} after a compaction, computed {computed}")


def check_less(server, name, asked):
    """A tenant of one cell less takes all but the last put."""
    *before, last = calls_of(asked)
    with Tenant(server, name) as tenant:
        for call, body in before:
            tenant.call(call, body)
        in_use = tenant.in_use()
        tenant.refuses(*last, "NoSpace")
        want(tenant.in_use() == in_use, "what was refused takes cells")
        alarm = tenant.call("maintenance/alarm", {})
        del alarm["header"]
        want(alarm == ALARM, f"the alarm is {alarm}")


# Deletes, leases and the largest put, in steps.


def check_deletes(server, name):
    """A delete takes none; its record stays up to the compaction, and where that is at its revision, past it."""
    kind = Kind(4, 50, 100)
    with Tenant(server, name) as tenant:
        for call, body in calls_of(Asked("", [kind])):
            tenant.call(call, body)
        full = tenant.in_use()
        tenant.call("kv/deleterange", {"key": key_text(kind, 0, 0)})
        want(tenant.in_use() == full, "a delete takes cells or frees some")
        tenant.compact()
        want(tenant.in_use() == Asked("", [Kind(3, 50, 100)]).sizes()["dbSizeInUse"] + 48 * 3,
             "after a compaction at its revision the delete is not what is left of its key")
        tenant.call(*put(kind, 0, 1, b"n", 0))
        tenant.compact()
        want(tenant.in_use() == Asked("", [Kind(3, 50, 100)]).sizes()["dbSizeInUse"], "a compaction leaves a delete")


def check_leases(server, name):
    """A lease takes a cell, which its end frees; its keys are deleted as any."""
    asked = Asked("", [Kind(6, 10, 20)], 3)
    with Tenant(server, name) as tenant:
        for call, body in calls_of(asked):
            tenant.call(call, body)
        want(tenant.in_use() == asked.sizes()["dbSizeInUse"], "leases with keys take another number of cells")
        tenant.call("lease/revoke", {"ID": "1"})
        after = Asked("", [Kind(4, 10, 20, 0, 2)], 2)
        want(tenant.in_use() == after.sizes()["dbSizeInUse"], "the end of a lease frees another number of cells")
        tenant.call("lease/keepalive", {"ID": "2"})
        tenant.call(*put(asked.kinds[0], 0, 1, b"n", 3))
        tenant.compact()
        want(tenant.in_use() == after.compacted().sizes()["dbSizeInUse"], "its deletes are not compacted")


def check_longest(server, name):
    """The longest value that tools/size takes is put, and one byte more is refused by both."""
    longer = Asked("", [Kind(1, 2, LONGEST + 1)])
    with Tenant(server, name) as tenant:
        tenant.refuses(*next(calls_of(longer)), "TooLarge")
    check_refused(longer.words(), f"a key and a value of {LONGEST + 3:,} bytes")


def of_tenants(program):
    """One server, with two tenants for all that is asked, and some for what is asked in steps."""
    all_asked = [Asked(f"a key of {key} and a value of {value} bytes", [Kind(2, key, value)]) for key, value in SIZES]
    all_asked += [Asked("the longest value", [Kind(1, 2, LONGEST)]), Asked("overwrites", [Kind(3, 5, 43, 7)]),
                  Asked("deletes", [Kind(3, 48, 48, 0, 5)]), Asked("leases with keys", [Kind(5, 20, 30, 3, 2)], 4)]
    all_asked += [asked.scaled() for asked, *_ in examples()]
    quotas = [asked.sizes()["quota"] for asked in all_asked]
    steps = {"deletes-in-steps": check_deletes, "leases-in-steps": check_leases, "a-longer-value": check_longest}
    tenants = [tenant_of(f"a{number}", quota) for number, quota in enumerate(quotas)]
    tenants += [tenant_of(f"less{number}", quota - 1) for number, quota in enumerate(quotas)]
    with Server(program, configuration([*tenants, *map(tenant_of, steps)], segments=4_096)) as server:
        for number, asked in enumerate(all_asked):
            yield asked.name, lambda: check_exact(server, f"a{number}", asked)
            yield f"{asked.name}, one cell less", lambda: check_less(server, f"less{number}", asked)
        for name, check in steps.items():
            yield name, lambda: check(server, name)
