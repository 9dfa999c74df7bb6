"""Checks of check-examples: registrations, locks and elections, which are held on leases.

Each is given a stage, and raises `Wrong` where something is not as it is wanted. Who waits for a lease's end has two
seconds more than its time to live: the host's clock has whole ones, and the word has a way to go.
"""
import signal
import threading
import time

from example_checks.stage import wait_until, want_open_watches
from shared.http_client import text
from shared.report import want
from shared.wanted import WATCHES

from gateway import Gateway
from keys import interval
from leader import Candidate
from lease import Lease
from lock import Lock

LATE = 2


def seen_after(run, moment, seconds):
    """The last line of a program came within so many seconds after a moment."""
    want(run.moment - moment <= seconds, f"{run.who}: {run.moment - moment:.1f} seconds, wanted {seconds}")


def history(gateway, key):
    """All events of a key so far."""
    gateway.call("kv/put", key=b"marker")
    events = []
    with gateway.watch(10, **interval(b""), start_revision=1) as watch:
        while not events or events[-1]["kv"]["key"] != b"marker":
            events += next(watch).get("events", [])
    return [event for event in events if event["kv"]["key"] == key]


def lease_of(gateway, key):
    row, = gateway.call("kv/range", key=key)["kvs"]
    want(row["lease"] != 0, f"{key!r} has no lease")
    return row["lease"]


# Registrations.


def a_registration_that_is_killed(stage):
    """A watcher sees it come and stay, and its end within its time to live."""
    seconds = 4
    discovery = stage.run("discovery.py", stage.url(), "services/")
    relay = stage.relay()
    one = stage.run("registration.py", stage.url(relay.port), "services/1", "10.0.0.1:80", seconds)
    one.number_after("registered")
    discovery.expect("up services/1 10.0.0.1:80")
    late = stage.run("discovery.py", stage.url(), "services/")
    late.expect("up services/1 10.0.0.1:80")
    discovery.expect_quiet(2.2 * seconds)
    moments = relay.moments_of("lease/keepalive")
    gaps = [after - before for before, after in zip(moments, moments[1:])]
    want(len(gaps) >= 4 and max(gaps) < seconds / 3, f"keepalives after {gaps} seconds")
    killed = one.kill()
    for watcher in [discovery, late]:
        watcher.expect("down services/1", seconds=seconds + LATE)
        seen_after(watcher, killed, seconds + LATE)


def a_registration_that_is_ended(stage):
    discovery = stage.run("discovery.py", stage.url(), "services/")
    one = stage.run("registration.py", stage.url(), "services/1", "here", 60)
    one.number_after("registered")
    discovery.expect("up services/1 here")
    ended = one.kill(signal.SIGTERM)
    discovery.expect("down services/1", seconds=LATE)
    seen_after(discovery, ended, LATE)
    one.expect_end(0)


def a_registration_whose_lease_is_lost(stage):
    """It takes another: when it is told so, and when the host was not reached for longer than its time to live."""
    seconds, gateway, relay = 4, Gateway(stage.url()), stage.relay()
    discovery = stage.run("discovery.py", stage.url(), "services/")
    one = stage.run("registration.py", stage.url(relay.port), "services/1", "here", seconds)
    one.number_after("registered")
    discovery.expect("up services/1 here")
    gateway.call("lease/revoke", ID=lease_of(gateway, b"services/1"))
    discovery.expect("down services/1")
    one.number_after("registered", seconds / 4 + LATE)
    discovery.expect("up services/1 here")
    relay.cut()
    discovery.expect("down services/1", seconds=seconds + LATE)
    relay.mend()
    one.number_after("registered", 8)
    discovery.expect("up services/1 here")
    want(len(gateway.call("lease/leases")["leases"]) == 1, "a lease is left over")


def a_registration_at_a_new_host(stage):
    """The host is stopped, and another one, of another cluster_id, is empty."""
    relay = stage.relay()
    discovery = stage.run("discovery.py", stage.url(relay.port), "services/")
    one = stage.run("registration.py", stage.url(relay.port), "services/1", "here", 4)
    one.number_after("registered")
    discovery.expect("up services/1 here")
    relay.cut()
    host = stage.another_host(cluster_id="8")
    # Numbers by the host begin at 1 again, and so another's lease must not be kept alive for one's own.
    other = Gateway(stage.url(host.port)).call("lease/grant", TTL=60)["ID"]
    relay.mend(host.port)
    one.number_after("registered", 10)
    want(lease_of(Gateway(stage.url(host.port)), b"services/1") != other, "another's lease")
    told = discovery.told_line(10)
    # It comes back before or after the service does.
    want(told in {"down services/1", "up services/1 here"}, f"told {told!r}")
    if told.startswith("down"):
        discovery.expect("up services/1 here", seconds=10)


# Locks.


def a_lock_of_two(stage):
    """Never both at once; the second has it when the first was killed, the third when the second is ended."""
    seconds, gateway = 4, Gateway(stage.url())
    first = stage.run("lock.py", stage.url(), "job", 60, seconds)
    fences = [first.number_after("locked")]
    second = stage.run("lock.py", stage.url(), "job", 60, seconds)
    second.expect_quiet(1.5 * seconds)
    killed = first.kill()
    fences.append(second.number_after("locked", seconds + LATE))
    seen_after(second, killed, seconds + LATE)
    third = stage.run("lock.py", stage.url(), "job", 0.2, seconds)
    third.expect_quiet(1)
    ended = second.kill(signal.SIGTERM)
    fences.append(third.number_after("locked"))
    seen_after(third, ended, LATE)
    want(third.number_after("released") == fences[2], "it releases another lock")
    third.expect_end(0)
    second.expect_end(128 + signal.SIGTERM)
    want(fences == sorted(set(fences)), f"fencing numbers {fences}")
    events = history(gateway, b"job")
    kinds = [event.get("type", "PUT") for event in events]
    want(kinds == ["PUT", "DELETE"] * 3, f"the lock's key: {kinds}")
    created = [event["kv"]["create_revision"] for event in events if event["kv"]["version"]]
    want(created == fences, f"fencing numbers {fences} of keys that were created at {created}")
    want(gateway.call("kv/range", key=b"job/last")["kvs"][0]["value"] == b"%d" % fences[2], "what the last one wrote")
    want("leases" not in gateway.call("lease/leases"), "a lease is left over")


def a_lock_that_is_cut_off(stage):
    """It is told to be lost before another one has it, also where the host doesn't refuse but says nothing."""
    for make_cut in ["cut", "fall_silent"]:
        relay, key = stage.relay(), f"job/{make_cut}"
        first = stage.run("lock.py", stage.url(relay.port), key, 60, 4)
        fence = first.number_after("locked")
        second = stage.run("lock.py", stage.url(), key, 0.1, 4)
        time.sleep(1.5)
        getattr(relay, make_cut)()
        want(first.number_after("lost", 4 + LATE) == fence, "it loses another lock")
        want(second.number_after("locked", 4 + LATE) > fence, "the fencing numbers don't rise")
        want(first.moment < second.moment, f"lost {first.moment - second.moment:.2f} seconds after another has it")
        relay.cut()
        first.expect_end(1, 20)


def a_lock_whose_holder_is_halted(stage):
    """Another one has it meanwhile. When the first goes on it finds that it is lost."""
    first = stage.run("lock.py", stage.url(), "job", 60, 4)
    fence = first.number_after("locked")
    halted = first.kill(signal.SIGSTOP)
    second = stage.run("lock.py", stage.url(), "job", 60, 4)
    want(second.number_after("locked", 4 + LATE) > fence, "the fencing numbers don't rise")
    seen_after(second, halted, 4 + LATE)
    first.expect_quiet(0)
    first.kill(signal.SIGCONT)
    want(first.number_after("lost", 1) == fence, "it loses another lock")
    first.expect_end(1)
    second.expect_quiet(1)


def many_want_a_lock(stage):
    """Each of many has it in turn, and nobody beside another."""
    inside, fences, faults = [], [], []

    def work():
        for _ in range(3):
            with Lock(stage.url(), b"job", 20) as lock:
                inside.append(lock)
                fences.append(lock.fence)
                time.sleep(0.02)
                if inside != [lock] or not lock.write({"request_put": {"key": b"done", "value": b"1"}}):
                    faults.append(lock.fence)
                inside.remove(lock)

    workers = [threading.Thread(target=work, daemon=True) for _ in range(8)]
    for worker in workers:
        worker.start()
    for worker in workers:
        worker.join(30)
    want(len(fences) == 24 and not faults, f"{len(fences)} turns; not alone, or without the lock: {faults}")
    want(fences == sorted(set(fences)), f"fencing numbers {fences}")


def a_lock_whose_answer_is_lost(stage):
    """The transaction was made: so the next try finds the lock to be its own."""
    gateway, relay = Gateway(stage.url()), stage.relay()
    relay.swallow_answer(b"/v3/kv/txn ")
    with Lock(stage.url(relay.port), b"job", 20) as lock:
        want(len(relay.moments_of("kv/txn")) == 2, "it was not tried twice")
        row, = gateway.call("kv/range", key=b"job")["kvs"]
        want((row["create_revision"], row["version"]) == (lock.fence, 1), f"{lock.fence}: {row}")
    want("kvs" not in gateway.call("kv/range", key=b"job"), "it is not released")


def a_lock_writes_while_it_is_held(stage):
    gateway = Gateway(stage.url())
    put = {"request_put": {"key": b"guarded", "value": b"1"}}
    with Lock(stage.url(), b"job", 20) as lock:
        want(lock.write(put), "a write while it is held")
        gateway.call("lease/revoke", ID=lock.lease.number)
        with Lock(stage.url(), b"job", 20) as other:
            want(other.fence > lock.fence, "the fencing numbers don't rise")
            want(not lock.write({"request_put": {"key": b"guarded", "value": b"2"}}), "a write after it was lost")
    row, = gateway.call("kv/range", key=b"guarded")["kvs"]
    want((row["value"], row["version"]) == (b"1", 1), f"written: {row}")
    want(not lock.lease.left(), "it counts as held after its release")


def a_lock_that_loses_its_lease_while_it_waits(stage):
    """It takes another lease, and has the lock in the end. There is no watch left for it, so it asks now and then."""
    gateway, fences = Gateway(stage.url()), []
    with Lock(stage.url(), b"job", 20):
        watches = [gateway.watch(key=b"a") for _ in range(WATCHES)]
        waiting = Lock(stage.url(), b"job", 4)

        def wait():
            with waiting:
                fences.append(waiting.fence)

        waiter = threading.Thread(target=wait, daemon=True)
        waiter.start()
        wait_until(lambda: waiting.lease, "it takes no lease")
        number = waiting.lease.number
        gateway.call("lease/revoke", ID=number)
        time.sleep(1)
        want(not fences, "it has the lock of another")
    waiter.join(15)
    want(fences and waiting.lease.number != number, f"it has {fences}")
    for watch in watches:
        watch.close()


def a_lease_is_there_for_sure(stage):
    """What its holder counts on is never more than what the host has."""
    gateway, relay = Gateway(stage.url()), stage.relay()
    with Lease(stage.url(relay.port), 4) as lease:
        for _ in range(10):
            sure = lease.left()
            left = gateway.call("lease/timetolive", ID=lease.number)["TTL"]
            want(0 < sure <= left, f"sure of {sure}, and the host has {left}")
            time.sleep(0.2)
        relay.fall_silent()
        want(not lease.wait(), "it waits for ever")
        late = time.monotonic() - lease.asked_at - 3
        want(late < 0, f"it waits until {late:.2f} seconds after the host may have ended it")
        want(gateway.call("lease/timetolive", ID=lease.number)["TTL"] > 0, "the host ended it before")
    with Lease(stage.url(), 4) as lease:
        gateway.call("lease/revoke", ID=lease.number)
        moment = time.monotonic()
        want(not lease.wait() and time.monotonic() - moment < 4 / 3 + 0.5, "a keepalive that is answered no TTL")


# Elections.


def candidates(gateway, count):
    """The keys of so many candidates in their order, once they are there."""
    def rows():
        return gateway.call("kv/range", **interval(b"election/")).get("kvs", [])

    wait_until(lambda: len(rows()) == count, f"not {count} candidates")
    return sorted(rows(), key=lambda row: row["create_revision"])


def standing(stage, gateway, seconds, relays):
    """Candidates that came one after another, each through its relay if it has one."""
    runs = []
    for relay in relays:
        runs.append(stage.run("leader.py", stage.url(relay and relay.port), "election", seconds))
        runs[-1].fence = candidates(gateway, len(runs))[-1]["create_revision"]
    return runs


def leaders_in_turn(stage):
    """By the order in which they came: the first is killed, one that waits is killed, the second is ended."""
    seconds, gateway = 4, Gateway(stage.url())
    a, b, c, d = runs = standing(stage, gateway, seconds, [None] * 4)
    want(a.number_after("leader") == a.fence, "another fencing number")
    for waiting in [b, c, d]:
        waiting.expect_quiet(0.5)
    killed = a.kill()
    want(b.number_after("leader", seconds + LATE) == b.fence, "another fencing number")
    seen_after(b, killed, seconds + LATE)
    c.kill()
    d.expect_quiet(seconds + LATE)
    ended = b.kill(signal.SIGTERM)
    want(d.number_after("leader", LATE) == d.fence, "another fencing number")
    seen_after(d, ended, LATE)
    b.expect_end(0)
    fences = [run.fence for run in runs]
    want(fences == sorted(set(fences)), f"fencing numbers {fences}")


def each_watches_the_one_before(stage):
    """So an end wakes one of them, and not all."""
    gateway, relays = Gateway(stage.url()), [stage.relay() for _ in range(4)]
    runs = standing(stage, gateway, 60, relays)
    want(runs[0].number_after("leader") == runs[0].fence, "another fencing number")
    time.sleep(0.5)
    rows = candidates(gateway, 4)
    bodies = [[data for _, data in relay.asked if b"create_request" in data] for relay in relays]
    want([len(watches) for watches in bodies] == [0, 1, 1, 1], f"watches: {bodies}")
    for row, (watch,) in zip(rows, bodies[1:]):
        want(text(row["key"]).encode() in watch, f"{row['key']} is not watched by the next one: {watch}")
    asked = [len(relay.asked) for relay in relays]
    runs[1].kill(signal.SIGTERM)
    runs[1].expect_end(0)
    runs[2].expect_quiet(1)
    now = [len(relay.asked) for relay in relays]
    want(now[0] == asked[0] and now[2] > asked[2] and now[3] == asked[3], f"asked {asked} and then {now}")


def a_leader_that_is_lost(stage):
    """It says so; and one whose key is taken while it waits stands again, behind the others."""
    gateway = Gateway(stage.url())
    first, second = standing(stage, gateway, 4, [None] * 2)
    want(first.number_after("leader") == first.fence, "another fencing number")
    rows = candidates(gateway, 2)
    # Its key is taken, and with it its place.
    gateway.call("kv/deleterange", key=rows[1]["key"])
    gateway.call("lease/revoke", ID=rows[0]["lease"])
    want(first.number_after("lost", 3) == first.fence, "it loses another lead")
    first.expect_end(1)
    want(second.number_after("leader") > second.fence, "it leads with the number of a key that is gone")
    url = stage.url()
    with Candidate(url, b"other", seconds=20) as leader:
        want(leader.write({"request_put": {"key": b"led", "value": b"1"}}), "a write of the leader")
        gateway.call("lease/revoke", ID=leader.lease.number)
        want(not leader.write({"request_put": {"key": b"led", "value": b"2"}}), "a write of one that is lost")


class Unlucky(Candidate):
    """As soon as it stands for the first time, its key is deleted, and put again on no lease where that is wanted."""

    def __init__(self, url, again):
        super().__init__(url, b"election", seconds=20)
        self.again, self.taken, self.other = again, None, Gateway(url)

    def stand(self):
        super().stand()
        if not self.taken:
            self.taken = self.key, self.fence
            self.other.call("kv/deleterange", key=self.key)
            if self.again:
                self.other.call("kv/put", key=self.key)


def a_candidate_whose_key_is_taken(stage):
    """It doesn't lead by a key that is gone, and stands with another where its own is in the way."""
    with Unlucky(stage.url(), again=False) as leader:
        want(leader.fence > leader.taken[1], f"it leads with {leader.fence}")
    gateway, candidate, led = Gateway(stage.url()), Unlucky(stage.url(), again=True), []

    def lead():
        with candidate:
            led.append(candidate.fence)

    waiter = threading.Thread(target=lead, daemon=True)
    waiter.start()
    wait_until(lambda: candidate.taken and candidate.key != candidate.taken[0], "it stands with no other key")
    want(not led, "it leads beside the key that is in the way")
    gateway.call("kv/deleterange", key=candidate.taken[0])
    waiter.join(10)
    want(led and led[0] > candidate.taken[1], f"it leads with {led}")


# By curl.


HOLDING = ["sh", "-c", "echo begins $FENCE; sleep 60; echo ends"]


def a_lock_by_curl(stage):
    """The second has it when the first was killed, the third when the second was ended, whose command ends first."""
    seconds, gateway = 4, Gateway(stage.url())
    first = stage.run("lock.sh", stage.url(), "job", seconds, *HOLDING)
    fences = [first.number_after("begins")]
    second = stage.run("lock.sh", stage.url(), "job", seconds, "sh", "-c",
                       "trap 'sleep 1; echo over; exit 0' TERM; echo begins $FENCE; while true; do sleep 0.1; done")
    second.expect_quiet(1.2 * seconds)
    killed = first.kill()
    fences.append(second.number_after("begins", seconds + LATE))
    seen_after(second, killed, seconds + LATE)
    third = stage.run("lock.sh", stage.url(), "job", seconds, "sh", "-c", "echo begins $FENCE; exit 7")
    third.expect_quiet(1)
    second.child.send_signal(signal.SIGTERM)
    second.expect("over", seconds=5)
    fences.append(third.number_after("begins"))
    want(second.moment < third.moment, "the third begins before the second's command is over")
    third.expect_end(7)
    second.expect_end(128 + signal.SIGTERM)
    want(fences == sorted(set(fences)), f"fencing numbers {fences}")
    created = [event["kv"]["create_revision"] for event in history(gateway, b"job") if event["kv"]["version"]]
    want(created == fences, f"fencing numbers {fences} of keys that were created at {created}")
    want("leases" not in gateway.call("lease/leases"), "a lease is left over")


def a_lock_by_curl_that_is_cut_off(stage):
    """Its command is ended before another one begins."""
    relay = stage.relay()
    first = stage.run("lock.sh", stage.url(relay.port), "job", 5, "sh", "-c",
                      "trap 'echo over; exit 0' TERM; echo begins $FENCE; while true; do sleep 0.1; done")
    fence = first.number_after("begins")
    second = stage.run("lock.sh", stage.url(), "job", 5, "sh", "-c", "echo begins $FENCE")
    time.sleep(3)
    relay.fall_silent()
    first.expect("over", seconds=5 + LATE)
    want(second.number_after("begins", 5 + LATE) > fence, "the fencing numbers don't rise")
    want(first.moment < second.moment, f"over {first.moment - second.moment:.2f} seconds after another begins")
    relay.cut()
    first.expect_end(1, 20)
    second.expect_end(0)


def locks_by_curl_wait_and_end(stage):
    """One that waits ends at once when it is told to; an answer that is lost is found again."""
    gateway, relay = Gateway(stage.url()), stage.relay()
    relay.swallow_answer(b"/v3/kv/txn ")
    first = stage.run("lock.sh", stage.url(relay.port), "job", 20, *HOLDING)
    fence = first.number_after("begins")
    row, = gateway.call("kv/range", key=b"job")["kvs"]
    want((row["create_revision"], row["version"]) == (fence, 1), f"{fence}: {row}")
    waiting = stage.run("lock.sh", stage.url(), "job", 20, "true")
    time.sleep(1.5)
    waiting.child.send_signal(signal.SIGTERM)
    waiting.expect_end(128 + signal.SIGTERM, 3)
    want_open_watches(gateway, 0)
    want(len(gateway.call("lease/leases")["leases"]) == 1, "a lease is left over")


CHECKS = [
    leaders_in_turn, a_lock_by_curl, a_lock_that_is_cut_off, a_registration_that_is_killed,
    a_lock_by_curl_that_is_cut_off,
    a_registration_whose_lease_is_lost, a_lock_of_two, a_registration_at_a_new_host, a_leader_that_is_lost,
    a_lock_that_loses_its_lease_while_it_waits, a_lease_is_there_for_sure, each_watches_the_one_before,
    locks_by_curl_wait_and_end, many_want_a_lock, a_registration_that_is_ended, a_lock_whose_answer_is_lost,
    a_lock_writes_while_it_is_held, a_lock_whose_holder_is_halted, a_candidate_whose_key_is_taken,
]
