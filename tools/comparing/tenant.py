"""A tenant of against-etcd: an etcd in its place, with the calls, watches and seconds that both have had."""
import itertools
import json
import re
import tempfile
import time

from comparing.answers import (ALARM, ENDED, GRANT, KEEPALIVE, LEASES, QUIET, REVOKES, STATUS, TIMES_TO_LIVE, WATCH,
                               Answer, Left, plainly, read_answer, same_effect, to_the_second)
from comparing.watch import Watch
from shared.etcd import Etcd
from shared.http_client import Connection, Ended, request

NO_SPACE = "etcdserver: mvcc: database space exceeded"
# These change nothing that is compared.
READS = {"kv/range", STATUS, "maintenance/defragment", WATCH, LEASES, "kv/lease/leases"} | TIMES_TO_LIVE
# Where these change something, the revision tells.
MAY_CHANGE = {"kv/txn", "kv/deleterange"}
# How long a row is waited for in all.
SECONDS = 20
# etcd looks for leases that have run out each half of a second, and grants two seconds at least.
ENDING_SECONDS = 3
LAST_MOMENT = 1 << 62
PROGRESS = re.compile(b"progress_?[nN]otify")


class Budget:
    """How many seconds a row may still be waited for."""

    def __init__(self):
        self.left = SECONDS


class Leases:
    """The leases that ours has, with their ends by its clock; and when etcd's clock was where that one is."""

    def __init__(self):
        self.moment, self.ends = 0, {}
        self.begin()

    def begin(self):
        self.at = time.monotonic()

    def wait(self, seconds):
        """Waits until etcd's clock is as many seconds further."""
        self.at += seconds
        time.sleep(max(0, self.at - time.monotonic()))

    def note(self, line):
        """What a call of ours did to them."""
        told = line.ours.result()
        if line.call in {GRANT, KEEPALIVE} and "TTL" in told:
            self.ends[told["ID"]] = self.moment + int(told["TTL"])
        if line.call in REVOKES and line.ours.status == 200:
            self.ends.pop(str(int(line.members()["ID"])), None)

    def may_be_over(self):
        """Whether one of them may have run out at etcd by now."""
        return any(self.at + (end - self.moment) <= time.monotonic() for end in self.ends.values())

    def run_out(self):
        """Takes out those that run out at the clock's moment, in the order in which they do."""
        gone = [name for name in self.ends if self.ends[name] <= self.moment]
        gone.sort(key=lambda name: (self.ends[name], int(name)))
        for name in gone:
            del self.ends[name]
        return gone


class Tenant:
    """An etcd in the place of a tenant, with what both have done; or why there is none."""

    def __init__(self, budget, lack=None):
        self.budget, self.lack, self.etcd, self.done, self.revision = budget, lack, None, [], "1"
        self.leases, self.watches = Leases(), {}
        if not lack:
            self.renew()

    def renew(self):
        """An empty etcd, in which what both have done is done again."""
        self.end()
        if sum(given[0] for act, *given in self.done if act == self.wait) > self.budget.left:
            self.lack = f"after a difference whose mending takes more than {SECONDS} seconds"
            return
        self.etcd = Etcd(tempfile.gettempdir())
        self.leases.begin()
        for act, *given in self.done:
            act(*given)

    def end(self, lack=None):
        for watch in self.watches.values():
            watch.close()
        if self.etcd:
            self.etcd.__exit__()
        self.etcd, self.lack = None, lack

    def leave(self, lack):
        """Ends what can be asked of the tenant."""
        self.end(lack)
        raise Left(lack)

    def wait(self, seconds):
        self.budget.left -= seconds
        self.leases.wait(seconds)

    def ask(self, method, call, body):
        with Connection(self.etcd.port) as connection:
            connection.send(request("/v3/" + call, body, method=method))
            try:
                told = connection.answer(method)
            except Ended:
                return ENDED
            return read_answer(told.status, told.body)

    def answer(self, line):
        """etcd's answer to a line, asked where both have the same state."""
        if self.lack:
            raise Left(self.lack)
        if line.method == "tick":
            return self.tick(int(line.body))
        self.check_time()
        if line.method == "take":
            return self.take(int(line.body), line.ours)
        if line.call == WATCH and line.method == "POST":
            return self.watch(line)
        if line.ours.member("error") == NO_SPACE and not self.ask("POST", ALARM, b"{}").member("alarms"):
            alarm = self.ask, "POST", ALARM, b'{"action":"ACTIVATE","alarm":"NOSPACE"}'
            self.ask(*alarm[1:])
            self.done.append(alarm)
            raise Left("the quota is counted in cells: the alarm is raised in its place")
        return to_the_second(line, self.ask(*line.asked()))

    def open(self, watch):
        return watch.open(self.etcd.port)

    def watch(self, line):
        """Opens a watch at etcd, which is kept if ours has one."""
        watch = Watch(line.body)
        theirs = self.open(watch)
        if not line.ours.result().get("created"):
            watch.close()
            return theirs
        slot = next(slot for slot in itertools.count() if slot not in self.watches)
        self.watches[slot] = watch
        watch.is_lost = not theirs.result().get("created") or "canceled" in theirs.result()
        self.done.append((self.open, watch))
        return theirs

    def drop(self, slot):
        if slot in self.watches:
            watch = self.watches.pop(slot)
            watch.close()
            self.done.append((watch.close,))

    def take(self, slot, ours):
        """What etcd's watch of a slot was told."""
        watch = self.watches.get(slot)
        if watch is None:
            raise Left("a take of a free slot")
        theirs = None if watch.is_lost else watch.take(ours)
        self.check_time()
        if "canceled" in ours.result():
            self.drop(slot)
        if theirs is None:
            raise Left("a watch that etcd alone has ended")
        watch.is_lost = "canceled" in theirs.result()
        return theirs

    def check_time(self):
        """Leaves the tenant where its leases may not be those that ours has, since the row took too long."""
        if self.leases.may_be_over():
            self.leave("after a lease that may have run out at etcd before its tick")

    def tick(self, moment):
        """Has etcd's time pass as ours does. The answer is quiet if etcd then has the leases that ours has."""
        passed = max(0, min(moment, LAST_MOMENT) - self.leases.moment)
        self.leases.moment += passed
        is_timed = self.leases.ends or any(PROGRESS.search(watch.body) for watch in self.watches.values())
        if not is_timed:
            self.leases.begin()
        if not passed or not is_timed:
            raise Left("a tick at which nothing can end")
        if passed > self.budget.left:
            self.leave(f"after ticks of more than {SECONDS} seconds")
        self.wait(passed)
        self.done.append((self.wait, passed))
        gone = self.leases.run_out()
        self.check_time()
        return self.end_leases(gone)

    def end_leases(self, gone):
        """Waits until leases that ran out at ours have ended at etcd, and ends those that don't."""
        last = time.monotonic() + ENDING_SECONDS
        while (theirs := self.leases_there()) & set(gone) and time.monotonic() < last:
            time.sleep(0.05)
        for name in gone:
            revoke = self.ask, "POST", "lease/revoke", json.dumps({"ID": name}).encode()
            self.done.append(revoke)
            if name in theirs:
                self.ask(*revoke[1:])
        wanted = set(self.leases.ends)
        if wanted - theirs:
            self.check_time()
            self.end("after a lease that ran out at etcd alone")
        return QUIET if theirs == wanted else Answer(200, {"leases": sorted(theirs)})

    def leases_there(self):
        return {lease["ID"] for lease in self.ask("POST", LEASES, b"{}").member("leases") or []}

    def bring_together(self, line, theirs):
        """After a call: undoes what etcd alone did, and has it do what ours did, by a plainer body."""
        changed = self.has_changed(line)
        self.revision = line.ours.revision() or self.revision
        self.leases.note(line)
        if line.call in READS and theirs != ENDED:
            return
        if same_effect(line, theirs):
            self.done.append((self.ask, *line.asked()))
            return
        if theirs.status == 200 or theirs == ENDED:
            self.renew()
        if changed and not self.lack:
            body = plainly(line.members()) | ({"ID": line.ours.member("ID")} if line.call == GRANT else {})
            plain = line.method, line.call, json.dumps(body).encode()
            if not same_effect(line, self.ask(*plain)):
                self.end("after a line that ours alone does")
            self.done.append((self.ask, *plain))

    def has_changed(self, line):
        """Whether ours may have changed something."""
        if line.call in READS or line.ours.status != 200:
            return False
        if line.call == ALARM:
            return bool(line.ours.member("alarms"))
        return line.call not in MAY_CHANGE or line.ours.revision() != self.revision
