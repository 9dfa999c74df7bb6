"""The clients of a tenant that check-move moves: they put, read, follow by a watch and keep a lease alive, with the
modules of examples/clients, and keep what they were told.
"""
import os
import sys
import threading
import time

from shared.places import TOP
from shared.report import want

sys.path.insert(0, os.path.join(TOP, "examples", "clients"))

from configuration import Followed
from gateway import Failed, Gateway
from keys import interval
from lease import Lease

PUTTERS = 2
KEYS = 8
PAUSE = 0.03
TTL = 12
NUMBERS = b"n/"


class Clients:
    """All clients of one tenant. A fault of theirs is kept."""

    def __init__(self, url):
        self.url, self.over, self.gone, self.faults = url, threading.Event(), threading.Event(), []
        self.acknowledged, self.tried, self.puts = {}, {}, [0] * PUTTERS
        self.lease = Lease(url, TTL)
        Gateway(url).call("kv/put", key=b"leased", value=b"1", lease=self.lease.number)
        self.followed = Followed(url, NUMBERS)
        jobs = [(self.put, number) for number in range(PUTTERS)] + [(self.read,), (self.follow,)]
        self.threads = [threading.Thread(target=self.run, args=job, daemon=True) for job in jobs]
        for thread in self.threads:
            thread.start()

    def run(self, job, *rest):
        try:
            job(*rest)
        except Exception as fault:  # whatever it is, the check has to know
            if not self.gone.is_set():
                self.faults.append(f"{job.__name__}: {fault!r}")

    def put(self, number):
        """Puts one number after the other, and keeps those that were acknowledged. One that failed is tried again."""
        gateway, value = Gateway(self.url), 0
        while not self.over.wait(PAUSE):
            key = NUMBERS + b"%d/%d" % (number, value % KEYS)
            self.tried[key] = value
            try:
                gateway.call("kv/put", key=key, value=b"%d" % value)
                self.acknowledged[key] = value
                value += 1
                self.puts[number] = value
            except Failed as fault:
                want(fault.is_temporary, f"{key}: {fault}")

    def read(self):
        """What was acknowledged before a read is in what it reads, and revisions never fall."""
        gateway, revision = Gateway(self.url), 0
        while not self.over.wait(PAUSE):
            before = dict(self.acknowledged)
            try:
                answer = gateway.call("kv/range", **interval(NUMBERS))
            except Failed as fault:
                want(fault.is_temporary, f"a read: {fault}")
                continue
            want(answer["header"]["revision"] >= revision, f"revision {answer['header']['revision']} after {revision}")
            revision = answer["header"]["revision"]
            self.check_rows({row["key"]: row for row in answer.get("kvs", [])}, before)

    def follow(self):
        for _ in self.followed.changes():
            if self.gone.is_set():
                return

    def check_rows(self, rows, acknowledged):
        for key, value in acknowledged.items():
            there = rows.get(key)
            want(there and value <= int(there["value"]) <= self.tried[key],
                 f"{key}: put {value}, and {there and there['value']} is there")

    def check(self):
        """None has a fault, all that was acknowledged is there, and who followed has the same."""
        want(not self.faults, f"{self.faults}")
        want(self.lease.left() > 0, "the lease is lost")
        self.over.set()
        for thread in self.threads[:PUTTERS + 1]:
            thread.join(30)
            want(not thread.is_alive(), "a client does not end")
        want(not self.faults, f"{self.faults}")
        gateway = Gateway(self.url)
        leased = gateway.call("kv/range", key=b"leased").get("kvs", [])
        want([row["lease"] for row in leased] == [self.lease.number], f"the key of the lease is {leased}")
        rows = {row["key"]: row for row in gateway.call("kv/range", **interval(NUMBERS)).get("kvs", [])}
        self.check_rows(rows, self.acknowledged)
        last = time.monotonic() + 30
        while self.followed.rows != rows:
            want(time.monotonic() < last, f"who follows has {self.followed.rows}, and there is {rows}")
            time.sleep(0.05)

    def end(self):
        self.over.set()
        self.gone.set()
        self.lease.revoke()
