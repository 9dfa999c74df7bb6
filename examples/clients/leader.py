#!/usr/bin/env python3
"""An election: of all who name the same prefix, the one whose key was created first leads; each other one watches the
one before it.

    leader.py http://127.0.0.1:2379/t/one elections/main [time to live]

Prints `leader` with the fencing number once it leads. It does until it is ended by SIGTERM, which makes room for the
next at once, or until its lease may have ended: then it prints `lost`, and its status is 1. Each leader's number is
greater than those before it; lock.py tells what that is for.

The prefix is the election's alone: every key that begins with it and a slash is a candidate.
"""
import os
import signal
import sys

sys.dont_write_bytecode = True

from gateway import Failed, Gateway
from keys import Pauses, create, created_at, interval, wait_for_delete, write_if_created_at
from lease import Lease


class Candidate:
    """`with Candidate(url, prefix) as leader:` waits until it leads. It does for sure for `leader.lease.left()` seconds
    more; look again and again."""

    def __init__(self, url, prefix, value=b"", seconds=10):
        self.gateway, self.url, self.prefix, self.value, self.seconds = Gateway(url), url, prefix + b"/", value, seconds
        self.lease = self.key = self.fence = None

    def __enter__(self):
        pauses, leads = Pauses(), False
        try:
            while not leads:
                try:
                    self.stand()
                    leads = self.is_first() and self.lease.left()
                    pauses.begin_anew()
                except Failed as fault:
                    pauses.wait_after(fault)
        except BaseException:
            self.resign()
            raise
        return self

    def __exit__(self, *_):
        self.resign()

    def stand(self):
        """Sees to it that its key is there, on a lease that is."""
        if not (self.lease and self.lease.left()):
            self.resign()
            self.lease = Lease(self.url, self.seconds)
            self.key = self.prefix + b"%016x" % self.lease.number
        self.fence, _ = create(self.gateway, self.key, self.value, self.lease.number)

    def is_first(self):
        """Whether its key is there and none was created before it; else it waits for the end of the one before."""
        if not self.fence:
            # Somebody put its key on another lease, or on none. So it stands with another key.
            self.resign()
            return False
        before = {**interval(self.prefix), "max_create_revision": self.fence - 1, "keys_only": True,
                  "sort_target": "CREATE", "sort_order": "DESCEND", "limit": 1}
        answer = self.gateway.call("kv/txn", compare=[created_at(self.key, self.fence)],
                                   success=[{"request_range": before}])
        if not answer.get("succeeded"):
            return False
        rows = answer["responses"][0]["response_range"].get("kvs", [])
        for row in rows:
            wait_for_delete(self.gateway, row["key"], answer["header"]["revision"], self.lease.seconds)
        return not rows

    def resign(self):
        if self.lease:
            self.lease.revoke()

    def write(self, *operations):
        """Makes the operations in one transaction if it still leads then; tells whether."""
        return write_if_created_at(self.gateway, self.key, self.fence, list(operations))


def main(url, prefix, seconds=10):
    signal.signal(signal.SIGTERM, lambda *_: sys.exit(0))
    with Candidate(url, os.fsencode(prefix), seconds=int(seconds)) as leader:
        print("leader", leader.fence, flush=True)
        # The work stands here.
        leader.lease.wait()
        print("lost", leader.fence, flush=True)
    return 1


if __name__ == "__main__":
    sys.exit(main(*sys.argv[1:]))
