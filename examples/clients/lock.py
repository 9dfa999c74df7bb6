#!/usr/bin/env python3
"""A lock of all who name the same key, held on a lease.

    lock.py http://127.0.0.1:2379/t/one jobs/nightly [seconds to hold it] [time to live]

Prints `locked` with the fencing number once it has the lock, and `released`, or `lost` with status 1 where the lease
may have ended meanwhile. Each fencing number is greater than those before it. What the lock guards should refuse a
number below one that it has seen: a process that was halted for long doesn't know yet that its lock is gone. Where that
is keys of this tenant, `write` refuses it.

All who wait try when the lock is free, so who is next is left to chance; leader.py has an order.
"""
import os
import signal
import sys

sys.dont_write_bytecode = True

from gateway import Failed, Gateway
from keys import Pauses, create, wait_for_delete, write_if_created_at
from lease import Lease


class Lock:
    """`with Lock(url, key) as lock:` waits for the lock. It is held for sure for `lock.lease.left()` seconds more; look
    again and again."""

    def __init__(self, url, key, seconds=10):
        self.gateway, self.url, self.key, self.seconds = Gateway(url), url, key, seconds
        self.lease = self.fence = None

    def __enter__(self):
        pauses, self.fence = Pauses(), None
        try:
            while not self.fence:
                try:
                    self.try_once()
                    pauses.begin_anew()
                except Failed as fault:
                    pauses.wait_after(fault)
        except BaseException:
            self.release()
            raise
        return self

    def __exit__(self, *_):
        self.release()

    def try_once(self):
        """Takes the lock, or waits until it is free."""
        if not (self.lease and self.lease.left()):
            self.release()
            self.lease = Lease(self.url, self.seconds)
        created, revision = create(self.gateway, self.key, b"%d" % os.getpid(), self.lease.number)
        if not created:
            wait_for_delete(self.gateway, self.key, revision, self.lease.seconds)
        elif self.lease.left():
            self.fence = created

    def release(self):
        if self.lease:
            self.lease.revoke()

    def write(self, *operations):
        """Makes the operations in one transaction if the lock is still held then; tells whether."""
        return write_if_created_at(self.gateway, self.key, self.fence, list(operations))


def main(url, key, hold=10, seconds=10):
    signal.signal(signal.SIGTERM, lambda number, _: sys.exit(128 + number))
    with Lock(url, os.fsencode(key), int(seconds)) as lock:
        print("locked", lock.fence, flush=True)
        # The work stands here.
        is_held = lock.write({"request_put": {"key": lock.key + b"/last", "value": b"%d" % lock.fence}})
        is_held = is_held and lock.lease.wait(float(hold))
        print("released" if is_held else "lost", lock.fence, flush=True)
    return 0 if is_held else 1


if __name__ == "__main__":
    sys.exit(main(*sys.argv[1:]))
