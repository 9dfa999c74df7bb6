"""A lease that a thread keeps alive, for keys that are to go when their process does. It is no program by itself."""
import math
import secrets
import threading
import time

from gateway import Failed, Gateway

# The host's clock has whole seconds, and a busy tenant's may be late, so a lease may end so many seconds too early.
EARLY = 2


class Lease:
    """A lease from its grant on, until it is revoked or lost. What was put on it goes with it.

    Its number is chosen here and by chance: the host's own numbers begin at 1 again after a stop of it, and who didn't
    notice the stop would keep another one's lease alive in the belief that it is its own.
    """

    def __init__(self, url, seconds):
        if seconds < 4:
            raise ValueError("the time to live is at least 4 seconds")
        self.url, self.number, self.ended = url, secrets.randbelow(2 ** 63 - 1) + 1, threading.Event()
        self.asked_at = time.monotonic()
        self.seconds = Gateway(url).call("lease/grant", TTL=seconds, ID=self.number)["TTL"]
        threading.Thread(target=self.keep_alive, daemon=True).start()

    def __enter__(self):
        return self

    def __exit__(self, *_):
        self.revoke()

    def left(self):
        """The seconds for which it is there for sure, from before the host was asked; 0 where it may be gone."""
        return 0 if self.ended.is_set() else max(0, self.asked_at + self.seconds - EARLY - time.monotonic())

    def wait(self, seconds=math.inf):
        """Waits so long, or until it may be gone; tells whether it is still there."""
        last = time.monotonic() + seconds
        while self.left() and time.monotonic() < last:
            self.ended.wait(min(self.left(), last - time.monotonic()))
        return self.left() > 0

    def keep_alive(self):
        """Asks four times in its time to live, so that there is time to try again where one fails."""
        gateway, due = Gateway(self.url, self.seconds / 4), self.asked_at + self.seconds / 4
        try:
            while not self.ended.wait(max(0, due - time.monotonic())) and self.left():
                asked_at = time.monotonic()
                try:
                    if not gateway.call("lease/keepalive", ID=self.number).get("TTL"):
                        return
                    self.asked_at, due = asked_at, asked_at + self.seconds / 4
                except Failed:
                    due = time.monotonic() + self.seconds / 20
        finally:
            self.ended.set()

    def revoke(self):
        """Ends it. Where the host can't be told, it runs out."""
        self.ended.set()
        try:
            Gateway(self.url).call("lease/revoke", ID=self.number)
        except Failed:
            pass
