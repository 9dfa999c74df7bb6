"""What the examples do with keys beside the calls of gateway.py, and how long they wait between tries. It is no program
by itself."""
import random
import sys
import time

from gateway import NoAnswer

LEASE_NOT_FOUND = "etcdserver: requested lease not found"


class Pauses:
    """The waits between tries: longer and longer, and by chance, so that not all clients come back at once."""

    def __init__(self, least=0.1, most=5):
        self.least, self.most, self.next = least, most, least

    def wait_after(self, fault):
        """Tells the fault and waits, or raises it where no try does better. Who has lost a lease takes another."""
        if not (fault.is_temporary or getattr(fault, "message", None) == LEASE_NOT_FOUND):
            raise fault
        print(fault, file=sys.stderr, flush=True)
        time.sleep(random.uniform(self.next / 2, self.next))
        self.next = min(2 * self.next, self.most)

    def begin_anew(self):
        self.next = self.least


def interval(prefix):
    """The members key and range_end for all keys that begin so."""
    stem = prefix.rstrip(b"\xff")
    return {"key": prefix or b"\0", "range_end": stem[:-1] + bytes([stem[-1] + 1]) if stem else b"\0"}


def shown(data):
    """A key or a value as text."""
    return data.decode("utf-8", "backslashreplace")


def created_at(key, revision):
    """The compare that holds while the key is the one that was created at this revision; 0: while there is none."""
    return {"key": key, "target": "CREATE", "result": "EQUAL", "create_revision": revision}


def create(gateway, key, value, lease):
    """Puts the key on the lease unless it is there. Two revisions: the one at which the lease's own key was created, or
    None where the key is another one's, and the one at which this was so."""
    answer = gateway.call("kv/txn", compare=[created_at(key, 0)],
                          success=[{"request_put": {"key": key, "value": value, "lease": lease}}],
                          failure=[{"request_range": {"key": key}}])
    revision = answer["header"]["revision"]
    if answer.get("succeeded"):
        return revision, revision
    row = answer["responses"][0]["response_range"]["kvs"][0]
    # The lease's own: it was put by an earlier try, whose answer was lost.
    return row["create_revision"] if row["lease"] == lease else None, revision


def write_if_created_at(gateway, key, revision, operations):
    """Makes the operations while the key is the one that was created at this revision; tells whether."""
    return gateway.call("kv/txn", compare=[created_at(key, revision)], success=operations).get("succeeded", False)


def wait_for_delete(gateway, key, revision, seconds):
    """Waits until the key is deleted after the revision, or for so many seconds in which nothing comes."""
    try:
        with gateway.watch(seconds, key=key, start_revision=revision + 1, filters=["NOPUT"]) as watch:
            while not next(watch).get("events"):
                pass
    except NoAnswer as fault:
        if not isinstance(fault.__cause__, TimeoutError):
            raise
