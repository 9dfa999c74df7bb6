"""The server that bench/rude attacks: what it holds, and whether the attacked tenant has all of its watches again."""
import contextlib
import resource
from typing import NamedTuple

from shared.http_client import Watch, text
from shared.programs import Ours
from shared.store_calls import Client, using_puts
from shared.wanted import WATCHES

QUOTA = 1_048_576
FREE = {"key": text(b"free")}
EACH = {"key": text(b"\0"), "range_end": text(b"\0")}
# As many as the longest value that a body holds, almost.
CELLS_A_PUT = 32_768
# What makes the system forget a process's peak of memory, written into its file `clear_refs`.
FORGET_PEAK = b"5"


class Held(NamedTuple):
    """Resident bytes, and open descriptors."""

    resident: int
    descriptors: int


def deleted(client, keys):
    """The revision at which keys are deleted."""
    return int(client.make("kv/deleterange", keys)["header"]["revision"])


def used(place):
    """A tenant each of whose cells was used once, and which is empty again: what it takes of the pool is resident by then."""
    with Client(place) as client:
        for put in using_puts(QUOTA, CELLS_A_PUT):
            client.make(*put)
        client.compact(deleted(client, EACH))
        # A compaction keeps that keys were deleted at its own revision, so there is one more.
        client.make("kv/put", FREE)
        last = deleted(client, FREE)
        client.compact(last)
    return place._replace(first=last + 1)


class Host(Ours):
    """The server with two tenants of the largest quota that were in use, the attacked one and another."""

    def __init__(self, path, workers):
        super().__init__(path, workers, QUOTA)
        self.other, self.attacked = used(self.place), used(self.beside)

    def held(self):
        return Held(self.memory()["now"], self.descriptors())

    def forget_peak(self):
        with open(f"/proc/{self.child.pid}/clear_refs", "wb") as file:
            file.write(FORGET_PEAK)

    def peak(self):
        """The most resident bytes since the peak was forgotten."""
        return self.memory()["peak"]

    def leave_descriptors(self, count):
        """Lets it open so many descriptors more than it has."""
        _, most = resource.prlimit(self.child.pid, resource.RLIMIT_NOFILE)
        resource.prlimit(self.child.pid, resource.RLIMIT_NOFILE, (self.descriptors() + count, most))

    def watches_taken(self):
        """How many watches the attacked tenant takes at once, of the most that it may have."""
        with contextlib.ExitStack() as stack:
            message = self.attacked.watch_message(FREE)
            watches = [stack.enter_context(Watch(self.port, message)) for _ in range(WATCHES)]
            return sum(not watch.refused for watch in watches)
