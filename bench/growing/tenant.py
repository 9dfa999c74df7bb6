"""For bench/growth: the replay program with one tenant, which has so many keys in one of three states."""
import random
from base64 import b64encode
from collections import Counter
from itertools import chain, islice
from time import sleep
from typing import NamedTuple

from shared.calls import CELL_BYTES
from shared.process import processor_clock, runs
from shared.report import Wrong
from shared.script import SEGMENT_CELLS, Program

# The most cells that a tenant may have; each tenant here has them, however few are its keys.
QUOTA = 1_048_576
VALUE = b64encode(b"v" * 32)
# A record of these keys and values is one cell and one for its bytes, and so is that of its delete.
PUT_CELLS = DELETE_CELLS = 2
KEY_CELLS = PUT_CELLS + DELETE_CELLS
PREFIX_KEYS = 1_000
VERSIONS = 10
LIVE = "live keys alone"
DELETED = "live keys beside as many that are deleted and kept"
OLD = "live keys of ten versions each"
STATES = [LIVE, DELETED, OLD]
# The letters behind a key's number: those that stay, those that are deleted, and those that are put as new ones.
STAYS, GOES, COMES = b"a", b"b", b"c"
# Of a measure: so many works first, which tell how long one takes; then as many as take so many seconds.
TRIED, LEAST, MOST, SECONDS = 2, 3, 1_000, 0.05
PIECE = 20_000
ALL = b'"key":"AA==","range_end":"AA=="'
WITH_VALUE = b'"value":"%s"' % VALUE


class Asked(NamedTuple):
    """A line, what stands in its answer, and how many rows the answer has."""

    line: bytes
    part: bytes
    rows: int = 0


def key(number, letter=STAYS):
    """A key as base64: the prefix that a thousand numbers share, the rest of the number, a letter."""
    return b64encode(b"/%03d/%03d%s" % (*divmod(number, PREFIX_KEYS), letter))


def call(path, body, tenant=b"one"):
    return b"call POST /t/%s/v3/%s {%s}\n" % (tenant, path, body)


def put_body(name, more=WITH_VALUE):
    return b'"key":"%s",%s' % (name, more)


def opening(tenants, quota):
    """The lines that make a pool and its tenants, one of each name, with the same quota."""
    segments = len(tenants) * -(-quota // SEGMENT_CELLS)
    adds = [Asked(b"add %s 7 %d 1\n" % (name, quota), b"ok") for name in tenants]
    return [Asked(b"pool %d\n" % segments, b"ok"), *adds]


def in_use(count, tenant=b"one"):
    """The tenant has so many cells in use."""
    return Asked(call(b"maintenance/status", b"", tenant), b'"dbSizeInUse":"%d"' % (CELL_BYTES * count))


def changes(keys):
    """How many works a measure may have that adds records: few beside the keys."""
    return min(MOST, keys // 10)


def cells(keys, state):
    """The cells in use once the keys are in their state."""
    first = keys * KEY_CELLS + changes(keys) * PUT_CELLS
    more = {LIVE: 0, DELETED: keys * KEY_CELLS, OLD: ((VERSIONS - 1) * keys - changes(keys)) * PUT_CELLS}
    return first + more[state]


def lacks_room(keys, state):
    """Whether the state is too much for a tenant, with all that the measures add: four overwrites and a new key."""
    return cells(keys, state) + changes(keys) * (4 * PUT_CELLS + KEY_CELLS) > QUOTA


class Lines(Program):
    """The replay program, with its processor time and a look at each answer."""

    def processor(self):
        """Its processor time, once it waits for its next line."""
        while runs(self.child.pid):
            sleep(0.0001)
        return processor_clock(self.child.pid)

    def ask(self, asked):
        """Asks the lines, and gives back the seconds of processor that all of them took."""
        before = self.processor()
        answers, _ = self.lines(b"".join(one.line for one in asked), len(asked))
        seconds = self.processor() - before
        for one, answer in zip(asked, answers):
            if not answer.startswith((b"200 ", b"ok")) or one.part not in answer or answer.count(b'"key":') != one.rows:
                told = f"wanted {one.rows} rows and {one.part.decode()}"
                raise Wrong(f"{self.who}: {one.line[:200]!r} was answered {answer[:400]!r}, {told}")
        return seconds

    def ask_all(self, asked):
        """Asks any number of lines, piece by piece."""
        asked = iter(asked)
        while piece := list(islice(asked, PIECE)):
            self.ask(piece)


class Tenant(Lines):
    """The program with one tenant. It counts the revision and the cells in use, which the answers have to tell."""

    def __init__(self, path, keys, state=LIVE):
        super().__init__(path)
        self.keys, self.state = keys, state
        self.revision, self.cells = 1, 0
        self.chance = random.Random(keys)
        self.order = self.scattered()
        half = keys // 2
        # The revision after half of the first puts, and how many keys each prefix had there.
        self.early = self.revision + half
        self.early_keys = Counter(number // PREFIX_KEYS for number in self.order[:half])

    def scattered(self):
        return self.chance.sample(range(self.keys), self.keys)

    def write(self, path, body, adds):
        """A line that makes a revision, and adds so many cells to those in use."""
        self.revision += 1
        self.cells += adds
        return Asked(call(path, body), b'"revision":"%d"' % self.revision)

    def put(self, name):
        return self.write(b"kv/put", put_body(name), KEY_CELLS)

    def overwrite(self, name, more=WITH_VALUE):
        return self.write(b"kv/put", put_body(name, more), PUT_CELLS)

    def delete(self, name):
        """Its record takes the room that was held for it."""
        return self.write(b"kv/deleterange", b'"key":"%s"' % name, 0)

    def compaction(self, revision, drops=0):
        self.cells -= drops * PUT_CELLS
        return Asked(call(b"kv/compaction", b'"revision":"%d"' % revision), b'"revision":"%d"' % self.revision)

    def history(self):
        """The lines by which an empty tenant comes into its state.

        A few keys are overwritten before all else, so that a compaction that comes up to there drops one record for
        each revision, whatever is kept behind it.
        """
        few = changes(self.keys)
        yield from (self.put(key(number)) for number in self.order)
        yield from (self.overwrite(key(number)) for number in self.order[:few])
        if self.state == DELETED:
            yield from (self.put(key(number, GOES)) for number in self.scattered())
            yield from (self.delete(key(number, GOES)) for number in self.scattered())
        if self.state == OLD:
            later = (self.scattered() for _ in range(VERSIONS - 2))
            yield from (self.overwrite(key(number)) for number in chain(self.order[few:], *later))

    def open(self):
        self.ask(opening([b"one"], QUOTA))

    def fill(self):
        self.open()
        self.ask_all(self.history())
        if self.cells != cells(self.keys, self.state):
            raise Wrong(f"{self.keys} {self.state} took {self.cells} cells, not {cells(self.keys, self.state)}")
        self.check_cells()

    def check_cells(self):
        """The tenant has as many cells in use as were counted here."""
        self.ask([in_use(self.cells)])

    def time_of(self, works):
        """The seconds of processor that one work takes, each of which is some lines."""
        once = self.ask(list(chain(*islice(works, TRIED)))) / TRIED
        if not once:
            raise Wrong(f"{self.who}: no processor time was used, so the work is another program's")
        some = list(islice(works, max(LEAST, min(MOST, int(SECONDS / once)))))
        return self.ask(list(chain(*some))) / len(some)
