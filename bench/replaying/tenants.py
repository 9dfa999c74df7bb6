"""The same number of lines, spread in turn over 1, 16 and 256 tenants of one pool."""
import statistics

from shared.report import Wrong
from shared.script import SEGMENT_CELLS, Program

TENANTS = [1, 16, 256]
KEYS = 64
# Cells of a record of these keys and values, and of the rest that a tenant needs.
RECORD_CELLS = 2
SPARE_CELLS = 4 * KEYS * RECORD_CELLS
KEY = "a2V5%04d"  # base64 of `key` and three bytes


class Host(Program):
    """The replay program with so many tenants, each with the same keys."""

    def open(self, tenants, puts):
        quota = RECORD_CELLS * (puts // tenants + 1) + SPARE_CELLS
        segments = tenants * -(-quota // SEGMENT_CELLS)
        self.names = [b"t%d" % number for number in range(tenants)]
        adds = b"".join(b"add %s 7 %d 1\n" % (name, quota) for name in self.names)
        answers, _ = self.lines(b"pool %d\n" % segments + adds, 1 + tenants)
        if answers != [b"ok"] * (1 + tenants):
            raise Wrong(f"{self.who}: adding {tenants} tenants was not answered ok")
        self.spread("put", KEYS * tenants, ',"value":"dmFsdWU="')

    def spread(self, call, count, more=""):
        """So many calls, each of the next tenant and of its next key; gives back seconds by the clock and of processor."""
        tenants = len(self.names)
        script = b"".join(
            b'call POST /t/%s/v3/kv/%s {"key":"%s"%s}\n'
            % (self.names[at % tenants], call.encode(), (KEY % (at // tenants % KEYS)).encode(), more.encode())
            for at in range(count)
        )
        before = self.processor()
        answers, seconds = self.lines(script, count)
        if not all(answer.startswith(b"200 ") for answer in answers):
            raise Wrong(f"{self.who}: one of {count} calls of {tenants} tenants was not answered 200")
        return seconds, self.processor() - before


def run(program, tenants, count):
    with Host(program) as host:
        host.open(tenants, count)
        times = {"read": host.spread("range", count), "put": host.spread("put", count, ',"value":"dmFsdWU="')}
        host.end()
    return times


def tell_tenants(program, count, rounds):
    """Measures, and prints microseconds a line and how many times those of one tenant they are."""
    runs = {tenants: [] for tenants in TENANTS}
    for turn in range(rounds):
        for tenants in TENANTS if turn % 2 == 0 else TENANTS[::-1]:
            runs[tenants].append(run(program, tenants, count))
    print(f"\nTenants: {count:,} lines of each kind, spread in turn over so many; microseconds of processor a line")
    for kind in ["read", "put"]:
        middle = {tenants: statistics.median(one[kind][1] for one in runs[tenants]) / count for tenants in TENANTS}
        told = [f"{tenants}: {middle[tenants] * 1e6:.2f} ({middle[tenants] / max(middle[1], 1e-9):.2f})" for tenants in TENANTS]
        print(f"  {kind:<5}" + "   ".join(told))
