"""What bench/replay prints."""
from statistics import median

from shared.calls import CELL_BYTES, KEY_BYTES, RANGE_KEYS, RECORD_CELLS, TXN_PUTS, VALUE_BYTES
from shared.calls import compaction_interval, range_count, txn_count, txn_label
from shared.report import spread, table

# The work of each line, and the label of its phases.
ROWS = [("filled", "put"), ("filled", "read"), ("filled", "range"), ("overwritten", "overwrite")]
ROWS += [(txn_label(puts), txn_label(puts)) for puts in TXN_PUTS]

OURS = """\
ours: one process that reads a script from a pipe: JSON read, the machine, JSON written. No HTTP, no disk, no consensus
      log; one processor. Its lines stream, so none waits for the answer before it. The script of the puts, fed to cat
      in its place, takes {feeder:.2f} microseconds a line.
"""
ETCD = """\
etcd: etcd {version} as it comes, one member, through its JSON gateway: HTTP/1.1, the gateway's hop to gRPC inside etcd,
      a raft log with fsync and a boltdb database, both on a memory file system, the Go runtime; all processors. One
      call at a time on one connection that is kept, so each waits for the answer before it. What it does over many
      connections at once is not measured.
      The bodies are the same. The client is a program in Python; its own part is at most what a call takes where
      another process in Python answers each at once with the bytes of one of etcd's answers.
"""


def told_rows(count):
    yield f"put {count:,} new keys"
    yield f"read {count:,} keys, one by one"
    yield f"{range_count(count):,} ranges of {RANGE_KEYS} keys"
    yield f"put one key {count:,} times, compacted after each {compaction_interval(count):,}"
    for puts in TXN_PUTS:
        yield f"{txn_count(count, puts):,} transactions of {puts} put{'s' if puts > 1 else ''}"


def tell_speeds(count, runs):
    rows = []
    for name, (work, label) in zip(told_rows(count), ROWS):
        ours, theirs = ([1 / run.a_line(label, "seconds") for run in runs[who, work]] for who in ["ours", "etcd"])
        row = [name, spread(ours, ",.0f")]
        if theirs:
            row += [spread(theirs, ",.0f"), spread([one / other for one, other in zip(ours, theirs)], ".1f")]
        rows.append(row)
    table(["lines a second", "ours", "etcd", "ratio"][: len(rows[0])], rows)


def tell_times(count, runs):
    rows = []
    for name, (work, label) in zip(told_rows(count), ROWS):
        row = [name]
        for who in ["ours", "etcd"]:
            for what in ["seconds", "processor"]:
                times = [run.a_line(label, what) * 1e6 for run in runs[who, work]]
                row += [f"{median(times):,.1f}"] if times else []
        clients = [run.client[label] * 1e6 for run in runs["etcd", work]]
        rows.append(row + ([f"{median(clients):,.1f}"] if clients else []))
    heads = ["microseconds a line", "ours", "ours, processor", "etcd", "etcd, processor", "its client"]
    table(heads[: len(rows[0])], rows)


def memory_rows(count, runs):
    """Names, and numbers of bytes of ours and of etcd's, None where there is none."""

    def one(who, work, number):
        return median(number(run) for run in runs[who, work]) if runs[who, work] else None

    def both(work, name, number):
        return [name, one("ours", work, number), one("etcd", work, number)]

    def of_etcd(name, number):
        return [name, None, one("etcd", "filled", number)]

    def after(label, what, at=-1):
        return lambda run: run.readings[label][at]["memory"][what]

    def used_at(pick):
        return lambda run: pick(used for reading in run.readings["overwrite"] for used in reading["used"])

    peak = after("put", "peak")
    yield ["resident, without a tenant", one("ours", "filled", lambda run: run.start["bare"]), None]
    yield both("filled", "resident before the puts, the tenant empty", lambda run: run.start["now"])
    yield both("filled", "resident after the puts", after("put", "now"))
    yield both("filled", "at its peak up to there", peak)
    yield both("filled", "the peak's growth, a record", lambda run: (peak(run) - run.start["peak"]) / count)
    yield both("filled", "the whole peak, a record", lambda run: peak(run) / count)
    yield both("filled", "in use by its own count (dbSizeInUse)", lambda run: run.readings["size"][0]["used"][0])
    yield of_etcd("files in memory: the database", after("range", "database"))
    yield of_etcd("files in memory: the log", after("range", "log"))
    yield both("overwritten", "at its peak after a tenth of the puts of one key", after("overwrite", "peak", 0))
    yield both("overwritten", "at its peak after all of them", after("overwrite", "peak"))
    yield both("overwritten", "in use after a compaction, the least", used_at(min))
    yield both("overwritten", "in use after a compaction, the greatest", used_at(max))


def told(cell):
    return "-" if cell is None else f"{cell:,.0f}"


def tell_memory(count, runs):
    columns = 3 if runs["etcd", "filled"] else 2
    rows = [[name, *map(told, cells)][:columns] for name, *cells in memory_rows(count, runs)]
    table(["bytes", "ours", "etcd"][:columns], [row for row in rows if set(row[1:]) != {"-"}])


def tell(options, quota, version, lack, runs, feeder):
    rounds = "one run" if options.rounds == 1 else f"the middle of {options.rounds} runs, and the least to the greatest"
    print(f"{options.program or 'The proved replay program'}, {rounds}.")
    print(f"Keys of {KEY_BYTES} bytes in a scattered order, values of {VALUE_BYTES} bytes.")
    print("A transaction compares the version of its first key with 0, and its keys are new.")
    print(f"A record takes {RECORD_CELLS} cells of {CELL_BYTES} bytes; the quota is {quota:,} cells.")
    if lack:
        print(f"{lack}: the replay program alone.")
    print()
    tell_speeds(options.count, runs)
    tell_times(options.count, runs)
    tell_memory(options.count, runs)
    print(OURS.format(feeder=feeder * 1e6), end="")
    if not lack:
        print(ETCD.format(version=version), end="")
