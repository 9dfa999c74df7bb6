"""What bench/growth asks of a tenant, measure by measure. A work is one line or more."""
from base64 import b64encode

from growing.tenant import ALL, COMES, PREFIX_KEYS, PUT_CELLS, Asked, Tenant, call, changes, key, put_body

LAST_CHANGED = b'"sort_order":"DESCEND","sort_target":"MOD","limit":"10"'


def ranges(tenant, more, rows):
    """A range of all keys, again and again."""
    one = [Asked(call(b"kv/range", b"%s,%s" % (ALL, more)), b'{"count":"%d",' % tenant.keys, rows)]
    while True:
        yield one


def reads(tenant):
    for number in tenant.scattered():
        yield [Asked(call(b"kv/range", b'"key":"%s"' % key(number)), b'{"count":"1",', 1)]


def of_prefixes(tenant, limit, is_early):
    """Ranges of prefixes by chance, at the newest revision or at an early one."""
    at = b',"revision":"%d"' % tenant.early if is_early else b""
    while True:
        prefix = tenant.chance.randrange(tenant.keys // PREFIX_KEYS)
        count = tenant.early_keys[prefix] if is_early else PREFIX_KEYS
        ends = b64encode(b"/%03d/" % prefix), b64encode(b"/%03d0" % prefix)
        body = b'"key":"%s","range_end":"%s","limit":"%d"%s' % (*ends, limit, at)
        yield [Asked(call(b"kv/range", body), b'{"count":"%d",' % count, min(limit, count))]


def idle_compactions(tenant):
    """Each revision that they come up to was the put of a new key, which stays."""
    for number in range(changes(tenant.keys)):
        yield [tenant.compaction(2 + number)]


def overwrites_with_compactions(tenant):
    """Each compaction comes up to the next revision that overwrote a key, and drops what that one replaced."""
    tenant.ask([tenant.compaction(tenant.keys + 1)])
    for number in range(changes(tenant.keys)):
        overwrite = tenant.overwrite(key(tenant.chance.randrange(tenant.keys)))
        yield [overwrite, tenant.compaction(tenant.keys + 2 + number, drops=1)]


def some(tenant):
    """As many keys, in a scattered order, as a measure may change."""
    return tenant.chance.sample(range(tenant.keys), changes(tenant.keys))


def overwrites(tenant):
    for number in some(tenant):
        yield [tenant.overwrite(key(number))]


def ignoring(tenant):
    for number in some(tenant):
        yield [tenant.overwrite(key(number), b'"ignore_value":true')]


def transactions(tenant):
    """An overwrite, and then a range that finds it pending."""
    for number in some(tenant):
        operations = b'{"request_put":{%s}},{"request_range":{%s,"limit":"1"}}' % (put_body(key(number)), ALL)
        line = tenant.write(b"kv/txn", b'"success":[%s]' % operations, PUT_CELLS).line
        yield [Asked(line, b'"count":"%d",' % tenant.keys, 1)]


def new_keys(tenant):
    for number in some(tenant):
        yield [tenant.put(key(number, COMES))]


# In the order in which they are made: those that change nothing are first, the new keys are last.
MEASURES = {
    "read a key": reads,
    "range of all keys, limit 1": lambda tenant: ranges(tenant, b'"limit":"1"', 1),
    "range of all keys, limit 100": lambda tenant: ranges(tenant, b'"limit":"100"', 100),
    "count of all keys": lambda tenant: ranges(tenant, b'"count_only":true', 0),
    "range of all keys, last changed first, limit 10": lambda tenant: ranges(tenant, LAST_CHANGED, 10),
    "range of a prefix of 1,000 keys, limit 10": lambda tenant: of_prefixes(tenant, 10, False),
    "the same at an old revision": lambda tenant: of_prefixes(tenant, 10, True),
    "compaction that drops nothing": idle_compactions,
    "overwrite and a compaction that drops one record": overwrites_with_compactions,
    "overwrite a key": overwrites,
    "the same with ignore_value": ignoring,
    "transaction: overwrite, range of all keys, limit 1": transactions,
    "put a new key": new_keys,
}


def measured(path, keys, state):
    """The seconds of processor of each measure, by a fresh program."""
    times = {}
    with Tenant(path, keys, state) as tenant:
        tenant.fill()
        for name, works in MEASURES.items():
            times[name] = tenant.time_of(works(tenant))
            tenant.check_cells()
        tenant.end()
    return times
