"""The most memory that a host takes, computed from its configuration: what tools/size --host prints.

docs/OPERATING.md says what each part is. Where a number stands in the sources it has its
name there, and tools/check-size compares them.
"""
import ipaddress
import json
import re
import resource
from typing import NamedTuple

CELL_BYTES = 48
SEGMENT_CELLS = 64
MIN_QUOTA = 4
MAX_QUOTA = 1_048_576
MAX_BODY = 2_097_152
# Of the host's memory: the cells of a segment, all that is kept for a segment at the most, and for a tenant beside.
SEGMENT_LEAST = 64 * 56
SEGMENT_MOST = 64 * 200
TENANT_MOST = 131_072
# What a standing order notes at the most, and the bytes of a note.
MAX_NOTES = 7_201
NOTE_BYTES = 16
# Of a segment that no tenant has: its place in a list, and what the allocator keeps of it.
SEGMENT_LISTED = 64
# What may be configured.
MAX_CONFIG = 1_048_576
MAX_TENANTS = 256
DEFAULT_SEGMENTS = 1024
MAX_SEGMENTS = 4_194_304
DEFAULT_WORKERS = 4
MAX_WORKERS = 32
MAX_AUDIT = 65_536
LAST_REVISION = 4_611_686_018_427_387_904
MAX_PATIENCE = 86_400
PATIENCE = ["head_seconds", "body_seconds", "answer_seconds", "silence_seconds"]
MAX_U32, MAX_U64 = 2**32 - 1, 2**64 - 1
# A tenant's budget, and what it has where none is configured, for each cell of its quota too.
MIN_BUDGET = 4_194_304
MAX_BUDGET = 1_099_511_627_776
DEFAULT_BUDGET = 16_777_216
QUOTAS_A_BUDGET = 4
# Connections where none are configured: descriptors less these, and of those a part for a tenant.
BESIDE_CONNECTIONS = 64
TENANT_PART = 4
# The text of a watch without its events, an event's without its rows, and a row's without its strings: its names, and the
# three longest numbers with the longest lease. Base64 rounds the two strings of a row up by less than six bytes.
REPLY = 218
EVENT = 35
ROW_NAMES, ROW_LEASE, ROW_VALUE = 63, 12, 11
ROW = ROW_NAMES + 3 * 20 + ROW_LEASE + 19 + ROW_VALUE
ROUNDED = 6
# What an event takes until that text is made: its note, also while their list grows, the event with two rows, and what
# the allocator keeps of their four strings.
EVENT_HELD = 3 * 16 + 176 + 4 * 24
# A row that a call on one key is answered, which nobody weighs.
LONGEST_ROW = 4_194_304
# What a row weighs beside its strings, whose bytes weigh two and a half times as much.
WEIGHED_ROW = 512
# A worker reads a body, which it holds up to three times, and makes a tree of it.
SMALL_TREE = 1_048_576
WORKER = 3 * MAX_BODY + SMALL_TREE
# An event loop makes the tree of a short body, at most 1,120 bytes for each three of `{},`, and has a connection's
# buffers twice while they grow.
LOOPS = 4
SHORT = 4_096
LOOP = SHORT * 1_120 // 3 + 1_572_864
# A connection reads on as long as a head has less than 64 KiB, with room for as much more. As long as less waits to be
# sent it is given more, of a watch a text of less than 128 KiB.
MAX_UNSENT = 65_536
COPIED = 131_072
# A short body, whose list has grown to twice that; the step that is made of it, of 1,365 compares of 88 bytes in a list
# that has grown to 2,048; and a short answer, whose numbers were all taken for long ones.
STEP = 2_048 * 88
CONNECTION_HELD = 2 * SHORT + STEP + 3 * SHORT
# What the server keeps for a connection: its task, its requests, 100 places for the lines of a head, its entry.
CONNECTION_KEPT = 32_768
CONNECTION = 2 * MAX_UNSENT + MAX_UNSENT + COPIED + CONNECTION_HELD + CONNECTION_KEPT
# A watch has keys of three quarters of a body, its notes, and beside them places for two texts.
WATCH_SLOTS = 64
RING_ENTRIES = 256
WATCH = MAX_BODY * 3 // 4 + RING_ENTRIES * 16 + 4_096
# A watch whose connection has ended keeps its slot until its tenant's turn at hand is over. The bodies of a turn have
# 64 KiB and one body at the most, so that the watches that it opens have the keys of fewer than two.
LEAVING = 2
# The operator's connections: each has a body, which has grown to twice that, and an answer of some KiB for a tenant.
OPERATORS = 16
OPERATOR_ANSWER = 16_384
# Measured: what is resident without a tenant. Beside the workers, the loops and the thread that accepts there are the
# clock, the pump and the catch-up worker, and the operator's thread if he is served.
PROCESS = 16_777_216
THREAD = 262_144
BESIDE_WORKERS = 3


class Unreadable(Exception):
    """The server does not read this configuration."""


class Unbounded(Exception):
    """The memory of this host has no bound that is told."""


class Tenant(NamedTuple):
    """What a tenant may take."""
    name: str
    quota: int
    audit: int
    budget: int
    connections: int
    has_order: bool

    def segments(self):
        return -(-self.quota // SEGMENT_CELLS)


class Host(NamedTuple):
    """What a host may take. `connections` are those of all tenants."""
    segments: int
    workers: int
    connections: int
    operator: bool
    tenants: list


# The configuration, which is read as host_config does.


def number(of, name, absent, least, most):
    """A number, or the text of one, within bounds; what an absent one stands for, if it may be absent."""
    value = of.get(name)
    if value is None and absent is not None:
        return absent
    if isinstance(value, str) and re.fullmatch("[0-9]{1,4000}", value):
        value = int(value)
    if type(value) is not int or not least <= value <= most:
        raise Unreadable(f"{name} is no number from {least:,} to {most:,}")
    return value


def text(of, name):
    value = of.get(name)
    if not isinstance(value, str):
        raise Unreadable(f"{name} is no text")
    return value


def unknown_number(literal):
    raise Unreadable(f"{literal} is no number")


def loaded(path):
    """The object that a file has."""
    with open(path, "rb") as file:
        given = file.read(MAX_CONFIG + 1)
    if len(given) > MAX_CONFIG:
        raise Unreadable(f"it has more than {MAX_CONFIG:,} bytes")
    try:
        config = json.loads(given.decode(), parse_constant=unknown_number)
    except (ValueError, RecursionError):
        raise Unreadable("it is no JSON") from None
    if not isinstance(config, dict):
        raise Unreadable("it is no JSON object")
    return config


def tenant_of(of, part):
    """A tenant; it may have a part of all connections where it has no number of its own."""
    if not isinstance(of, dict):
        raise Unreadable("a tenant is no object")
    name = text(of, "name")
    if not re.fullmatch("[a-z0-9-]{1,64}", name):
        raise Unreadable(f"{name!r} is no name of a tenant")
    number(of, "cluster_id", None, 1, MAX_U64)
    number(of, "first", 1, 1, LAST_REVISION)
    quota = number(of, "quota", None, MIN_QUOTA, MAX_QUOTA)
    budget = DEFAULT_BUDGET + QUOTAS_A_BUDGET * CELL_BYTES * quota
    return Tenant(name, quota, audit=number(of, "audit", 0, 0, MAX_AUDIT),
                  budget=number(of, "budget", budget, MIN_BUDGET, MAX_BUDGET),
                  connections=number(of, "open_connections", part, 1, MAX_U32),
                  has_order=of.get("auto_compaction_retention") not in (None, 0, "0"))


def tenants_of(config, segments, part):
    given = config.get("tenants")
    given = [] if given is None else given
    if not isinstance(given, list) or len(given) > MAX_TENANTS:
        raise Unreadable(f"tenants is no list of up to {MAX_TENANTS}")
    tenants = [tenant_of(one, part) for one in given]
    if len({tenant.name for tenant in tenants}) < len(tenants):
        raise Unreadable("two tenants have one name")
    if sum(map(Tenant.segments, tenants)) > segments:
        raise Unreadable("the quotas take more segments than there are")
    return tenants


def has_operator(config):
    """Whether the operator is served. An address that others reach has to have a token."""
    if config.get("operator") is None:
        return False
    place = re.fullmatch(r"(?:\[(.+)\]|([^:]+)):(\d{1,5})", text(config, "operator"))
    try:
        address = ipaddress.ip_address(place and (place[1] or place[2]))
    except ValueError:
        raise Unreadable("operator is no address with a port") from None
    has_token = config.get("operator_token") is not None
    is_safe = text(config, "operator_token") != "" if has_token else address.is_loopback
    if not is_safe or int(place[3]) > 65_535:
        raise Unreadable("operator wants a port, and a token unless the address is one of this machine alone")
    return True


def read(path, descriptors):
    """The host of a configuration, whose server may open so many descriptors, or as many as this script."""
    config = loaded(path)
    text(config, "listen")
    for name in PATIENCE:
        number(config, name, 1, 1, MAX_PATIENCE)
    number(config, "connections", 0, 0, MAX_U32)
    segments = number(config, "segments", DEFAULT_SEGMENTS, 1, MAX_SEGMENTS)
    workers = number(config, "workers", DEFAULT_WORKERS, 1, MAX_WORKERS)
    if descriptors is None:
        descriptors = resource.getrlimit(resource.RLIMIT_NOFILE)[0]
    if descriptors == resource.RLIM_INFINITY:
        descriptors = MAX_U64
    connections = number(config, "open_connections", max(descriptors - BESIDE_CONNECTIONS, 1), 1, MAX_U32)
    tenants = tenants_of(config, segments, max(connections // TENANT_PART, 1))
    return Host(segments, workers, connections, has_operator(config), tenants)


# The parts.


def rooms(host):
    """What keeps track of the tenants' cells, beside the cells themselves, and of the segments."""
    of_tenants = sum(tenant.segments() * (SEGMENT_MOST - SEGMENT_LEAST) + TENANT_MOST for tenant in host.tenants)
    noted = sum(MAX_NOTES * NOTE_BYTES for tenant in host.tenants if tenant.has_order)
    return of_tenants + noted + host.segments * SEGMENT_LISTED


def text_most(quota):
    """The bytes of one text of a watch.

    A take gives the events of 16 revisions, and what was deleted in one of them may be all that the tenant has. So each
    record may be an event, and be shown twice: by itself, and as what was there before the next one. A record has two
    cells at least, the first for its numbers, and each byte of the others is written twice in base64. That is the most
    where all records have two cells.
    """
    records = quota // 2
    return REPLY + records * (EVENT + 2 * (ROW + ROUNDED)) + (quota - records) * CELL_BYTES * 2 * 4 // 3


def held_most(quota):
    """What is held until such a text is made: the events, and the bytes of their rows.

    While the text waits to be sent, a call that nobody weighs holds no more than that.
    """
    records = quota // 2
    return records * EVENT_HELD + (quota - records) * CELL_BYTES * 2


def weight_most(quota):
    """What such a text weighs at the most before it is made."""
    return 2 * (quota // 2 * WEIGHED_ROW + quota * CELL_BYTES * 5 // 2)


def text_beyond(tenant):
    """How far a tenant's clients may go beyond its budget: by the row of a call on one key, or by a text of a watch, if one may
    weigh more than the budget."""
    if weight_most(tenant.quota) <= tenant.budget:
        return LONGEST_ROW
    return max(text_most(tenant.quota) + held_most(tenant.quota), LONGEST_ROW)


def open_watches(host):
    """Each watch is a connection, or was one a moment ago."""
    of_tenants = sum(min(WATCH_SLOTS, tenant.connections + LEAVING) for tenant in host.tenants)
    return min(of_tenants, host.connections + LEAVING * len(host.tenants))


def operator_most(host):
    return OPERATORS * (CONNECTION + 2 * MAX_CONFIG + OPERATOR_ANSWER * max(len(host.tenants), 1))


def parts(host):
    """Each part under its name, with what it is."""
    watches, threads = open_watches(host), host.workers + LOOPS + 1 + BESIDE_WORKERS + host.operator
    yield "pool", host.segments * SEGMENT_LEAST, f"{host.segments} segments of 64 cells"
    yield "rooms", rooms(host), "to keep track of them and of the tenants"
    yield "budgets", sum(tenant.budget for tenant in host.tenants), "bodies, answers and texts under way"
    yield "texts", sum(map(text_beyond, host.tenants)), "of each tenant one that goes beyond its budget"
    yield "workers", host.workers * WORKER, f"{host.workers} that read a long body each"
    yield "loops", LOOPS * LOOP, f"{LOOPS} that read short ones"
    yield "connections", host.connections * CONNECTION, f"{host.connections}, buffers and short bodies and answers"
    yield "watches", watches * WATCH, f"{watches}, the longest keys and their notes"
    if host.operator:
        yield "operator", operator_most(host), f"{OPERATORS} connections with a body and an answer"
    yield "process", PROCESS + threads * THREAD, f"the program, and {threads} threads"


def told(path, descriptors):
    """The parts of a host's memory and their sum.

    A connection that was closed for a new one is not counted, though its loop may not have closed its socket yet.
    """
    host = read(path, descriptors)
    for tenant in host.tenants:
        if tenant.audit:
            raise Unbounded(f"the audit of {tenant.name} keeps copies of steps and replies, which have no bound")
    lines = list(parts(host))
    return [*lines, ("bound", sum(line[1] for line in lines), "bytes of the host at the most, all of these together")]
