"""What a tenant is to hold, what tools/size computes of it, and a tenant that is asked to hold it."""
import contextlib
import json
import os
import re
import subprocess
import tempfile
from typing import NamedTuple

from shared.http_client import SECONDS, shown, text
from shared.places import TOP
from shared.report import want
from shared.wanted import REFUSALS

SIZE = os.path.join(TOP, "tools", "size")
# So many calls of a worked example are made at the most, or a few more.
CALLS = 300


class Kind(NamedTuple):
    """What tools/size is told of one kind of keys."""
    records: int
    key: int
    value: int = 0
    overwrites: int = 0
    deletes: int = 0

    def calls(self):
        return self.records + self.overwrites + 2 * self.deletes

    def scaled(self, by):
        return self._replace(**{name: -(-getattr(self, name) // by) for name in ["records", "overwrites", "deletes"]})

    def compacted(self):
        return self._replace(overwrites=0, deletes=0)


class Asked(NamedTuple):
    """What a tenant is to hold."""
    name: str
    kinds: list
    leases: int = 0

    def scaled(self):
        by = -(-(sum(kind.calls() for kind in self.kinds) + self.leases) // CALLS)
        return self._replace(kinds=[kind.scaled(by) for kind in self.kinds], leases=-(-self.leases // by))

    def compacted(self):
        return self._replace(kinds=[kind.compacted() for kind in self.kinds])

    def words(self):
        for kind in self.kinds:
            for name, number in kind._asdict().items():
                yield from [f"--{name}", str(number)]
        yield from ["--leases", str(self.leases)]

    def sizes(self):
        """What tools/size computes."""
        ran = size_of(self.words())
        want(ran.returncode == 0, f"tools/size: {ran.stderr}")
        return {name: int(number) for name, number in re.findall(r"^(\w+) +(\d+) ", ran.stdout, re.MULTILINE)}


def size_of(words):
    return subprocess.run([SIZE, *words], capture_output=True, text=True, timeout=SECONDS, check=False, cwd=TOP)


def check_refused(words, why):
    ran = size_of(words)
    want(ran.returncode == 1 and not ran.stdout, f"status {ran.returncode}, {ran.stdout}")
    want(ran.stderr.startswith("size: no tenant ") and why in ran.stderr, f"told {ran.stderr!r}")


@contextlib.contextmanager
def kept(given):
    """The path of a file that has these bytes."""
    with tempfile.NamedTemporaryFile(prefix="check_size.") as file:
        file.write(given)
        file.flush()
        yield file.name


def host_of(config):
    """What tools/size prints for the host of a configuration, by name."""
    with kept(json.dumps(config).encode()) as path:
        ran = size_of(["--host", path])
    want(ran.returncode == 0, f"tools/size: {ran.stderr}")
    return {name: int(number) for name, number in re.findall(r"^(\w+) +(\d+) ", ran.stdout, re.MULTILINE)}


def key_text(kind, place, number):
    """A key of this kind's size, which no other kind has."""
    return text((number + 1 + (place << 20)).to_bytes(kind.key, "big")).rstrip("=")


def put(kind, place, number, filler, leases):
    body = {"key": key_text(kind, place, number), "value": text(filler * kind.value).rstrip("=")}
    if leases:
        body["lease"] = str(number % leases + 1)
    return "kv/put", body


def calls_of(asked):
    """Calls after which a tenant holds what is asked; the last one is a put."""
    for number in range(asked.leases):
        yield "lease/grant", {"TTL": "3600", "ID": str(number + 1)}
    for place, kind in enumerate(asked.kinds):
        for number in range(kind.records, kind.records + kind.deletes):
            yield put(kind, place, number, b"d", asked.leases)
            yield "kv/deleterange", {"key": key_text(kind, place, number)}
        for number in range(kind.records):
            yield put(kind, place, number, b"r", asked.leases)
        for number in range(kind.overwrites):
            yield put(kind, place, number % kind.records, b"o", asked.leases)


class Tenant:
    """A tenant of a server, over a connection of its own."""

    def __init__(self, server, name):
        self.connection, self.name = server.connect(), name

    def __enter__(self):
        return self

    def __exit__(self, *_):
        self.connection.close()

    def answer(self, call, body):
        told = self.connection.call(self.name, call, json.dumps(body, separators=(",", ":")))
        return told.status, told.body

    def call(self, call, body):
        status, told = self.answer(call, body)
        want(status == 200, f"{call} {shown(json.dumps(body).encode())}: {status} {shown(told)}")
        return json.loads(told)

    def refuses(self, call, body, name):
        status, told = self.answer(call, body)
        want((status, told) == REFUSALS[name], f"{call} is answered {status} {shown(told)}, and not {name}")

    def status(self):
        """Both sizes, and the current revision."""
        told = self.call("maintenance/status", {})
        return int(told["dbSize"]), int(told.get("dbSizeInUse", 0)), told["header"]["revision"]

    def in_use(self):
        return self.status()[1]

    def compact(self):
        self.call("kv/compaction", {"revision": self.status()[2]})
