"""A client of one tenant of the JSON gateway, over http.client alone. It is no program by itself.

    Gateway("http://127.0.0.1:2379/t/one").call("kv/put", key=b"a", value=b"1")["header"]["revision"]

docs/FORMATS.md has the calls and their members. Keys, ends and values are bytes on both sides, and numbers are ints.
What is zero, false or empty is left out of an answer, so read it by `get`; but a row has its lease and its value.
A Gateway is for one thread; a watch has a connection of its own.
"""
import base64
import collections.abc
import contextlib
import http.client
import json
import socket
import time
from urllib.parse import urlsplit

IDLE = 20  # seconds; the server ends a connection on which nothing is asked for 30
SILENCE = 660  # seconds; a watch that asks for progress_notify is told something every 600
KEEPALIVE = {"TCP_KEEPIDLE": 20, "TCP_KEEPINTVL": 10, "TCP_KEEPCNT": 4}  # a host that is gone is noticed in a minute
BYTES = {"key", "range_end", "value"}
ROW = {"create_revision": 0, "lease": 0, "value": b"", "version": 0}


class Failed(Exception):
    """A call or a watch came to nothing. `is_temporary`: the same may do better later."""
    is_temporary = True


class NoAnswer(Failed):
    """There was no answer of the host. Whether it did what was asked is not known."""


class Canceled(Failed):
    """A watch can't go on from its revision: the keys have to be read anew."""


class Refused(Failed):
    """The host refused, and wrote nothing. The code is gRPC's."""

    def __init__(self, code, message):
        super().__init__(f"{message} (code {code})")
        self.code, self.message = code, message
        self.is_temporary = code in {8, 14}  # RESOURCE_EXHAUSTED, UNAVAILABLE


class Gateway:
    def __init__(self, url, timeout=10):
        parts = urlsplit(url)
        if parts.scheme != "http":
            raise ValueError(f"{url} does not begin with http://")
        self.address, self.path, self.timeout = parts.netloc, parts.path.rstrip("/") + "/v3/", timeout
        self.connection, self.used = http.client.HTTPConnection(self.address, timeout=timeout), 0
        self.cluster = None  # the cluster_id of the last answer

    def call(self, name, **members):
        """The answer of a call, as of `kv/put`."""
        body = json.dumps(encoded(members))
        with closed_by_faults(self.connection, name):
            if time.monotonic() - self.used > IDLE:
                self.connection.close()
            self.connection.request("POST", self.path + name, body)
            answer = answer_of(self.connection.getresponse())
            self.cluster, self.used = answer["header"]["cluster_id"], time.monotonic()
        return answer

    def watch(self, silence=SILENCE, **create):
        """A Watch that the host has opened. It ends with NoAnswer where nothing comes for so many seconds."""
        return Watch(self, silence, create)


class Watch(contextlib.AbstractContextManager, collections.abc.Iterator):
    """The results of a watch in turn: those with events, and those without that tell how far the host has come."""

    def __init__(self, gateway, silence, create):
        body = json.dumps({"create_request": encoded(create)})
        self.connection, self.response = http.client.HTTPConnection(gateway.address, timeout=gateway.timeout), None
        with closed_by_faults(self, "watch"):
            self.connection.connect()
            line = self.connection.sock
            line.setsockopt(socket.SOL_SOCKET, socket.SO_KEEPALIVE, 1)
            for name in KEEPALIVE.keys() & vars(socket).keys():
                line.setsockopt(socket.IPPROTO_TCP, getattr(socket, name), KEEPALIVE[name])
            self.connection.request("POST", gateway.path + "watch", body)
            self.response = self.connection.getresponse()
            at = (next(self) if self.response.status == 200 else answer_of(self.response))["header"]
            # A stop of the host loses all. Then a watch from a revision of before would wait until there is such a one.
            if at["revision"] + 1 < create.get("start_revision", 0) or gateway.cluster not in {None, at["cluster_id"]}:
                raise Canceled("watch: the host has begun anew")
            line.settimeout(silence)

    def __next__(self):
        with closed_by_faults(self, "watch"):
            # Half a line, where the stream breaks off, is no JSON.
            if not (text := self.response.readline()):
                raise NoAnswer("watch: it ended")
            result = json.loads(text, object_hook=decoded)["result"]
            if result.get("canceled"):
                raise Canceled(f"watch: overtaken by a compaction at {result.get('compact_revision')}")
            return result

    def close(self, *_):
        for one in filter(None, [self.connection, self.response]):
            one.close()

    __exit__ = close


@contextlib.contextmanager
def closed_by_faults(connection, name):
    """Whatever goes wrong, an interrupt too, closes the connection: else a later call could read this one's answer."""
    try:
        yield
    except BaseException as fault:
        connection.close()
        if isinstance(fault, (OSError, http.client.HTTPException, ValueError, LookupError, TypeError)):
            raise NoAnswer(f"{name}: {fault!r}") from fault
        raise


def answer_of(response):
    """The members of an answer. What a proxy says in the host's place can't be read so, and is no answer."""
    answer = json.loads(response.read(), object_hook=decoded)
    if response.status != 200:
        raise Refused(answer["code"], answer["message"])
    return answer["result"] if "result" in answer else answer


def encoded(asked, name=None):
    """What is asked, as JSON has it."""
    if isinstance(asked, dict):
        return {name: encoded(value, name) for name, value in asked.items()}
    if isinstance(asked, list):
        return [encoded(item) for item in asked]
    if isinstance(asked, bytes) != (name in BYTES):
        raise TypeError(f"{name}: {asked!r} (keys, ends and values are bytes, and nothing else is)")
    return base64.b64encode(asked).decode() if name in BYTES else asked


def decoded(answered):
    """An object of an answer, with its bytes and its numbers."""
    for name, value in answered.items():
        if name in BYTES:
            answered[name] = base64.b64decode(value)
        elif name == "keys":
            answered[name] = [base64.b64decode(key) for key in value]
        elif isinstance(value, str) and value.lstrip("-").isdecimal():
            answered[name] = int(value)
    return {**ROW, **answered} if "mod_revision" in answered else answered
