"""What the parts of against-etcd share: the lines of a row, answers, and what of them is compared."""
import base64
import json
from typing import NamedTuple

SHOWN = 160
ALARM, GRANT, STATUS, WATCH = "maintenance/alarm", "lease/grant", "maintenance/status", "watch"
LEASES, KEEPALIVE = "lease/leases", "lease/keepalive"
REVOKES = {"lease/revoke", "kv/lease/revoke"}
TIMES_TO_LIVE = {"lease/timetolive", "kv/lease/timetolive"}
NO_PROMISE = {"cluster_id", "member_id", "raft_term", "memberID", "dbSize", "dbSizeInUse"}
BYTES = {"key", "range_end", "rangeEnd", "value"}


class Answer(NamedTuple):
    """A status, and the JSON of the body, or its text where it is none.

    What etcd told in the place of a take is one answer, however it came: `regrouped` if not as one response.
    """

    status: int
    body: object
    regrouped: bool = False

    def promised(self):
        """What is compared."""
        return self.status, without(self.body)

    def member(self, name):
        return self.body.get(name) if isinstance(self.body, dict) else None

    def result(self):
        """What a watch or a keepalive is told; of other answers the body's members."""
        return self.member("result") or (self.body if isinstance(self.body, dict) else {})

    def revision(self):
        return (self.member("header") or {}).get("revision")

    def told(self):
        body = self.body if isinstance(self.body, str) else json.dumps(self.body, separators=(",", ":"))
        return f"{self.status} {shortened(body)}"


# In the place of an answer: where etcd ended, and where it keeps a call open and says nothing.
ENDED = Answer(0, "etcd ended")
SILENT = Answer(0, "etcd says nothing, and stays open")
QUIET = Answer(204, "")


class Line(NamedTuple):
    """A line of a row that etcd is asked.

    Of a call, `call` is what stands behind /v3/, with what follows it. Of a take or a tick, `method` is that word,
    `call` the tenant, and `body` the slot or the moment.
    """

    number: int
    method: str
    call: str
    body: bytes
    ours: Answer

    def asked(self):
        return self.method, self.call, self.body

    def is_call(self):
        return self.method not in {"take", "tick"}

    def members(self):
        """The body's members, where ours read them."""
        return json.loads(self.body or b"{}") or {}


class Left(Exception):
    """Why a line can't be asked."""


def shortened(text):
    return text if len(text) <= SHOWN else f"{text[:SHOWN]}.. ({len(text):,} characters)"


def without(value):
    """A JSON value without what is no promise."""
    if isinstance(value, list):
        return [without(one) for one in value]
    if not isinstance(value, dict):
        return value
    dropped = NO_PROMISE | ({"message"} if "error" in value else set())
    return {name: without(one) for name, one in value.items() if name not in dropped}


def read_answer(status, data):
    try:
        return Answer(status, json.loads(data))
    except ValueError:
        return Answer(status, data.decode(errors="replace").strip())


def plainly(value):
    """A body with its bytes in the standard alphabet and padded."""
    if isinstance(value, list):
        return [plainly(one) for one in value]
    if not isinstance(value, dict):
        return value
    return {name: plain_bytes(one) if name in BYTES and one else plainly(one) for name, one in value.items()}


def plain_bytes(text):
    bare = text.rstrip("=")
    return base64.b64encode(base64.urlsafe_b64decode(bare + "=" * (-len(bare) % 4))).decode()


def same_effect(line, theirs):
    """Whether two answers that may differ tell of the same change."""
    if line.ours.status != 200 or theirs.status != 200:
        return False
    if line.call in {ALARM, GRANT}:
        return all(without(line.ours.member(name)) == without(theirs.member(name)) for name in ["alarms", "ID"])
    return line.ours.revision() == theirs.revision()


def to_the_second(line, theirs):
    """etcd's answer, with the seconds that ours has left of a lease where they differ by one at most."""
    if line.call not in TIMES_TO_LIVE or not line.ours.member("grantedTTL") or not theirs.member("grantedTTL"):
        return theirs
    ours, left = (answer.body.get("TTL", "0") for answer in [line.ours, theirs])
    return theirs._replace(body=theirs.body | {"TTL": ours}) if abs(int(ours) - int(left)) <= 1 else theirs
