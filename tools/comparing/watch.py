"""A watch of against-etcd: a stream of etcd's beside what a row's takes tell."""
import json
import math
import re
import time
from typing import NamedTuple

from comparing.answers import ENDED, QUIET, SILENT, Answer, read_answer
from shared.http_client import HEAD_END, SECONDS, Connection, request

# etcd brings a watch from the past up to date each tenth of a second.
QUIET_SECONDS = 0.3
# What silence is where something is to come.
SILENT_SECONDS = 1
# A take has the events of so many revisions at most.
REVISIONS = 16
FIRST_LINE = re.compile(rb"\r\n\r\n[^\n]+\n")


class Stream(Connection):
    """A call of /v3/watch that stays open. It is made by HTTP/1.0, so that its answer has no chunks."""

    def __init__(self, port, body):
        super().__init__(port)
        self.has_ended = False
        self.send(request("/v3/watch", body, version="HTTP/1.0"))

    def close(self):
        super().close()
        self.has_ended = True

    def read_some(self, seconds):
        """Whether something came within so many seconds."""
        if self.has_ended or not self.comes(seconds):
            return False
        self.has_ended = not self.more(time.monotonic() + SECONDS)
        return not self.has_ended

    def first(self):
        """The first line of the answer, or all of one that has no lines."""
        while not FIRST_LINE.search(self.got) and self.read_some(SILENT_SECONDS):
            pass
        if not self.got:
            return ENDED if self.has_ended else SILENT
        head, _, rest = self.got.partition(HEAD_END)
        line, _, self.got = rest.partition(b"\n")
        return read_answer(int(head.split(b" ", 2)[1]), line)

    def lines(self, seconds):
        """What else has come, read until nothing comes for so many seconds: the values of `result`."""
        while self.read_some(seconds):
            pass
        *lines, self.got = self.got.split(b"\n")
        return [json.loads(line)["result"] for line in lines if line]


class Said(NamedTuple):
    """One event that etcd told, or a response without any: the response's number, and what else it has."""

    event: object
    response: int
    rest: dict

    def revision(self):
        return revision_of(self.event) if self.event else math.inf


def revision_of(event):
    return int(event["kv"]["mod_revision"])


class Watch:
    """A watch that ours has in a slot, and etcd's: what that was told which ours was not yet."""

    def __init__(self, body):
        self.body, self.stream, self.told = body, None, 0
        # Whether etcd has none that could be compared.
        self.is_lost = False

    def open(self, port):
        """Opens etcd's, anew if it was open before, and gives back its first answer."""
        self.close()
        self.stream, self.ahead, self.count, self.last = Stream(port, self.body), [], 0, 0
        return self.stream.first()

    def close(self):
        if self.stream:
            self.stream.close()

    def read(self, seconds):
        for result in self.stream.lines(seconds):
            self.count += 1
            rest = {name: value for name, value in result.items() if name != "events"}
            said = [Said(event, self.count, rest) for event in result.get("events", [None])]
            self.ahead += [one for one in said if one.revision() > self.told]

    def take(self, ours):
        """What etcd told in the place of what ours tells now, up to ours' last revision where that may not be all."""
        events = ours.result().get("events", [])
        wanted = len(events) or (1 if ours.result() else 0)
        self.read(QUIET_SECONDS)
        if len(self.ahead) < wanted:
            self.read(SILENT_SECONDS)
        revisions = {revision_of(event) for event in events}
        last = max(revisions) if len(revisions) == REVISIONS else math.inf
        said = [one for one in self.ahead if one.revision() <= last]
        self.ahead = self.ahead[len(said):]
        self.told = max([self.told, *revisions, *(one.revision() for one in said if one.event)])
        return self.as_one(said, ours)

    def as_one(self, said, ours):
        """What was said, as one answer. If it came in other responses, it has no header of its own, and gets ours'."""
        if not said:
            return QUIET
        responses = {one.response for one in said}
        is_regrouped = len(responses) > 1 or bool(responses & {self.last, *(one.response for one in self.ahead)})
        self.last = max(responses)
        result, events = said[-1].rest, [one.event for one in said if one.event]
        if events:
            result = result | {"events": events}
        if is_regrouped and ours.result():
            result = result | {"header": ours.result()["header"]}
        return Answer(200, {"result": result}, is_regrouped)
