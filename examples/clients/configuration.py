#!/usr/bin/env python3
"""A configuration: the keys of a prefix, read once and then followed by a watch.

    configuration.py http://127.0.0.1:2379/t/one app/

Prints `put` with key and value or `delete` with the key for each change, and after all of one answer `revision` with
the revision up to which it has come. A connection that breaks off is opened again, from the last revision seen on.
Where that was compacted meanwhile, or the host began anew, the keys are read again, and what differs is printed.
"""
import os
import sys

sys.dont_write_bytecode = True

from gateway import Canceled, Failed, Gateway
from keys import Pauses, interval, shown


class Followed:
    """The keys of a prefix, kept up to date by who goes through `changes`.

    `rows` is never changed but replaced, so other threads may read it: they see all changes of a transaction or none.
    """

    def __init__(self, url, prefix):
        self.gateway, self.interval = Gateway(url), interval(prefix)
        self.rows, self.revision = {}, None

    def changes(self):
        """What each answer changed: a list of a key with its row before and its row since, None where there is none.
        The first is of all keys. It has no end."""
        pauses = Pauses()
        while True:
            try:
                if self.revision is None:
                    yield self.read()
                # From the next revision on: nothing is lost between the two, and nothing comes twice.
                start = {"start_revision": self.revision + 1, "progress_notify": True}
                with self.gateway.watch(**self.interval, **start) as watch:
                    for result in watch:
                        pauses.begin_anew()
                        if changed := self.take(result):
                            yield changed
            except Failed as fault:
                if isinstance(fault, Canceled):
                    self.revision = None
                pauses.wait_after(fault)

    def read(self):
        """Reads all keys anew."""
        answer = self.gateway.call("kv/range", **self.interval)
        before, rows = self.rows, {row["key"]: row for row in answer.get("kvs", [])}
        self.rows, self.revision = rows, answer["header"]["revision"]
        keys = sorted(before.keys() | rows.keys())
        return [(key, before.get(key), rows.get(key)) for key in keys if before.get(key) != rows.get(key)]

    def take(self, result):
        """Takes in one answer of the watch."""
        events = result.get("events")
        if not events:
            # Word of progress: all is told up to the revision of its header.
            self.revision = result["header"]["revision"]
            return []
        rows, changed = dict(self.rows), []
        for event in events:
            row = event["kv"]
            before = rows.pop(row["key"], None)
            if event.get("type") != "DELETE":
                rows[row["key"]] = row
            changed.append((row["key"], before, rows.get(row["key"])))
        # Not the header's revision: there may be more events up to that, which are told next.
        self.rows, self.revision = rows, events[-1]["kv"]["mod_revision"]
        return changed


def main(url, prefix):
    configuration = Followed(url, os.fsencode(prefix))
    for changed in configuration.changes():
        for key, _, row in changed:
            print(*["put", shown(key), shown(row["value"])] if row else ["delete", shown(key)])
        print("revision", configuration.revision, flush=True)


if __name__ == "__main__":
    main(*sys.argv[1:])
