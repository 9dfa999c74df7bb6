#!/usr/bin/env python3
"""Lists the keys of a prefix in pages, all as they were at one revision, though others write meanwhile.

    pages.py http://127.0.0.1:2379/t/one app/ [keys in a page]

Prints `revision` with that revision and then each key with its value. The first page is of the newest revision, and
its header tells which that is; the others ask for the same. If that is compacted before the last page is read, the rest
can't be had any more, so all is read again. Where that happens again and again, take larger pages, or compact later.
"""
import os
import sys

sys.dont_write_bytecode = True

from gateway import Gateway, Refused
from keys import interval, shown

OUT_OF_RANGE = 11  # the revision is compacted, or ahead of a host that began anew


def pages(gateway, prefix, limit):
    """The pages in turn: the revision, and rows in the order of their keys."""
    asked, revision = interval(prefix), 0
    while True:
        answer = gateway.call("kv/range", **asked, limit=limit, revision=revision)
        revision = revision or answer["header"]["revision"]
        rows = answer.get("kvs", [])
        yield revision, rows
        if not answer.get("more"):
            return
        # The least key after the last one.
        asked["key"] = rows[-1]["key"] + b"\0"


def listed(gateway, prefix, limit, tries=10):
    """One revision, and all rows at it."""
    for left in reversed(range(tries)):
        rows = []
        try:
            for revision, page in pages(gateway, prefix, limit):
                rows += page
            return revision, rows
        except Refused as refusal:
            if refusal.code != OUT_OF_RANGE or not left:
                raise


def main(url, prefix, limit=100):
    revision, rows = listed(Gateway(url), os.fsencode(prefix), int(limit))
    print("revision", revision)
    for row in rows:
        print(shown(row["key"]), shown(row["value"]))


if __name__ == "__main__":
    main(*sys.argv[1:])
