#!/usr/bin/env python3
"""Tells which services are registered under a prefix, and each that comes and goes.

    discovery.py http://127.0.0.1:2379/t/one services/web/

Prints `up` with key and value, also where a service has another value now, and `down` with the key when its
registration has ended, by itself or with its lease. It follows the keys as configuration.py does, through lost
connections too.
"""
import os
import sys

sys.dont_write_bytecode = True

from configuration import Followed
from keys import shown


def main(url, prefix):
    for changed in Followed(url, os.fsencode(prefix)).changes():
        for key, _, row in changed:
            print(*["up", shown(key), shown(row["value"])] if row else ["down", shown(key)], flush=True)


if __name__ == "__main__":
    main(*sys.argv[1:])
