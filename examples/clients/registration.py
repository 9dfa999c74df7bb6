#!/usr/bin/env python3
"""Registers a service for as long as this process lives.

    registration.py http://127.0.0.1:2379/t/one services/web/1 10.0.0.7:8080 [time to live]

Its key is on a lease that is kept alive. The key goes at once when this process is ended by SIGTERM, and at the end of
the time to live when it dies without a word; discovery.py sees both. Prints `registered` with the revision of each put:
more than one where the lease was lost meanwhile, since the host wasn't reached for so long or began anew.
"""
import os
import signal
import sys

sys.dont_write_bytecode = True

from gateway import Failed, Gateway
from keys import Pauses
from lease import Lease


def registered(url, key, value, seconds):
    """Keeps the key there, and tells the revision of each put. It has no end; when it is closed, the key goes."""
    gateway, pauses = Gateway(url), Pauses()
    while True:
        try:
            with Lease(url, seconds) as lease:
                yield gateway.call("kv/put", key=key, value=value, lease=lease.number)["header"]["revision"]
                pauses.begin_anew()
                lease.wait()
        except Failed as fault:
            pauses.wait_after(fault)


def main(url, key, value, seconds=10):
    signal.signal(signal.SIGTERM, lambda *_: sys.exit(0))
    for revision in registered(url, os.fsencode(key), os.fsencode(value), int(seconds)):
        print("registered", revision, flush=True)


if __name__ == "__main__":
    main(*sys.argv[1:])
