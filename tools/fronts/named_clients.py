"""What check-by-name asks by other people's clients of the gateway, etcd3gw and tooz, each in a process of its own: they
may be packages of another Python than that of these commands.
"""
import json
import os
import subprocess
import sys
import threading

TTL = 30
# The Python of these commands, and that of Debian's packages.
PYTHONS = [sys.executable, "/usr/bin/python3"]


def python_with(module):
    """A Python that has a module, or None."""
    for python in PYTHONS:
        if os.access(python, os.X_OK):
            ran = subprocess.run([python, "-c", f"import {module}"], capture_output=True, timeout=60, check=False)
            if ran.returncode == 0:
                return python
    return None


def asked_by(module, python, **given):
    """What is wrong with what a module is told, or nothing."""
    words = [python, os.path.abspath(__file__), module, json.dumps(given)]
    # What these say of the machine's own authorities goes before what a client of requests is told.
    variables = {name: value for name, value in os.environ.items() if not name.endswith("_CA_BUNDLE")}
    ran = subprocess.run(words, capture_output=True, text=True, timeout=120, env=variables, check=False)
    return None if ran.returncode == 0 else f"{ran.returncode}: {ran.stderr[-600:]}"


def want(good, what):
    if not good:
        sys.exit(what)


def with_etcd3gw(name, port, authority, password, **_):
    """Puts, reads, watches, takes a lease and a lock, by a password."""
    import etcd3gw

    client = etcd3gw.Etcd3Client(host=name, port=port, protocol="https", api_path="/v3/", ca_cert=authority)
    client.session.auth = tuple(password)
    want([member["clientURLs"] for member in client.members()] == [[f"https://{name}:{port}"]], "other members")
    want("dbSize" in client.status(), "no size")
    events, cancel = client.watch_prefix("gw/")
    told, enough = [], threading.Event()
    threading.Thread(target=take, args=(events, told, 3, enough), daemon=True).start()
    lease = client.lease(TTL)
    client.put("gw/leased", "1", lease)
    client.put("gw/a", "2")
    want(client.get("gw/a") == [b"2"], f"reads {client.get('gw/a')}")
    want(lease.keys() == [b"gw/leased"] and lease.ttl() > 0 and lease.refresh() == TTL, "another lease")
    want(not client.create("gw/a", "3") and client.replace("gw/a", "2", "4"), "a transaction does something else")
    want(enough.wait(20), f"told {told}")
    cancel()
    want(told == [b"gw/leased", b"gw/a", b"gw/a"], f"told {told}")
    first, second = etcd3gw.Lock("x", TTL, client), etcd3gw.Lock("x", TTL, client)
    want(first.acquire() and not second.acquire() and first.release() and second.acquire(), "a lock is none")
    want(lease.revoke() and client.get("gw/leased") == [], "a lease does not end")
    want(lease.refresh() == -1, "an unknown lease is kept alive")


def take(events, told, count, enough):
    for event in events:
        told.append(event["kv"]["key"])
        if len(told) == count:
            enough.set()
            return


def with_tooz(name, port, authority, certificate, key, **_):
    """Two members, a group, and a lock that both want, by a certificate."""
    import etcd3gw
    from tooz import coordination

    # Debian 12 has a tooz that calls this for an api_path, which its etcd3gw takes one name further alone.
    etcd3gw.client = etcd3gw.Etcd3Client
    options = f"api_version=v3&ca_cert={authority}&cert_cert={certificate}&cert_key={key}"
    members = [coordination.get_coordinator(f"etcd3+https://{name}:{port}?{options}", member) for member in [b"a", b"b"]]
    for one in members:
        one.start()
    members[0].create_group(b"group").get()
    for one in members:
        one.join_group(b"group", b"able").get()
    want(set(members[0].get_members(b"group").get()) == {b"a", b"b"}, "other members")
    want(members[0].get_member_capabilities(b"group", b"b").get() == b"able", "another member")
    first, second = [one.get_lock(b"lock") for one in members]
    want(first.acquire(blocking=False) and not second.acquire(blocking=False), "two have the lock")
    want(members[0].heartbeat() > 0, "no heartbeat")
    want(first.release() and second.acquire(blocking=False) and second.release(), "the lock is not given back")
    members[1].leave_group(b"group").get()
    want(set(members[0].get_members(b"group").get()) == {b"a"}, "a member stays")
    for one in members:
        one.stop()


def main(module, given):
    import names_here

    names_here.lead("etcd.example")
    {"etcd3gw": with_etcd3gw, "tooz": with_tooz}[module](**json.loads(given))


if __name__ == "__main__":
    main(*sys.argv[1:])
