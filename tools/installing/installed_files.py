"""What lies below a scratch root, its unit, the program started there."""
import json
import os
import re
import stat

from shared.places import TOP
from shared.report import want
from shared.server import Server
from shared.wanted import KEY, PUT, done, found, row

EXAMPLE = os.path.join(TOP, "examples", "host.json")
CONFIG = "etc/bikazery/host.json"
FOLDER_MODE = 0o755
SIGTERM_STATUS = -15


def contents(*path):
    with open(os.path.join(*path), "rb") as file:
        return file.read()


def lines_of(*path):
    return contents(*path).decode().splitlines()


def version():
    """The version of these sources."""
    return contents(TOP, "VERSION").decode().strip()


def modes_below(folder):
    """The mode of each file and of each folder below a folder, by their paths."""
    files, folders = {}, {}
    for place, names, others in os.walk(folder):
        for kept, here in (folders, names), (files, others):
            for name in here:
                path = os.path.join(place, name)
                kept[os.path.relpath(path, folder)] = stat.S_IMODE(os.stat(path).st_mode)
    return files, folders


def shown_modes(modes):
    return ", ".join(f"{path} {mode:o}" for path, mode in sorted(modes.items())) or "none"


def check_unit(unit, prefix, sysconfdir, number):
    """The unit has its paths and the version, each once, and no word that was to be filled in."""
    lines = lines_of(unit)
    for wanted in (f"Description=Bikazery {number}, a host of many virtual etcd clusters",
                   f"ExecStart={prefix}/bin/etcd_host", f"StandardInput=file:{sysconfdir}/bikazery/host.json"):
        want(lines.count(wanted) == 1, f"the unit has no line {wanted}")
    left = [line for line in lines if re.search("@[A-Z]+@", line)]
    want(not left, f"the unit has {left}")


def check_serves(program, config):
    """Each tenant of a configuration's file is put to and read, at a free port; SIGTERM ends the program as the unit says."""
    with open(config, encoding="utf-8") as file:
        given = json.load(file)
    with Server(program, {**given, "listen": "127.0.0.1:0"}) as server:
        for tenant in given["tenants"]:
            name, cluster = tenant["name"], tenant["cluster_id"]
            with server.connect() as one:
                one.expect(name, "kv/put", PUT, done(2, cluster))
                one.expect(name, "kv/range", KEY, found(row("YQ==", 2, 2, "MQ==", 1), 2, cluster))
        server.child.terminate()
        told, status = server.end()
        want((told, status) == (b"", SIGTERM_STATUS), f"SIGTERM ends it with {status} after {told!r}")
