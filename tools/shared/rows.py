"""The rows of tests/rows that can be asked of a running server."""
import os
import re

from shared.http_client import request, shown
from shared.places import ROWS
from shared.report import want


class Row:
    """The calls of a row with their answers, and the tenants that it adds, under names of their own."""

    def __init__(self, name, number):
        self.name, self.tenants, self.calls = name, [], []
        with open(os.path.join(ROWS, name + ".script"), "rb") as file:
            lines = file.read().splitlines()
        with open(os.path.join(ROWS, name + ".answers"), "rb") as file:
            answers = file.read().splitlines()
        for line, answer in zip(lines, answers):
            word, *fields = line.split(b" ", 3)
            if word == b"add" and answer == b"ok":
                own = f"row{number}-{fields[0].decode()}"
                cluster, quota, first = b" ".join(fields[1:]).decode().split(" ")
                self.tenants.append({"name": own, "cluster_id": cluster, "quota": quota, "first": first})
            elif word == b"call":
                method, target, body = (fields + [b"", b""])[:3]
                target = re.sub(rb"^/t/(one|two)/", rb"/t/row%d-\1/" % number, target)
                self.calls.append((method.decode(), target.decode(), body, answer))

    def check(self, server):
        client = server.connect()
        for at, (method, target, body, wanted) in enumerate(self.calls, 1):
            client.send(request(target, body, method=method))
            told = client.answer(method)
            told.check_head()
            line = b"%d %s" % (told.status, told.body.removesuffix(b"\n"))
            want(without_left(line) == without_left(wanted), f"call {at}: {shown(line)}, wanted {shown(wanted)}")
            if told.values("connection") == ["close"]:
                client.close()
                client = server.connect()
        client.close()


def without_left(line):
    """An answer without the seconds that are left of a lease, which the clock lowers."""
    return re.sub(rb'"TTL":"[0-9]+","grantedTTL"', b'"grantedTTL"', line)


def rows():
    """The rows whose scripts are adds and then calls, none of them of a watch."""
    for number, file in enumerate(sorted(os.listdir(ROWS))):
        name = file.removesuffix(".script")
        if name == file:
            continue
        with open(os.path.join(ROWS, file), "rb") as script:
            lines = script.read()
        if re.fullmatch(rb"(add (one|two) [^\n]*\n)+(call [A-Z]+ /[^\n]*\n?)+", lines) and b"/v3/watch" not in lines:
            yield Row(name, number)
