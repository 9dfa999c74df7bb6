"""The server program while it runs, and its configurations."""
import json
import os
import re
import subprocess

from shared.http_client import SECONDS, Connection, Watch, shown, watch_request
from shared.process import Process
from shared.report import want


def configuration(tenants, **members):
    return {"listen": "127.0.0.1:0", "tenants": tenants, **members}


def tenant_of(name, quota=1024, **members):
    return {"name": name, "cluster_id": "7", "quota": quota, **members}


def run_to_end(program, given, *words, variables=None):
    """What becomes of the program that is given such a configuration, in bytes, and ends by itself; it runs under some more
    variables if there are any."""
    variables = {**os.environ, **(variables or {})}
    return subprocess.run([program, *words], input=given, capture_output=True, timeout=SECONDS, check=False, env=variables)


class Server(Process):
    """The program, serving; it runs under some more variables if there are any. Its port is known, and the operator's."""

    who = "the server"

    def __init__(self, program, config, variables=None):
        self.config = config
        variables = {**os.environ, **(variables or {})}
        super().__init__([program], keeps_errors=True, stdin=subprocess.PIPE, stdout=subprocess.PIPE, bufsize=0, env=variables)

    def begin(self):
        with self.stdin:
            self.stdin.write(json.dumps(self.config).encode())
        self.port = self.port_told("listening on")
        self.operator = self.port_told("operator on") if "operator" in self.config else None

    def port_told(self, word):
        """The port on this machine that its next line tells."""
        line = self.line(SECONDS)
        place = re.fullmatch(rb"%s 127\.0\.0\.1:(\d+)\n" % word.encode(), line)
        want(place, f"{self.who} prints {shown(line)}, and tells {shown(self.told_errors())}")
        return int(place[1])

    def connect(self):
        return Connection(self.port)

    def watch(self, tenant, create, window=None):
        return Watch(self.port, watch_request(tenant, create), window)

    def look(self):
        status = self.child.poll()
        want(status is None, f"{self.who} ended with {status}: {shown(self.told_errors())}")

    def end(self):
        """What it prints to its end, and its status."""
        status = self.wait(SECONDS)
        return self.got + self.stdout.read(), status
