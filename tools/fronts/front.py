"""A host as the examples have in mind, and an nginx with TLS and passwords in front of it, with what its clients know."""
import base64
import json
import os
import re
import ssl
import subprocess
import textwrap

from shared.http_client import SECONDS, Connection, Watch, request, shown, watch_request
from shared.nginx import Nginx, copied, replace
from shared.places import EXAMPLES
from shared.process import free_port
from shared.report import want
from shared.server import Server
from shared.wanted import ALL, PUT

CLUSTERS = {"one": 7, "two": 8}


def basic(user, secret):
    return "authorization: Basic " + base64.b64encode(f"{user}:{secret}".encode()).decode()


def want_asked(told):
    """nginx asks for a password."""
    asked = told.status == 401 and told.values("www-authenticate") == ['Basic realm="tenant"']
    want(asked, f"{told.status} {told.lines} {shown(told.body)}")


def commands(example):
    """The commands of an example's README.md that make the certificates and the passwords."""
    with open(os.path.join(EXAMPLES, example, "README.md"), encoding="utf-8") as file:
        block = re.search(r"^    openssl req .*\n(?:    .*\n)+", file.read(), re.MULTILINE)
    want(block, "README.md has no commands")
    return textwrap.dedent(block[0])


def host_of(program, **members):
    """The server with the tenants of the configuration of `make run`, which the examples have in mind."""
    with open(os.path.join(EXAMPLES, "host.json"), encoding="utf-8") as file:
        return Server(program, {**json.load(file), "listen": "127.0.0.1:0", **members})


class Front:
    """An nginx by an example in front of a host, with what its clients know; other examples may lie beside it."""

    def __init__(self, host, folder, example, *beside, trusted="certificate.pem", name="localhost"):
        self.host, self.folder, self.port = host, copied(folder, example, *beside), free_port()
        self.name = name
        self.make_secrets(example)
        conf = self.file("nginx.conf")
        replace(conf, "127.0.0.1:8443", f"127.0.0.1:{self.port}")
        replace(conf, "127.0.0.1:2379", f"127.0.0.1:{host.port}")
        self.secrets = {name: self.secret_of(name) for name in CLUSTERS}
        self.tls = ssl.create_default_context(cafile=self.file(trusted))
        self.nginx = Nginx(self.folder, self.port)

    def __enter__(self):
        return self

    def __exit__(self, *_):
        self.nginx.__exit__()

    def file(self, name):
        return os.path.join(self.folder, name)

    def make_secrets(self, example):
        ran = subprocess.run(["bash", "-e", "-c", commands(example)], cwd=self.folder, stdin=subprocess.DEVNULL,
                             capture_output=True, text=True, timeout=SECONDS, check=False)
        want(ran.returncode == 0, f"the commands end with {ran.returncode}: {ran.stderr}")

    def secret_of(self, name):
        with open(self.file(name + ".secret"), encoding="ascii") as file:
            return file.read().strip()

    def passwords(self, name):
        return os.path.join(self.folder, "passwords", name)

    def right(self, name):
        return basic(name, self.secrets[name])

    def wrap(self, one):
        return self.tls.wrap_socket(one, server_hostname=self.name)

    def connect(self):
        return Connection(self.port, wrap=self.wrap)

    def watch(self, name):
        return Watch(self.port, watch_request(name, f"{{{ALL}}}", [self.right(name)]), wrap=self.wrap)

    def ask(self, target, lines, body=PUT):
        """The answer to one request, by a connection of its own."""
        with self.connect() as client:
            client.send(request(target, body, lines))
            return client.answer()

    def state(self, name):
        """The tenant's revision and all that it has, by the host itself."""
        with self.host.connect() as client:
            told = client.call(name, "kv/range", f"{{{ALL}}}")
        return int(json.loads(told.body)["header"]["revision"]), told.body
