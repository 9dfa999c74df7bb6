"""The programs that measurements drive beside etcd: the proved server, and an nginx of one answer."""
import os
import tempfile

from shared.http_client import Connection, read_response
from shared.nginx import Nginx
from shared.process import free_port
from shared.script import SEGMENT_CELLS
from shared.server import Server, configuration, tenant_of
from shared.store_calls import Place

TENANTS = ["one", "two"]
NGINX = """\
worker_processes {workers};
pid {folder}/pid;
error_log {folder}/error.log;
events {{ worker_connections 1024; }}
http {{
    access_log off;
    default_type application/json;
    keepalive_requests 4000000000;
    keepalive_timeout 3600;
    client_body_temp_path {folder}/body;
    fastcgi_temp_path {folder}/fastcgi;
    proxy_temp_path {folder}/proxy;
    scgi_temp_path {folder}/scgi;
    uwsgi_temp_path {folder}/uwsgi;
    server {{
        listen 127.0.0.1:{port} backlog=1024;
        location / {{ return 200 '{body}'; }}
    }}
}}
"""


class Ours(Server):
    """The proved server, with tenants of one quota, and more members of its configuration if there are any."""

    who = "ours"

    def __init__(self, path, workers, quota, **members):
        segments = len(TENANTS) * -(-quota // SEGMENT_CELLS)
        tenants = [tenant_of(name, quota, cluster_id=str(number)) for number, name in enumerate(TENANTS, 7)]
        super().__init__(path, configuration(tenants, **{"segments": segments, "workers": workers, **members}))
        self.place, self.beside = (Place(self.who, self.port, f"/t/{name}/v3/") for name in TENANTS)

    def threads(self):
        return len(os.listdir(f"/proc/{self.child.pid}/task"))


class FixedAnswers(Nginx):
    """nginx, which answers every call at once by the same bytes."""

    def __init__(self, workers, body):
        folder, port = tempfile.mkdtemp(prefix="nginx."), free_port()
        self.place = Place(self.who, port, "/v3/")
        with open(os.path.join(folder, "nginx.conf"), "w", encoding="ascii") as file:
            file.write(NGINX.format(workers=workers, folder=folder, port=port, body=body))
        super().__init__(folder, port, folder=folder)


def answer_size(place):
    """The bytes of a put's answer."""
    with Connection(place.port) as connection:
        response = connection.ask(place.message("kv/put", b'{"key":"bm9uZQ==","value":"bm9uZQ=="}'))
        return len(read_response(response)[1])


def fixed_body(size):
    """JSON of so many bytes."""
    return '{"header":"' + "0" * (size - len('{"header":""}')) + '"}'
