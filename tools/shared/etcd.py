"""A real etcd of one member, which is asked through its JSON gateway."""
import os
import shutil
import subprocess
import tempfile
import time

from shared.http_client import SECONDS, Connection, read_response, request
from shared.process import Process, free_ports
from shared.report import Wrong
from shared.store_calls import Place

MEMORY_FILES = "/dev/shm"
# The log alone reserves 64 million bytes a file.
ROOM_WANTED = 1 << 30
NO_FSYNC = "--unsafe-no-fsync"
READY = request("/v3/kv/range", '{"key":"Zm9v"}')


def installed_version():
    """The version of the etcd that is installed, or None."""
    if shutil.which("etcd") is None:
        return None
    told = subprocess.run(["etcd", "--version"], capture_output=True, text=True, timeout=SECONDS).stdout
    return told.split("\n", 1)[0].removeprefix("etcd Version: ")


def has_no_fsync():
    """Whether this etcd can be told to skip fsync. Some versions can and don't say so in their help."""
    return subprocess.run(["etcd", NO_FSYNC, "--version"], capture_output=True, timeout=SECONDS).returncode == 0


def lacks_memory_files():
    """Why etcd's files can't lie in memory, or None."""
    with open("/proc/mounts", encoding="utf-8") as mounts:
        kinds = [line.split()[2] for line in mounts if line.split()[1] == MEMORY_FILES]
    if kinds[-1:] != ["tmpfs"]:
        return f"{MEMORY_FILES} is no memory file system"
    if shutil.disk_usage(MEMORY_FILES).free < ROOM_WANTED:
        return f"{MEMORY_FILES} has less than {ROOM_WANTED:,} bytes free"
    return None


class Etcd(Process):
    """etcd with its settings as they come but for some words, and its files in memory where no folder is named for them.

    It has a connection over which it is asked.
    """

    who = "etcd"

    def __init__(self, folder=MEMORY_FILES, *words):
        self.port, peer_port = free_ports(2)
        self.place, self.connection = Place(self.who, self.port, "/v3/"), None
        own = tempfile.mkdtemp(prefix="etcd.", dir=folder)
        client, peer = f"http://127.0.0.1:{self.port}", f"http://127.0.0.1:{peer_port}"
        words = ["etcd", "--name", "one", "--data-dir", os.path.join(own, "data"), *words]
        words += ["--listen-client-urls", client, "--advertise-client-urls", client]
        words += ["--listen-peer-urls", peer, "--initial-advertise-peer-urls", peer]
        words += ["--initial-cluster", f"one={peer}"]
        with open(os.path.join(own, "log"), "wb") as log:
            how = {"stdin": subprocess.DEVNULL, "stdout": log, "stderr": log, "env": {"PATH": os.environ["PATH"]}}
            super().__init__(words, own, **how)

    def begin(self):
        """Waits until it answers a range."""
        last = time.monotonic() + SECONDS
        while not self.is_ready():
            if self.child.poll() is not None or time.monotonic() > last:
                with open(self.file("log"), "rb") as log:
                    raise Wrong(f"etcd didn't begin to answer: {log.read()[-1000:].decode(errors='replace')}")
            time.sleep(0.1)

    def is_ready(self):
        try:
            self.connection = Connection(self.port)
            if read_response(self.connection.ask(READY))[0] == 200:
                return True
            self.connection.close()
        except (Wrong, OSError):
            pass
        return False

    def __exit__(self, *_):
        if self.connection:
            self.connection.close()
        super().__exit__()

    def file(self, *names):
        return os.path.join(self.folder, *names)

    def answer(self, calls):
        """Makes the calls, one after another. Gives back a status and a body for each, and the seconds that they took."""
        responses, seconds = ask_all(self.connection, self.place, calls)
        self.last_response = responses[-1]
        return [read_response(response) for response in responses], seconds

    def memory(self):
        """Resident bytes, and those of the files: the database and the log."""
        files = [os.path.getsize(self.file("data", "member", "snap", "db")), 0]
        with os.scandir(self.file("data", "member", "wal")) as logs:
            files[1] = sum(log.stat().st_size for log in logs)
        return {**super().memory(), "database": files[0], "log": files[1]}


def ask_all(connection, place, calls):
    """The responses to some calls, one after another, and the seconds that they took."""
    messages = [place.message(call.name, call.body) for call in calls]
    started = time.perf_counter()
    responses = [connection.ask(message) for message in messages]
    return responses, time.perf_counter() - started
