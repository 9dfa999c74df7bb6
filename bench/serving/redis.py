"""Debian's Redis, as a store without HTTP, JSON, revisions or watches: what a bare protocol does on this machine."""
import csv
import io
import subprocess
import tempfile
import time

from shared.http_client import SECONDS
from shared.load import KEYS, VALUE, WRK_THREADS, Load
from shared.process import Process, found, free_port, listens
from shared.report import Wrong, want

# As long as the other stores' keys; the benchmark puts twelve digits there.
KEY = "key/__rand_int__"
COMMANDS = {"puts": ["SET", KEY, VALUE.decode()], "reads": ["GET", KEY]}
# So many calls tell about how many make a second.
TRIAL = 10_000


class Redis(Process):
    """redis-server with nothing on a disk, and its own benchmark, which sends no call before the last one's answer."""

    who = "redis"

    def __init__(self):
        self.port, self.rates = free_port(), {}
        words = [found("redis-server"), "--port", str(self.port), "--bind", "127.0.0.1", "--save", "", "--appendonly", "no"]
        folder = tempfile.mkdtemp(prefix="redis.")
        super().__init__(words, folder, stdin=subprocess.DEVNULL, stdout=subprocess.DEVNULL, cwd=folder)

    def begin(self):
        last = time.monotonic() + SECONDS
        while not listens(self.port):
            want(self.child.poll() is None and time.monotonic() < last, "redis does not listen")
            time.sleep(0.05)

    def rate(self, kind, connections, calls):
        """Calls a second, of so many calls."""
        words = [found("redis-benchmark"), "-p", str(self.port), "-c", str(connections), "-n", str(calls), "-r", str(KEYS)]
        words += ["--threads", str(min(WRK_THREADS, connections)), "--csv", *COMMANDS[kind]]
        ran = subprocess.run(words, capture_output=True, text=True, check=False)
        rows = list(csv.DictReader(io.StringIO(ran.stdout)))
        if ran.returncode or len(rows) != 1:
            raise Wrong(f"redis-benchmark ends with {ran.returncode}: {ran.stdout[-200:]} {ran.stderr[-200:]}")
        return float(rows[0]["rps"])

    def load(self, kind, connections, seconds):
        """A load of about so many seconds."""
        if (kind, connections) not in self.rates:
            self.rates[kind, connections] = self.rate(kind, connections, TRIAL)
        calls = round(self.rates[kind, connections] * seconds)
        rate = self.rates[kind, connections] = self.rate(kind, connections, calls)
        return Load(calls, calls / rate)
