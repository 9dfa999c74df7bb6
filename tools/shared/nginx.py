"""An nginx by the configuration of a folder, as that of an example's copy."""
import os
import shutil
import subprocess
import time

from shared.http_client import SECONDS
from shared.places import EXAMPLES
from shared.process import Process, found, listens
from shared.report import want


def copied(folder, *names):
    """Copies examples into a folder, beside each other as they are here, and tells where the first one is."""
    for name in names:
        shutil.copytree(os.path.join(EXAMPLES, name), os.path.join(folder, name))
    return os.path.join(folder, names[0])


def replace(file, old, new):
    """Puts something else in the place of what a file has."""
    with open(file, encoding="utf-8") as had:
        text = had.read()
    want(old in text, f"{file} has no {old}")
    with open(file, "w", encoding="utf-8") as has:
        has.write(text.replace(old, new))


class Nginx(Process):
    """nginx, serving by the nginx.conf of its home."""

    who = "nginx"
    patience = SECONDS

    def __init__(self, home, port, **how):
        self.home, self.port = home, port
        # Where root starts it, its workers have to be root too: only root can look into the folder.
        user = " user root;" if os.getuid() == 0 else ""
        with open(os.path.join(home, "told"), "wb") as told:
            words = self.command("-g", "daemon off;" + user)
            super().__init__(words, stdin=subprocess.DEVNULL, stdout=told, stderr=told, **how)

    def begin(self):
        self.until(self.listens, "nginx does not listen")

    def command(self, *options):
        return [found("nginx"), "-p", self.home, "-c", "nginx.conf", *options]

    def faults(self):
        """What it told of faults, at its start and since then."""
        told = b""
        for name in ["told", "error.log"]:
            path = os.path.join(self.home, name)
            if os.path.exists(path):
                with open(path, "rb") as file:
                    told += file.read()
        return told.decode(errors="replace")

    def listens(self):
        want(self.child.poll() is None, f"nginx ended: {self.faults()}")
        return listens(self.port)

    def until(self, true, fault, seconds=20):
        last = time.monotonic() + seconds
        while not true():
            want(time.monotonic() < last, f"{fault}: {self.faults()[-1000:]}")
            time.sleep(0.05)

    def reload(self):
        """Has it read its configuration again, and tells the status of that and what was told."""
        ran = subprocess.run(self.command("-s", "reload"), capture_output=True, text=True, timeout=SECONDS, check=False)
        return ran.returncode, ran.stderr

    def workers(self):
        """The processes that serve, those among them that only serve what they began before a reload."""
        with open(f"/proc/{self.child.pid}/task/{self.child.pid}/children", encoding="ascii") as file:
            return set(file.read().split())
