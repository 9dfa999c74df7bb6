"""The allocator that refuses a program's allocations, and runs that each refuse another one."""
import os
import subprocess
import tempfile
from concurrent.futures import ThreadPoolExecutor

from shared.places import TOP
from shared.report import Wrong

SOURCE = os.path.join(TOP, "tests", "refuse", "refuse.c")
AT_A_TIME = 2
BATCH = 16
MOST = 100_000


class Refuser:
    """The allocator, in a folder of its own with the marks of the runs."""

    def __init__(self):
        self.folder = tempfile.TemporaryDirectory()
        self.library = self.file("refuse.so")
        subprocess.run(["cc", "-shared", "-fPIC", "-O1", "-o", self.library, SOURCE, "-ldl"], check=True)

    def __enter__(self):
        return self

    def __exit__(self, *_):
        self.folder.cleanup()

    def file(self, name):
        return os.path.join(self.folder.name, name)

    def counted(self, run):
        """How many allocations a run makes, which is given variables to run under."""
        mark = self.file("counted")
        run({"LD_PRELOAD": self.library, "REFUSE": "0", "COUNTED": mark})
        with open(mark, encoding="ascii") as file:
            return int(file.read())

    def refused(self, number, run):
        """The number and what a run gives whose allocation of that number is refused; None if it makes fewer."""
        mark = self.file(f"refused.{number}")
        told = run({"LD_PRELOAD": self.library, "REFUSE": str(number), "REFUSED": mark})
        if not os.path.exists(mark):
            return None
        os.remove(mark)
        return number, told

    def runs(self, run):
        """The number of each run and what it gives, until one refuses none, as one has to. A run is given variables to run
        under."""
        with ThreadPoolExecutor(AT_A_TIME) as workers:
            for first in range(1, MOST, BATCH):
                numbers = range(first, first + BATCH)
                for told in workers.map(lambda number: self.refused(number, run), numbers):
                    if told is None:
                        return
                    yield told
        raise Wrong(f"{MOST} allocations are not the last")
