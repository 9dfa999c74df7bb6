"""How long each crate took to be proved, which is kept below out/, and how long is left by that."""
import json
import os
import time

from building.crate_list import sum_of
from shared.places import TOP

KEPT = os.path.join(TOP, "out", "prove-times.json")
PARTS = ["src", "specs", "proofs"]
MINUTE = 60


class Times:
    """The times of a run's crates: of those that ended, what they took, and of the others, what they took last."""

    def __init__(self, names, lower, lanes):
        self.lower, self.lanes = lower, lanes
        self.kept = read_kept()
        self.sums = {name: sum_of(name, lower, PARTS) for name in names}
        self.unfinished, self.begun = set(names), {}
        # A crate that is as it was when it was proved takes next to nothing now, which says nothing of its next proof.
        self.unchanged = {name for name in names if name in self.kept and self.kept[name]["sum"] == self.sums[name] and has_out(name)}

    def begin(self, name):
        self.begun[name] = time.monotonic()

    def end(self, name, seconds, is_proved):
        self.unfinished.discard(name)
        if is_proved and name not in self.unchanged:
            self.kept[name] = {"seconds": round(seconds), "sum": self.sums[name]}
            os.makedirs(os.path.dirname(KEPT), exist_ok=True)
            with open(KEPT, "w", encoding="utf-8") as file:
                json.dump(self.kept, file, indent=1)

    def left(self):
        """What a line says of the time that is left: nothing where a crate was never proved, or none is left."""
        missing = self.unfinished - self.kept.keys()
        if missing or not self.unfinished:
            return ""
        # Crates that stand on each other follow each other; else as many are proved at a time as there are lanes.
        own = {name: self.left_of(name) for name in self.unfinished}
        longest = max(self.chain(name, own, {}) for name in self.unfinished)
        seconds = max(longest, sum(own.values()) / self.lanes)
        return f"; about {seconds:.0f} seconds left by the last run" if seconds < 2 * MINUTE else \
            f"; about {seconds / MINUTE:.0f} minutes left by the last run"

    def left_of(self, name):
        """What is left of one crate."""
        if name in self.unchanged:
            return 0
        spent = time.monotonic() - self.begun[name] if name in self.begun else 0
        return max(0, self.kept[name]["seconds"] - spent)

    def chain(self, name, own, known):
        """How long it is until a crate is proved, if none waits for a processor."""
        if name not in own:
            return 0
        if name not in known:
            known[name] = own[name] + max((self.chain(low, own, known) for low in self.lower[name]), default=0)
        return known[name]


def has_out(name):
    return os.path.isdir(os.path.join(TOP, "crates", name, "out"))


def read_kept():
    """What was kept, or nothing where that can't be read."""
    try:
        with open(KEPT, encoding="utf-8") as file:
            return json.load(file)
    except (OSError, ValueError):
        return {}
