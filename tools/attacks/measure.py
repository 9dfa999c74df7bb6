"""One attack against a server of its own: the other tenant alone and beside it, memory, and what is given back."""
import contextlib
import multiprocessing
import time
from typing import NamedTuple

from attacks.beside import Neighbour, Times
from attacks.host import Held, Host
from shared.report import Wrong
from shared.wanted import WATCHES

# What an attack may take beyond its seconds, and when afterwards it is looked at what is left.
PATIENCE, AFTER, LOOK = 20, 1, 0.05


class Outcome(NamedTuple):
    """What came of an attack. `alone` and `beside` are the other tenant's times, `idle` is the part of all processors that
    nobody used beside, `slots` are the attacked one's watches."""

    did: str
    alone: Times
    beside: Times
    idle: float
    before: Held
    peak: int
    after: Held
    slots: int


class Attacker:
    """The attacking process. It waits until it is told to begin, so that making it takes nothing of the time beside it, and
    with its end all of its connections end."""

    def __init__(self, attack, place, seconds, count):
        fork = multiprocessing.get_context("fork")
        self.seconds = seconds
        self.here, there = fork.Pipe()
        self.process = fork.Process(target=attack_when_told, args=(there, attack, place, seconds, count), daemon=True)
        self.process.start()

    def __enter__(self):
        return self

    def __exit__(self, *_):
        self.process.kill()
        self.process.join()

    def begin(self):
        self.here.send(True)

    def did(self):
        """What it did, once it has ended."""
        if not self.here.poll(self.seconds + PATIENCE):
            raise Wrong(f"the attack did not end within {self.seconds + PATIENCE} seconds")
        done, fault = self.here.recv()
        if fault:
            raise Wrong(f"the attack: {fault}")
        self.process.join(PATIENCE)
        return done


def attack_when_told(there, attack, place, seconds, count):
    """Attacks, and tells what was done, or what is wrong."""
    there.recv()
    try:
        there.send((attack.make(place, seconds, count), None))
    except (Wrong, OSError) as fault:
        there.send((None, f"{type(fault).__name__}: {fault}"))


def held_after(host, before, is_given_back, seconds):
    """What the host holds so many seconds after an attack, or sooner where it has given back all."""
    until = time.monotonic() + seconds
    while not is_given_back(before, held := host.held()) and time.monotonic() < until:
        time.sleep(LOOK)
    return held


def slots_after(host, seconds):
    """How many watches the attacked tenant takes again within so many seconds."""
    until = time.monotonic() + seconds
    while (slots := host.watches_taken()) != WATCHES and time.monotonic() < until:
        time.sleep(LOOK)
    return slots


def processor_time():
    """How long all processors were idle since the machine began, and how long they were anything, in the system's ticks."""
    with open("/proc/stat", encoding="ascii") as file:
        ticks = [int(word) for word in file.readline().split()[1:9]]
    return ticks[3] + ticks[4], sum(ticks)


def measured(program, attack, count, seconds, seconds_alone, is_given_back=lambda before, after: False, after_it=AFTER, fixed=None):
    """The outcome of an attack of so many seconds. It need not be waited for what is given back already."""
    with contextlib.ExitStack() as stack:
        host = stack.enter_context(Host(program, attack.workers))
        attack.before(host.attacked, count)
        attacker = stack.enter_context(Attacker(attack, host.attacked, seconds, count))
        neighbour = stack.enter_context(Neighbour(host.other, fixed))
        alone = neighbour.measured(seconds_alone)
        if attack.descriptors:
            host.leave_descriptors(attack.descriptors)
        before = host.held()
        host.forget_peak()
        began = processor_time()
        attacker.begin()
        beside = neighbour.measured(seconds)
        idle, whole = (now - then for now, then in zip(processor_time(), began))
        did = attacker.did()
        after, peak = held_after(host, before, is_given_back, after_it), host.peak()
        host.look()
        return Outcome(did, alone, beside, idle / max(1, whole), before, peak, after, slots_after(host, after_it))
