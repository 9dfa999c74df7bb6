"""What check-examples plays its examples on: programs whose lines are read as they come, a relay that can be cut, a
host that answers by a script, and a stage that ends them all.
"""
import contextlib
import json
import os
import signal
import socket
import subprocess
import sys
import threading
import time

from shared.http_client import SECONDS, chunk
from shared.places import TOP
from shared.process import Process
from shared.report import want
from shared.server import Server, configuration, tenant_of
from shared.wanted import WATCHES

CLIENTS = os.path.join(TOP, "examples", "clients")
sys.path.insert(0, CLIENTS)

from gateway import Refused

QUOTA = 4_096
TENANTS = 60


def wait_until(holds, otherwise, seconds=SECONDS):
    last = time.monotonic() + seconds
    while not holds():
        want(time.monotonic() < last, otherwise)
        time.sleep(0.02)


def want_open_watches(gateway, count):
    """A tenant has so many watches, once those that were closed just now are dropped."""
    wait_until(lambda: free_watches(gateway) == WATCHES - count, "a watch is left over", 3)


def free_watches(gateway):
    with contextlib.ExitStack() as opened:
        for count in range(WATCHES):
            try:
                opened.enter_context(gateway.watch(key=b"a"))
            except Refused:
                return count
        return WATCHES


class Run(Process):
    """An example while it runs, in a session of its own. Of each line it has the moment at which it came."""

    def __init__(self, name, *arguments):
        path = os.path.join(CLIENTS, name)
        command = [sys.executable, path] if name.endswith(".py") else ["bash", path]
        self.who, self.lines, self.seen, self.come, self.moment = name, [], 0, threading.Condition(), None
        self.reader = threading.Thread(target=self.read, daemon=True)
        super().__init__([*command, *map(str, arguments)], keeps_errors=True, stdout=subprocess.PIPE, start_new_session=True)

    def begin(self):
        self.reader.start()

    def read(self):
        for line in self.stdout:
            with self.come:
                self.lines.append((time.monotonic(), line.decode().rstrip("\n")))
                self.come.notify_all()

    def stop(self):
        super().stop()
        self.reader.join()

    def told_line(self, seconds=SECONDS):
        """The next line; its moment is kept."""
        with self.come:
            come = self.come.wait_for(lambda: len(self.lines) > self.seen, seconds)
            want(come, f"{self.who} prints nothing in {seconds} seconds; on standard error: {self.told_errors()[-600:]}")
            self.moment, line = self.lines[self.seen]
            self.seen += 1
            return line

    def expect(self, *lines, seconds=SECONDS):
        for wanted in lines:
            line = self.told_line(seconds)
            want(line == wanted, f"{self.who} prints {line!r}, wanted {wanted!r}")

    def number_after(self, word, seconds=SECONDS):
        """The number of the next line, which is this word and a number."""
        line = self.told_line(seconds)
        first, _, number = line.partition(" ")
        want(first == word and number.isdecimal(), f"{self.who} prints {line!r}, wanted {word!r} and a number")
        return int(number)

    def expect_quiet(self, seconds):
        with self.come:
            come = self.come.wait_for(lambda: len(self.lines) > self.seen, seconds)
            want(not come, f"{self.who} prints {self.lines[self.seen:]}")

    def rest(self):
        """The lines that are left, when it has ended."""
        self.wait(SECONDS)
        self.reader.join(SECONDS)
        return [line for _, line in self.lines[self.seen:]]

    def kill(self, number=signal.SIGKILL):
        """Sends a signal to the program and what it started."""
        self.send(number)
        return time.monotonic()

    def expect_end(self, status, seconds=SECONDS):
        told = self.wait(seconds)
        want(told == status, f"{self.who} ends with {told}, wanted {status}: {self.told_errors()[-600:]}")
        self.reader.join(SECONDS)
        want(len(self.lines) == self.seen, f"{self.who} prints {self.lines[self.seen:]}")


class Relay(contextlib.AbstractContextManager):
    """A relay to a port. What is asked through it is kept with its moment. It can be cut: then all its connections end,
    and new ones end at once. It can be silent: then it takes everything and passes nothing on."""

    def __init__(self, port):
        self.behind, self.is_cut, self.turn, self.swallowed = port, False, threading.Lock(), None
        self.passes = threading.Event()
        self.passes.set()
        self.tried, self.asked, self.pairs, self.dropped = 0, [], set(), set()
        self.listener = socket.create_server(("127.0.0.1", 0))
        self.port = self.listener.getsockname()[1]
        threading.Thread(target=self.accept, daemon=True).start()

    def __exit__(self, *_):
        end(self.listener)
        self.listener.close()
        self.passes.set()
        self.cut()

    def accept(self):
        with contextlib.suppress(OSError):
            while True:
                client, _ = self.listener.accept()
                self.tried += 1
                threading.Thread(target=self.serve, args=[client], daemon=True).start()

    def serve(self, client):
        with client, contextlib.suppress(OSError):
            with self.turn:
                if self.is_cut:
                    return
                host = socket.create_connection(("127.0.0.1", self.behind))
                self.pairs.add((client, host))
            with host:
                asking = threading.Thread(target=self.pass_on, args=[client, host, True], daemon=True)
                asking.start()
                self.pass_on(host, client, False)
                asking.join()
                self.pairs.discard((client, host))

    def pass_on(self, source, sink, is_asked):
        with contextlib.suppress(OSError):
            while data := source.recv(65_536):
                if is_asked:
                    self.asked.append((time.monotonic(), data))
                    if self.swallowed and self.swallowed in data:
                        self.swallowed = None
                        self.dropped.add(sink)
                elif source in self.dropped:
                    break
                self.passes.wait()
                sink.sendall(data)
        end(source, sink)

    def cut(self):
        with self.turn:
            self.is_cut = True
            for pair in list(self.pairs):
                end(*pair)

    def mend(self, port=None):
        """Lets new connections in again, to another port if one is named."""
        with self.turn:
            self.behind, self.is_cut = port or self.behind, False

    def fall_silent(self):
        self.passes.clear()

    def swallow_answer(self, text):
        """Of the next request that has this text the answer is lost, with the connection."""
        self.swallowed = text

    def moments_of(self, call):
        """The moments at which a call was asked."""
        return [moment for moment, data in list(self.asked) if f"/v3/{call} ".encode() in data]


def end(*sockets):
    for one in sockets:
        with contextlib.suppress(OSError):
            one.shutdown(socket.SHUT_RDWR)


class Scripted(contextlib.AbstractContextManager):
    """A host that answers by a script: each request by a status with a text, or by the pieces of a watch, behind which
    it breaks off. What it was asked is kept. Behind the script's end it answers no more."""

    def __init__(self, answers):
        self.answers, self.asked = iter(answers), []
        self.turn, self.over = threading.Lock(), threading.Event()
        self.listener = socket.create_server(("127.0.0.1", 0))
        self.port = self.listener.getsockname()[1]
        threading.Thread(target=self.accept, daemon=True).start()

    def __exit__(self, *_):
        self.over.set()
        end(self.listener)
        self.listener.close()

    def accept(self):
        with contextlib.suppress(OSError):
            while True:
                client, _ = self.listener.accept()
                threading.Thread(target=self.serve_all, args=[client], daemon=True).start()

    def serve_all(self, client):
        with client, client.makefile("rb") as lines, contextlib.suppress(OSError):
            while self.serve(client, lines):
                pass

    def serve(self, client, lines):
        """Serves one request, and tells whether the connection goes on."""
        head = list(iter(lines.readline, b"\r\n")) if lines.peek(1) else []
        if not head:
            return False
        length = next(int(line.split()[1]) for line in head if line.lower().startswith(b"content-length:"))
        with self.turn:
            self.asked.append((head[0].split()[1].decode(), json.loads(lines.read(length))))
            answer = next(self.answers, None)
        if answer is None:
            self.over.wait()
        elif isinstance(answer, list):
            pieces = b"".join(map(chunk, answer))
            client.sendall(b"HTTP/1.1 200 OK\r\ntransfer-encoding: chunked\r\n\r\n" + pieces)
        else:
            status, text = answer
            client.sendall(b"HTTP/1.1 %d X\r\ncontent-length: %d\r\n\r\n%s" % (status, len(text), text))
        return not isinstance(answer, list)


class Stage(contextlib.ExitStack):
    """What one check has: a tenant that no other check has, and what it starts, which ends with it."""

    def __init__(self, program, host, tenant):
        super().__init__()
        self.program, self.host, self.tenant = program, host, tenant

    def url(self, port=None):
        return f"http://127.0.0.1:{port or self.host.port}/t/{self.tenant}"

    def run(self, name, *arguments):
        return self.enter_context(Run(name, *arguments))

    def relay(self):
        return self.enter_context(Relay(self.host.port))

    def scripted(self, *answers):
        return self.enter_context(Scripted(answers))

    def another_host(self, **members):
        """A host that has just begun, with an empty tenant of the same name."""
        return self.enter_context(Server(self.program, configuration([{**tenant_of(self.tenant, QUOTA), **members}])))


def tenants():
    return [f"t{number}" for number in range(TENANTS)]


def host_of_all(program):
    return Server(program, configuration([tenant_of(name, QUOTA) for name in tenants()], segments=QUOTA))
