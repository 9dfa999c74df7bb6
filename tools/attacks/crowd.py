"""Connections that are rude: they send as they like, read what they like, and mind nothing that the server does."""
import selectors
import socket
import struct
import time

PIECE = 1 << 20
# A receive buffer as small as there is: what isn't read stays with the server.
NARROW = 4_096
LOOK = 0.05
# Makes a close tell the other end by a reset; no port is kept for a while.
RESET = struct.pack("ii", 1, 0)
READ, WRITE = selectors.EVENT_READ, selectors.EVENT_WRITE


class Rude:
    """One connection. `left` is what it has not sent, `got` how many bytes it has read; it keeps none of them."""

    def __init__(self, place, data, window=None):
        self.data, self.left = memoryview(data), memoryview(data)
        self.sent = self.got = 0
        self.socket = socket.socket()
        self.socket.setsockopt(socket.SOL_SOCKET, socket.SO_LINGER, RESET)
        if window:
            self.socket.setsockopt(socket.SOL_SOCKET, socket.SO_RCVBUF, window)
        self.socket.setblocking(False)
        self.socket.connect_ex(("127.0.0.1", place.port))

    def is_open(self):
        return self.socket.fileno() >= 0

    def close(self):
        self.socket.close()

    def push(self, most=None):
        """Sends what is left, or so many bytes of it, as far as the server takes it."""
        try:
            count = self.socket.send(self.left[:most])
        except BlockingIOError:
            return
        except OSError:
            self.close()
            return
        self.left, self.sent = self.left[count:], self.sent + count

    def read_away(self, into):
        """Reads what has come, into a buffer whose bytes nobody looks at."""
        try:
            count = self.socket.recv_into(into)
        except BlockingIOError:
            return
        except OSError:
            count = 0
        if count == 0:
            self.close()
        self.got += count

    def wishes(self, reads):
        """What it waits for."""
        return (WRITE if self.left else 0) | (READ if reads else 0)


class Crowd:
    """The connections of one attack, which goes on for so many seconds."""

    def __init__(self, place, seconds):
        self.place, self.until, self.all = place, time.monotonic() + seconds, []

    def goes_on(self):
        return time.monotonic() < self.until

    def enter(self, data, window=None):
        self.all.append(Rude(self.place, data, window))
        return self.all[-1]

    def open(self):
        return [one for one in self.all if one.is_open()]

    def reached(self):
        """Those of which the server's end has taken a byte."""
        return sum(one.sent > 0 for one in self.all)

    def sent(self):
        return sum(one.sent for one in self.all)

    def got(self):
        return sum(one.got for one in self.all)

    def send_all(self):
        """Sends all that is left, as long as the crowd goes on, and reads nothing."""
        self.turn(reads=False, is_over=lambda: not any(one.left for one in self.open()))

    def read_on(self, again=False):
        """Sends, and reads all that comes; who is answered asks once more if it is to."""
        self.turn(reads=True, again=again)

    def stay(self):
        """Does nothing more."""
        time.sleep(max(0, self.until - time.monotonic()))

    def drip(self, pause):
        """Each sends one byte more after each pause."""
        while self.goes_on():
            for one in self.open():
                one.push(1)
            time.sleep(pause)

    def turn(self, reads, again=False, is_over=lambda: False):
        into = bytearray(PIECE)
        with selectors.DefaultSelector() as poll:
            for one in self.open():
                if wishes := one.wishes(reads):
                    poll.register(one.socket, wishes, one)
            while self.goes_on() and poll.get_map() and not is_over():
                for chosen, ready in poll.select(LOOK):
                    serve(chosen.data, ready, into, again)
                    follow(poll, chosen, chosen.data.wishes(reads))


def serve(one, ready, into, again):
    """Reads and sends what one connection may."""
    if ready & READ:
        before = one.got
        one.read_away(into)
        if again and one.got > before and not one.left:
            one.left = one.data
    if ready & WRITE and one.is_open():
        one.push()


def follow(poll, chosen, wishes):
    """What one connection waits for from now on."""
    if not wishes or not chosen.data.is_open():
        poll.unregister(chosen.fileobj)
    elif wishes != chosen.events:
        poll.modify(chosen.fileobj, wishes, chosen.data)
