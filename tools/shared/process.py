"""Processes that commands start and end, and what the system says of one."""
import contextlib
import os
import select
import shutil
import signal
import socket
import subprocess
import tempfile
import time

from shared.report import Wrong, want

PIECE = 1 << 16
TICKS = os.sysconf("SC_CLK_TCK")
# The lowest bits of a clock's number that mean all threads of a process, to the nanosecond.
PROCESS_CLOCK = 2


class Process:
    """A program that was started, and that is ended where its use ends.

    It is killed; one with `patience`, in seconds, is asked to end first. Where it leads a session, what it started ends
    with it, and so does a folder of its own. What it tells on standard error may be kept.
    """

    who = "the program"
    patience = 0

    def __init__(self, words, folder=None, keeps_errors=False, **how):
        self.folder, self.leads, self.got = folder, how.get("start_new_session", False), b""
        if keeps_errors:
            how["stderr"] = self.errors = tempfile.TemporaryFile()
        self.child = self.stdin = self.stdout = None
        try:
            self.child = subprocess.Popen(words, **how)
            self.stdin, self.stdout = self.child.stdin, self.child.stdout
            self.begin()
        except BaseException:
            self.__exit__()
            raise

    def begin(self):
        """Waits until it does what it was started for; nothing as a rule."""

    def __enter__(self):
        return self

    def __exit__(self, *_):
        if self.child:
            self.stop()
            for stream in filter(None, [self.stdin, self.stdout, self.child.stderr]):
                # What is left for a program that has ended can't be written.
                with contextlib.suppress(OSError):
                    stream.close()
        if self.folder:
            shutil.rmtree(self.folder, ignore_errors=True)

    def stop(self):
        """Ends it, if it has not ended, and what it leads."""
        if self.patience and self.child.poll() is None:
            self.send(signal.SIGTERM)
            with contextlib.suppress(subprocess.TimeoutExpired):
                self.child.wait(self.patience)
        self.send(signal.SIGKILL)
        self.child.wait()

    def send(self, number):
        """Sends it a signal, and what it leads."""
        if not self.leads:
            self.child.send_signal(number)
            return
        with contextlib.suppress(ProcessLookupError):
            os.killpg(self.child.pid, number)

    def wait(self, seconds):
        """Its status, once it has ended by itself, which it does within so many seconds."""
        try:
            return self.child.wait(seconds)
        except subprocess.TimeoutExpired:
            raise Wrong(f"{self.who} does not end in {seconds} seconds") from None

    def piece(self, seconds):
        """Some of what it prints next, which comes within so many seconds; nothing where it prints no more."""
        if not select.select([self.stdout], [], [], seconds)[0]:
            raise Wrong(f"{self.who} prints nothing more in time")
        return self.stdout.read(PIECE)

    def line(self, seconds):
        """The next line that it prints, or what is left where it prints no more."""
        last = time.monotonic() + seconds
        while b"\n" not in self.got and (piece := self.piece(max(0, last - time.monotonic()))):
            self.got += piece
        line, end, self.got = self.got.partition(b"\n")
        return line + end

    def told_errors(self):
        """What it told on standard error up to now."""
        self.errors.seek(0)
        return self.errors.read()

    def look(self):
        """It still has to run."""
        status = self.child.poll()
        want(status is None, f"{self.who} ended with {status}")

    def processor(self):
        return processor_seconds(self.child.pid)

    def memory(self):
        return memory(self.child.pid)

    def has_mapped(self, name):
        """Whether a file whose path ends so is part of its memory, as a library is."""
        with open(f"/proc/{self.child.pid}/maps", encoding="utf-8", errors="replace") as file:
            return any(line.rstrip().endswith(name) for line in file)

    def descriptors(self):
        """How many files and connections it has open."""
        return len(os.listdir(f"/proc/{self.child.pid}/fd"))


def found(name):
    """The path of a program, or None. Debian keeps some where only root looks."""
    return shutil.which(name, path=os.environ.get("PATH", "") + ":/usr/sbin:/sbin")


def free_ports(count):
    """Ports at which nobody listens."""
    with contextlib.ExitStack() as stack:
        sockets = [stack.enter_context(socket.create_server(("127.0.0.1", 0))) for _ in range(count)]
        return [one.getsockname()[1] for one in sockets]


def free_port():
    return free_ports(1)[0]


def listens(port):
    """Whether somebody listens at a port."""
    with socket.socket() as one:
        return one.connect_ex(("127.0.0.1", port)) == 0


def stat_fields(pid):
    """What its file `stat` says, from the state on."""
    with open(f"/proc/{pid}/stat", "rb") as file:
        return file.read().rpartition(b")")[2].split()


def processor_seconds(pid):
    """The processor time of all threads, in user and system mode, in steps of the system's clock."""
    fields = stat_fields(pid)
    return (int(fields[11]) + int(fields[12])) / TICKS


def processor_clock(pid):
    """The same by the clock that clock_getcpuclockid(3) tells, to the nanosecond.

    Of a thread that runs just now some milliseconds may be missing.
    """
    return time.clock_gettime(~pid << 3 | PROCESS_CLOCK)


def runs(pid):
    """Whether its first thread runs, or is about to."""
    return stat_fields(pid)[0] == b"R"


def memory(pid):
    """Resident bytes, now and at their peak, and the most bytes of its addresses; none of a process that has ended.

    The peak that wait4 tells is of no use here: it begins with that of the process that forked.
    """
    with open(f"/proc/{pid}/status", encoding="ascii", errors="replace") as file:
        fields = dict(line.split(":", 1) for line in file)
    sizes = [("now", "VmRSS"), ("peak", "VmHWM"), ("addresses", "VmPeak")]
    return {name: int(fields.get(field, "0").split()[0]) * 1024 for name, field in sizes}
