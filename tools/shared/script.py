"""The replay program and others that answer each line of a script: fed line by line, or a whole script at once."""
import subprocess
import threading
import time

from shared.places import REPLAY_PROGRAM
from shared.process import Process
from shared.report import Wrong, want

PATIENCE = 60
# Cells of a segment of the pool.
SEGMENT_CELLS = 64


def run_script(script, seconds=PATIENCE, words=(REPLAY_PROGRAM,), **how):
    """What a program makes of a whole script, the replay program or one by its words: its status, and what it printed."""
    return subprocess.run(words, input=script, capture_output=True, timeout=seconds, check=False, **how)


def run_file(file, **how):
    """The same of a script in a file, whose pieces are of one length each time: a pipe's depend on who is quicker."""
    return subprocess.run([REPLAY_PROGRAM], stdin=file, capture_output=True, timeout=PATIENCE, check=False, **how)


class Program(Process):
    """A program that answers each line of its standard input by a line; `cat` is one, too. `limit` is in seconds."""

    def __init__(self, path=REPLAY_PROGRAM, limit=PATIENCE, **how):
        self.who, self.limit = path, limit
        super().__init__([path], **{"stdin": subprocess.PIPE, "stdout": subprocess.PIPE, "bufsize": 0, **how})

    def feed(self, script):
        left = memoryview(script)
        while left:
            left = left[self.stdin.write(left) :]

    def feed_to_reader(self, script):
        """Feeds what another thread reads the answers of: that one sees their end, and tells."""
        try:
            self.feed(script)
        except BrokenPipeError:
            pass

    def ask_line(self, line):
        """The answer to one line, both with their newlines."""
        self.feed(line)
        answer = self.line(self.limit)
        want(answer.endswith(b"\n"), f"{self.who}: ended before it answered {line[:100]!r}, behind {answer[:100]!r}")
        return answer

    def lines(self, script, count):
        """Feeds `count` lines, and gives back as many answer lines and the seconds until the last one came."""
        pieces, wanted = [], count
        feeder = threading.Thread(target=self.feed_to_reader, args=(script,), daemon=True)
        started = time.perf_counter()
        feeder.start()
        while wanted > 0:
            piece = self.piece(self.limit)
            if not piece:
                raise Wrong(f"{self.who}: ended with status {self.child.wait()} before the end of its script")
            pieces.append(piece)
            wanted -= piece.count(b"\n")
        seconds = time.perf_counter() - started
        feeder.join()
        return b"".join(pieces).split(b"\n")[:-1], seconds

    def close(self):
        """No line follows."""
        self.stdin.close()

    def end(self):
        """Ends the script: the program ends by itself, with status 0."""
        self.close()
        while self.piece(self.limit):
            pass
        status = self.wait(self.limit)
        want(status == 0, f"{self.who}: status {status} at the end of its script")


class Replay(Program):
    """The replay program with its one tenant."""

    def add(self, quota, first):
        """Adds the tenant, over a pool that has the segments of its quota."""
        segments = -(-quota // SEGMENT_CELLS)
        answers, _ = self.lines(b"pool %d\nadd one 7 %d %d\n" % (segments, quota, first), 2)
        if answers != [b"ok", b"ok"]:
            raise Wrong(f"{self.who}: adding a tenant of {quota} cells was answered {answers!r}")

    @staticmethod
    def script(calls):
        return b"".join(b"call POST /t/one/v3/%s %s\n" % (call.name.encode(), call.body) for call in calls)

    def answer(self, calls):
        """Makes the calls. Gives back a status and a body for each, and the seconds that they took."""
        answers, seconds = self.lines(self.script(calls), len(calls))
        return [(int(answer[:3]) if answer[:3].isdigit() else 0, answer[4:]) for answer in answers], seconds
