"""The checked build of the server: compiled with checks of bounds, overflow and memory, and with no proof.

`rt try` makes it in a minute or two, runs it for a while, and deletes it with the folder that it worked in. So it is
given a configuration that serves until it is ended, and its program is copied as soon as it runs. What was copied is
kept below out/, under a checksum of the sources and of the kit.
"""
import contextlib
import glob
import os
import shutil
import signal
import subprocess
import tempfile
import time

from building.crate_list import kit, stands_on, sum_of
from shared.places import TOP

CRATE = "etcd_host"
KEPT = os.path.join(TOP, "out", "checked")
# It listens at any free port and has no tenant, so it runs on without a word until it is ended.
LASTING = b'{"listen":"127.0.0.1:0"}'
# For how long rt try leaves a program that has not been copied yet.
SECONDS = 60
PAUSE = 0.2
SHOWN = 60
# Words of the check that rt try runs beside.
CHECK_BESIDE = b"\0--start\0no function\0"


class NotBuilt(Exception):
    """The sources make no program; it has what the kit said."""


def kept_program():
    """Where the program of the present sources is kept, once it was built."""
    return os.path.join(KEPT, sum_of(CRATE, stands_on(), ["src"], kit())[:16], CRATE)


def run_below(folder):
    """The file below a folder that some process executes, if there is one."""
    for maps in glob.glob("/proc/[0-9]*/maps"):
        with contextlib.suppress(OSError), open(maps, encoding="utf-8", errors="replace") as file:
            for line in file:
                place = line.rstrip("\n").split(None, 5)
                if len(place) == 6 and "x" in place[1] and place[5].startswith(folder + "/"):
                    return place[5]
    return None


def end_check_beside(session):
    """Ends the check that rt try runs in its session beside the build: it has a hint at most, which nobody sees, and it
    takes memory and time from the build."""
    for place in glob.glob("/proc/[0-9]*/cmdline"):
        with contextlib.suppress(OSError), open(place, "rb") as file:
            process = int(place.split("/")[2])
            if CHECK_BESIDE in file.read() and os.getsid(process) == session:
                os.kill(process, signal.SIGKILL)


def copy_once_it_runs(trying, folder, copy):
    """Copies the program that rt try runs below a folder; gives whether there was one before rt ended."""
    while trying.poll() is None:
        end_check_beside(trying.pid)
        program = run_below(folder)
        if program:
            shutil.copy(program, copy)
            return True
        time.sleep(PAUSE)
    return False


def build(program):
    """Builds the program at a place of its own, and moves it to where it is kept when it is whole."""
    os.makedirs(KEPT, exist_ok=True)
    with tempfile.TemporaryDirectory(dir=KEPT, prefix="building-") as folder:
        copy, log = os.path.join(folder, CRATE), os.path.join(folder, "log")
        with open(log, "w+b") as said, tempfile.TemporaryFile() as stdin:
            stdin.write(LASTING)
            stdin.seek(0)
            # In a session of its own, so that Ctrl-C comes to it as the end that it is told here.
            how = {"stdin": stdin, "stdout": said, "stderr": said, "env": {**os.environ, "TMPDIR": folder}, "start_new_session": True}
            trying = subprocess.Popen(["rt", "try", "--seconds", str(SECONDS)], cwd=os.path.join(TOP, "crates", CRATE), **how)
            try:
                built = copy_once_it_runs(trying, folder, copy)
            finally:
                trying.terminate()
                trying.wait()
            said.seek(0)
            if not built:
                lines = said.read().decode(errors="replace").splitlines()
                raise NotBuilt("\n".join(lines[-SHOWN:]))
        forget_others()
        os.makedirs(os.path.dirname(program), exist_ok=True)
        os.replace(copy, program)


def forget_others():
    """Deletes the programs of earlier sources; another build that is under way keeps its folder."""
    for other in os.listdir(KEPT):
        if not other.startswith("building-"):
            shutil.rmtree(os.path.join(KEPT, other), ignore_errors=True)
