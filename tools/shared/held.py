"""Programs over an allocator that tells how many bytes they hold: the replay program, and the server."""
import mmap
import os
import shutil
import struct
import subprocess
import tempfile

from shared.places import TOP
from shared.script import Program

SOURCE = os.path.join(TOP, "tests", "held", "held.c")
NUMBERS = struct.Struct("qq")


class Held:
    """The allocator, with the variables under which a program runs over it, and what it tells of that program."""

    def __init__(self):
        self.folder = tempfile.mkdtemp()
        library, told = (os.path.join(self.folder, name) for name in ("held.so", "held"))
        subprocess.run(["cc", "-shared", "-fPIC", "-O1", "-o", library, SOURCE, "-ldl"], check=True)
        with open(told, "wb+") as file:
            file.truncate(NUMBERS.size)
            self.told = mmap.mmap(file.fileno(), NUMBERS.size)
        self.variables = {"LD_PRELOAD": library, "HELD": told}

    def __enter__(self):
        return self

    def __exit__(self, *_):
        self.told.close()
        shutil.rmtree(self.folder, ignore_errors=True)

    def now(self):
        """How many bytes the program holds."""
        return NUMBERS.unpack(self.told)[0]

    def of(self, asked):
        """What `asked` gives, how many bytes the program took at the most meanwhile, and how many it left."""
        before = self.now()
        self.told[:] = NUMBERS.pack(before, before)
        given = asked()
        after, most = NUMBERS.unpack(self.told)
        return given, most - before, after - before


class HeldProgram(Program):
    """A program that is asked line by line, with the bytes that it holds."""

    def __init__(self, path):
        self.held = Held()
        super().__init__(path, env={**os.environ, **self.held.variables})

    def __exit__(self, *fault):
        super().__exit__(*fault)
        self.held.__exit__()

    def ask_alone(self, line):
        """The answer to a line, how many bytes it took at the most while it was answered, and how many it left."""
        return self.held.of(lambda: self.ask_line(line))
