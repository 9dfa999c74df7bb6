"""What each file of the repository is for, by its own first lines, and what it defines."""
import glob
import os
import re
from typing import NamedTuple

from shared.places import TOP

# What says nothing of its own: lists of modules, and what a package needs to be one.
SILENT = re.compile(r"(.*/)?(Lib\.antt|__init__\.py)")
# How a comment begins, by what its file is written in.
COMMENTS = {".rt": "//!", ".antt": "--"}
DEFINED = re.compile(r"^\s*(?:pub(?:\(\w+\))? |abbrev |const |ghost |opaque )*(?:fn|struct|enum|trait|const|type|record|data|def|class) (\w+)"
                     r"|^abbrev (?:pub )?(\S+) :|^pub (\S+) :", re.MULTILINE)
PLACES = ["tools/*", "tools/*/*", "bench/*", "bench/*/*"]


class Room(NamedTuple):
    """A file, what it is for, and the names that it defines."""
    path: str
    purpose: str
    names: list

    def line(self, words=()):
        """The room's line, with those of its names in which one of some words stands."""
        told = [name for name in self.names if any(word in name.lower() for word in words)]
        return f"{self.path}: {self.purpose}" + (f" [{', '.join(told)}]" if told else "")

    def has(self, word):
        return word in self.line().lower() or any(word in name.lower() for name in self.names)


def sentence(text):
    """The first sentence of some lines, as one line."""
    return re.split(r"(?<=\.)\s", " ".join(text.split()), maxsplit=1)[0]


def comment_of(lines, mark):
    """The first paragraph of the comment at a file's top."""
    taken = []
    for line in lines:
        if not line.startswith(mark) or line.strip() == mark:
            break
        taken.append(line[len(mark):])
    return "\n".join(taken)


def purpose_of(path, text):
    """What a file says at its top that it is for; nothing if it does not say it."""
    if text.startswith("#!"):
        text = text.partition("\n")[2]
    if text.startswith('"""'):
        return sentence(text[3:].partition('"""')[0].partition("\n\n")[0])
    return sentence(comment_of(text.splitlines(), COMMENTS.get(os.path.splitext(path)[1], "#")))


def room_of(path, top):
    with open(path, encoding="utf-8") as file:
        text = file.read()
    names = ["".join(found) for found in DEFINED.findall(text)]
    return Room(os.path.relpath(path, top), purpose_of(path, text), list(dict.fromkeys(names)))


def layers(top):
    """The headings of crates.txt, each with the names of its crates, the lowest first."""
    heading, names = "", []
    with open(os.path.join(top, "crates.txt"), encoding="utf-8") as file:
        for line in file:
            if line.startswith("# "):
                if names:
                    yield heading, names
                heading, names = line[2:].strip(), []
            elif line.strip():
                names.append(line.partition(":")[0])
    yield heading, names


def crate_files(top, name):
    """The sources of a crate, its words and its lemmas. An answer to a single goal stands under its function's path."""
    for pattern in ["src/**/*.rt", "specs/**/*.antt", "proofs/*.antt"]:
        for path in sorted(glob.glob(os.path.join(top, "crates", name, pattern), recursive=True)):
            if not SILENT.fullmatch(path):
                yield path


def commands_and_modules(top):
    for place in PLACES:
        for path in sorted(glob.glob(os.path.join(top, place))):
            if os.path.isfile(path) and os.path.splitext(path)[1] in ("", ".py") and not SILENT.fullmatch(path):
                yield path


def map_of(top=TOP):
    """Each heading with its rooms."""
    for heading, names in layers(top):
        yield heading, [room_of(path, top) for name in names for path in crate_files(top, name)]
    yield "Commands, and the modules that they share", [room_of(path, top) for path in commands_and_modules(top)]
