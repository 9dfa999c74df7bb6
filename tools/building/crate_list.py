"""What commands that build crates share: which crate stands on which, and a sum of what they are made of."""
import hashlib
import os
import subprocess

from shared.places import TOP

LIST = "crates.txt"


def listed():
    """The line of each crate of the repository."""
    with open(os.path.join(TOP, LIST), encoding="utf-8") as file:
        lines = [line.partition("#")[0].strip() for line in file]
    return {line.partition(":")[0].split()[0]: line for line in lines if line}


def stands_on():
    """Of each crate of the repository, those of the repository that it names."""
    lines = listed()
    return {name: [it for it in line.partition(":")[2].split() if it in lines] for name, line in lines.items()}


def all_below(name, lower):
    """Every crate that one stands on, however far below."""
    found = set()
    for crate in lower[name]:
        found |= {crate} | all_below(crate, lower)
    return found


def kit():
    """The line by which the kit names itself."""
    return subprocess.run(["rt", "version"], capture_output=True, check=True).stdout


def sum_of(name, lower, parts, base=b""):
    """A checksum of some parts of a crate and of all that it stands on, of their lines in the list, and of a base."""
    total, lines = hashlib.sha256(base), listed()
    for crate in sorted({name} | all_below(name, lower)):
        total.update(lines[crate].encode() + b"\0")
        for part in parts:
            for path in files_below(os.path.join(TOP, "crates", crate, part)):
                with open(path, "rb") as file:
                    inner = hashlib.sha256(file.read()).hexdigest()
                total.update(f"{os.path.relpath(path, TOP)} {inner}\0".encode())
    return total.hexdigest()


def files_below(folder):
    """The files below a folder, always in the same order."""
    return sorted(os.path.join(place, name) for place, _, names in os.walk(folder) for name in names)
