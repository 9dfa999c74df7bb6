"""A folder of its own in which a crate is proved, beside links to the libraries that it stands on.

While rt works in a crate it keeps any other rt out of all that the crate stands on. So no two work in one folder.
"""
import os
import shutil

from building.crate_list import LIST, listed
from shared.places import TOP

ROOMS = os.path.join(TOP, "out", "prove")
PARTS = ["src", "specs", "proofs"]
# What a crate above is proved over.
LIBRARY = os.path.join("out", "rlib")
# What a check keeps for the next one.
KEPT = os.path.join("out", "incremental")


def linked(old, new):
    """The same file at a second place, or a copy if the file system has no links."""
    try:
        os.link(old, new)
    except OSError:
        shutil.copy2(old, new)


def lay(room, folder, how=linked):
    """Brings a folder of the repository into a room, if there is such a one."""
    if os.path.isdir(os.path.join(TOP, folder)):
        shutil.copytree(os.path.join(TOP, folder), os.path.join(room, folder), copy_function=how)


def furnish(room, name, below):
    """Makes a room for a crate, with the libraries below it. Sources are copied: they may be edited meanwhile."""
    os.makedirs(os.path.join(room, "crates", name))
    with open(os.path.join(room, LIST), "w", encoding="utf-8") as file:
        file.writelines(line + "\n" for one, line in listed().items() if one == name or one in below)
    for one in [name, *below]:
        for part in PARTS:
            lay(room, os.path.join("crates", one, part), shutil.copy2)
    for one in below:
        lay(room, os.path.join("crates", one, LIBRARY))
