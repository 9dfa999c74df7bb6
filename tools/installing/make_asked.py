"""Targets of the Makefile, as a user asks them."""
import os
import subprocess

from shared.http_client import SECONDS
from shared.places import TOP
from shared.report import want


def environment():
    """What make is given, without what a make above it, as that of the gate, would tell it."""
    return {name: value for name, value in os.environ.items() if not name.startswith(("MAKE", "MFLAGS"))}


def make(target, **variables):
    """Runs make with a mask that would hide what is made from other users."""
    given = [f"{name}={value}" for name, value in variables.items()]
    return subprocess.run(["make", "-s", "-C", TOP, target, *given], capture_output=True, text=True, env=environment(),
                          timeout=2 * SECONDS, umask=0o077)


def make_well(target, **variables):
    """Runs make, which has to end well; gives what it printed."""
    ran = make(target, **variables)
    want(ran.returncode == 0, f"make {target} ends with {ran.returncode}: {ran.stderr}")
    return ran.stdout
