"""Where the repository lies, and in it what commands run and read."""
import os

TOP = os.path.dirname(os.path.dirname(os.path.dirname(os.path.abspath(__file__))))
# The proved programs, where they are built.
HOST_PROGRAM = os.path.join(TOP, "crates", "etcd_host", "out", "etcd_host")
REPLAY_PROGRAM = os.path.join(TOP, "crates", "etcd_replay", "out", "etcd_replay")
REGISTRY_PROGRAM = os.path.join(TOP, "crates", "registry_replay", "out", "registry_replay")
FORMATS = os.path.join(TOP, "docs", "FORMATS.md")
EXAMPLES = os.path.join(TOP, "examples")
ROWS = os.path.join(TOP, "tests", "rows")
