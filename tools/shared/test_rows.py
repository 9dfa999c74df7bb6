"""The rows that stand in the crate tests_tenants: each below its name in tests/rows."""
import os
import re

from shared.places import ROWS, TOP

FOLDER = os.path.join(TOP, "crates", "tests_tenants", "src", "tests", "rows")
ROW = re.compile(r'(    // (\w+)\n    Row \{\n        script: r#")(.*?)("#,\n        answers: r#")(.*?)("#,\n)', re.DOTALL)


def contents(name):
    with open(os.path.join(ROWS, name), encoding="utf-8", newline="") as file:
        return file.read()


def made(text):
    """A file of it with each row as tests/rows has it."""
    def row(found):
        before, name, _, between, _, behind = found.groups()
        return before + contents(name + ".script") + between + contents(name + ".answers") + behind
    return ROW.sub(row, text)


def files():
    """The path and the text of each file that has rows."""
    for name in sorted(os.listdir(FOLDER)):
        path = os.path.join(FOLDER, name)
        with open(path, encoding="utf-8", newline="") as file:
            text = file.read()
        if ROW.search(text):
            yield path, text
