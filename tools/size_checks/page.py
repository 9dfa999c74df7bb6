"""Tests of check-size: what docs/OPERATING.md shows is what tools/size computes, by the numbers of the sources."""
import os
import re

from shared.places import TOP
from shared.report import want
from size_checks.asked import Asked, Kind, size_of
from sizing import host_size

PAGE = os.path.join(TOP, "docs", "OPERATING.md")
# Where the numbers of tools/sizing/host_size.py stand in the sources, below crates: those of the same names, and others.
SAME_NAMES = {
    "etcd_types/src/limits.rt": ["CELL_BYTES", "SEGMENT_CELLS", "MIN_QUOTA", "MAX_QUOTA", "MAX_BODY", "MAX_CONFIG",
                                 "MAX_TENANTS", "DEFAULT_SEGMENTS", "MAX_SEGMENTS", "MAX_WORKERS", "MAX_AUDIT",
                                 "LAST_REVISION", "WATCH_SLOTS", "RING_ENTRIES"],
    "host_config/src/config.rt": ["DEFAULT_WORKERS"],
    "host_config/src/tenants.rt": ["MIN_BUDGET", "MAX_BUDGET", "QUOTAS_A_BUDGET"],
    "connection_table/src/allowance.rt": ["LOOPS", "MAX_PATIENCE"],
    "tenant_server/src/admission.rt": ["BESIDE_CONNECTIONS", "TENANT_PART"],
    "gateway_http/src/connection.rt": ["MAX_UNSENT"],
    "auto_compaction/src/order.rt": ["MAX_NOTES"],
    "fair_turns/src/budget.rt": ["DEFAULT_BUDGET", "LONGEST_ROW", "SHORT"],
    "fair_turns/src/tree_weight.rt": ["SMALL_TREE"],
    "fair_turns/src/scheduler.rt": ["BESIDE_WORKERS"],
    "gateway_text/src/size.rt": ["REPLY", "EVENT", "ROW_NAMES", "ROW_LEASE", "ROW_VALUE"],
}
# By their names in the source, what they have to be. What a turn's bodies are bounded by is why LEAVING is enough.
OTHER_NAMES = {
    "host_operator/src/serving.rt": {"MOST": host_size.OPERATORS},
    "gateway_http/src/piece.rt": {"PIECE": host_size.MAX_UNSENT},
    "tenant_scheduler/src/worker.rt": {"BYTES_A_TURN": 65_536},
    "fair_turns/src/watch_texts.rt": {"ROOM": 2},
    "revision_store/src/weighing.rt": {"ROW": host_size.WEIGHED_ROW},
}


def page():
    with open(PAGE, encoding="utf-8") as file:
        return file.read()


def examples():
    """Of each row of the page's table of examples what is asked, its sum of cells, and its segments."""
    rows = re.findall(r"^\| (.+?) \| `(--.+?)` \| (.+?) \| (.+?) \|$", page(), re.MULTILINE)
    for name, words, cells, segments in rows:
        kinds, leases = [], 0
        for word, number in re.findall(r"--(\w+) (\d+)", words):
            if word == "leases":
                leases = int(number)
            elif word == "records":
                kinds.append({word: int(number)})
            else:
                kinds[-1][word] = int(number)
        yield Asked(name.split(":")[0], [Kind(**kind) for kind in kinds], leases), cells, segments


def check_example(asked, cells, segments):
    """The page's sum is what it says, and what the script computes."""
    terms, _, total = cells.replace(",", "").replace("×", "*").rpartition(" = ")
    want(re.fullmatch(r"[\d +*()]+", terms), f"no sum: {cells}")
    sizes = asked.sizes()
    want(eval(terms) == int(total) == sizes["cells"], f"{cells}, computed {sizes}")
    want(int(segments.replace(",", "")) == sizes["segments"], f"{segments} segments, computed {sizes}")


def check_printed():
    """What the page shows of the script is what the script prints."""
    shown_by_page = re.findall(r"^    \$ tools/size (.+)\n((?:    (?!\$).+\n)+)", page(), re.MULTILINE)
    want(shown_by_page, "the page shows nothing")
    for words, lines in shown_by_page:
        printed = size_of(words.split()).stdout
        lines = re.sub("^    ", "", lines, flags=re.MULTILINE)
        want(lines == printed, f"the page has\n{lines}and printed is\n{printed}")


def source_numbers(path):
    """The numbers that a source names, by their names."""
    with open(os.path.join(TOP, "crates", path), encoding="utf-8") as file:
        found = re.findall(r"^(?:pub(?:\(crate\))? )?const (\w+): \w+ = ([\d_]+);$", file.read(), re.MULTILINE)
    return {name: int(number) for name, number in found}


def check_limits():
    """The numbers of the script are those of the sources."""
    wanted = {path: {name: getattr(host_size, name) for name in names} for path, names in SAME_NAMES.items()}
    for path, ours in [*wanted.items(), *OTHER_NAMES.items()]:
        theirs = source_numbers(path)
        for name, number in ours.items():
            want(number == theirs.get(name), f"{name} is {number}, and in {path} {theirs.get(name)}")


def of_page(_program):
    yield "the limits", check_limits
    yield "what the page prints", check_printed
    told = list(examples())
    yield "three worked examples", lambda: want(len(told) == 3, f"the page has {len(told)}")
    for asked, *rest in told:
        yield f"the page's sum: {asked.name}", lambda: check_example(asked, *rest)
