"""The picture of a host: a put's path through the server, the tenants with their cells, and the pool of segments.

Each function that it names is looked up in its crate's source, so a name that has gone is told. It is no script by
itself.
"""
import os
import re
from typing import NamedTuple

from pictures.svg import CODE, FAINT, INK, PAPER, Drawing
from pictures.tables import NotThere
from shared.places import TOP

TITLE = "A put through the server"
THREADS, LOCKED, POOL = "#eef4fa", "#fbf3e8", "#eef6f1"
EDGE, PATH, BACK, MOVED, USED, FRESH = "#9aa7b4", "#0072b2", "#00795a", "#666666", "#e8bf7a", "#d55e00"
SMALL, NORMAL, ROW = 10.5, 12, 15
SEGMENT_CELLS = 64


def code_of(crate, file, name):
    """A function's name as the picture has it, once its crate's source has it too."""
    path = os.path.join(TOP, "crates", crate, "src", file + ".rt")
    if not os.path.isfile(path):
        raise NotThere(f"the picture of a host names {crate}/src/{file}.rt, which is not there")
    owner, _, function = name.rpartition("::")
    with open(path, encoding="utf-8") as there:
        source = there.read()
    wanted = [rf"\bfn {function}\b"] + ([rf"^impl\b.*\b{owner}\b"] if owner else [])
    if not all(re.search(one, source, re.MULTILINE) for one in wanted):
        raise NotThere(f"the picture of a host names {name}, which {crate}/src/{file}.rt has not")
    return name


class Zone(NamedTuple):
    """A crate's part of the picture."""
    drawing: Drawing
    crate: str

    def frame(self, left, top, width, height, fill, words):
        self.drawing.box(left, top, width, height, fill, EDGE, 8)
        self.drawing.text(left + 14, top + 21, self.crate, NORMAL, weight="bold", family=CODE)
        self.drawing.text(left + 24 + 7.4 * len(self.crate), top + 21, words, NORMAL, FAINT)

    def stop(self, place, number, title, functions, words=()):
        """A box with a number and a title: the functions that do it, each with its file or its other crate."""
        left, top, width, height = place
        self.drawing.box(left, top, width, height, PAPER, EDGE, 5)
        self.drawing.dot(left + 18, top + 17, PATH, 10)
        self.drawing.text(left + 18, top + 21, number, 11, PAPER, "middle", "bold")
        self.drawing.text(left + 34, top + 21, title, NORMAL, weight="bold")
        at = top + 40
        for crate, file, name in functions:
            where = file + ".rt" if crate == self.crate else crate
            self.drawing.text(left + 34, at, code_of(crate, file, name), SMALL, INK, family=CODE)
            self.drawing.text(left + width - 10, at, where, SMALL, FAINT, "end", family=CODE)
            at += ROW
        tell(self.drawing, left + 34, at, words)


def tell(drawing, x, y, lines, color=FAINT, anchor=None):
    for place, line in enumerate(lines):
        drawing.text(x, y + (ROW - 1) * place, line, SMALL, color, anchor)


def draw_segment(drawing, left, top, used, fresh=0, size=9):
    """A segment's cells, of which some are used, the last ones of them since just now."""
    for place in range(SEGMENT_CELLS):
        fill = PAPER if place >= used else FRESH if place >= used - fresh else USED
        drawing.box(left + size * (place % 16), top + size * (place // 16), size, size, fill, EDGE)


def draw_stock(drawing, left, top, count):
    """Segments in which no cell is in use."""
    for place in range(count):
        drawing.box(left + 18 * place, top, 13, 13, PAPER, EDGE, 2)


def draw_threads(drawing):
    """From the client to a thread that has the tenant's turn."""
    drawing.box(20, 48, 410, 38, PAPER, EDGE, 8)
    drawing.text(34, 72, "a client", NORMAL, weight="bold")
    drawing.text(104, 72, "POST /t/one/v3/kv/put", SMALL, INK, family=CODE)
    sessions = Zone(drawing, "gateway_http")
    sessions.frame(20, 130, 410, 128, THREADS, "connections")
    sessions.stop((64, 166, 322, 80), "1", "An event loop, one of four, reads the request", [
        ("gateway_http", "exchange", "Gateway::call"), ("gateway_http", "routing", "route")],
        ["the path names the tenant"])
    scheduler = Zone(drawing, "tenant_scheduler")
    scheduler.frame(20, 270, 410, 434, THREADS, "turns, queues and threads")
    scheduler.stop((64, 306, 322, 96), "2", "A brief call takes the turn, if nobody has it", [
        ("pending_calls", "begun", "Begun::new"), ("gateway_json", "call", "read_step"),
        ("fair_turns", "scheduler", "Scheduler::begin_in_loop"),
        ("tenant_scheduler", "inline_calls", "InlineCalls::serve")])
    scheduler.stop((64, 458, 322, 52), "2a", "Else it is a job in the tenant's queue", [
        ("pending_calls", "job_queue", "JobQueue::push")])
    scheduler.stop((64, 560, 322, 66), "2b", "A worker takes the turn, and the job", [
        ("tenant_scheduler", "worker", "work")], ["and reads the step of a long body"])
    ends = code_of("fair_turns", "scheduler", "Scheduler::finish")
    tell(drawing, 64, 650, [f"At a turn's end {ends} gives the tenant to the", "work that is due there next: "
                            "a tick of the clock, its watches, a", "catch-up, or more jobs."])


def draw_ways(drawing):
    """The arrows between the client, the threads and the tenant's lock."""
    drawing.arrow([(302, 86), (302, 166)], PATH)
    deals = code_of("tenant_server", "connections", "accept_all")
    tell(drawing, 294, 104, ["the request, by a connection that", f"{deals} dealt to the loop"], PATH, "end")
    drawing.arrow([(332, 166), (332, 86)], BACK)
    tell(drawing, 340, 112, ["the answer"], BACK)
    drawing.arrow([(350, 246), (350, 306)], PATH)
    tell(drawing, 358, 267, ["the body"], PATH)
    drawing.arrow([(225, 402), (225, 458)], PATH)
    tell(drawing, 234, 426, ["the tenant is busy, or had long answers", "lately; no brief call; a long body"], PATH)
    drawing.arrow([(225, 510), (225, 560)], PATH)
    schedules = code_of("fair_turns", "scheduler", "Scheduler::schedule")
    tell(drawing, 234, 540, [f"{schedules} marks it"], PATH)
    drawing.line([(386, 593), (452, 593), (452, 354)], PATH, 1.5)
    drawing.arrow([(386, 354), (452, 354), (452, 150), (500, 150)], PATH)
    drawing.arrow([(500, 122), (414, 122), (414, 200), (386, 200)], BACK)
    tell(drawing, 481, 115, ["7 the receipt"], BACK, "end")


def draw_tenant(drawing):
    """What is done under the tenant's lock."""
    zone = Zone(drawing, "tenant_registry")
    zone.frame(470, 48, 470, 548, LOCKED, "tenants, each behind a lock of its own")
    drawing.box(486, 80, 438, 408, PAPER, INK, 8)
    zone.stop((500, 92, 410, 68), "3", "Tenant one: a step at a time, under its lock", [
        ("tenant_registry", "key", "Key::call"), ("tenant_registry", "kept", "Kept::serve")])
    zone.stop((500, 180, 240, 96), "4", "The put is planned", [
        ("tenant_machine", "deciding", "Machine::plan"), ("revision_store", "planning", "Store::plan_put")],
        ["alarm, lease, quota; takes the", "memory, and changes nothing"])
    zone.stop((500, 296, 240, 52), "5", "Its answer is written", [("gateway_text", "replies", "write_reply")])
    zone.stop((500, 368, 240, 108), "6", "The plan is committed", [
        ("tenant_machine", "machine", "Machine::commit"), ("revision_store", "store", "Store::commit"),
        ("cell_arena", "region", "Region::place")], ["takes no memory, and can't fail;", "watches note the revision"])
    for top, bottom in (160, 180), (276, 296), (348, 368):
        drawing.arrow([(620, top), (620, bottom)], PATH)


def draw_cells(drawing):
    """The cells of tenant one, its stock, the other tenants, and the segments that nobody reserved."""
    tell(drawing, 762, 190, [f"its segments, {SEGMENT_CELLS} cells each:"], INK)
    draw_segment(drawing, 762, 200, 64)
    draw_segment(drawing, 762, 244, 23, 3)
    tell(drawing, 762, 297, ["the record, in free cells"], FRESH)
    drawing.arrow([(740, 422), (751, 422), (751, 257), (762, 257)], PATH)
    drawing.arrow([(830, 380), (830, 306)], PATH, dashes="4 3")
    tell(drawing, 838, 340, ["drawn where", "no cell is free"], PATH)
    tell(drawing, 770, 396, ["its stock: segments that", "it may still draw"], INK)
    draw_stock(drawing, 770, 420, 7)
    for left, name, used in (486, "tenant two", 40), (711, "others, up to 256", 9):
        drawing.box(left, 500, 213, 84, PAPER, INK, 8)
        drawing.text(left + 12, 520, name, NORMAL, weight="bold")
        draw_segment(drawing, left + 12, 534, used)
        draw_stock(drawing, left + 168, 545, 2)
    zone = Zone(drawing, "segment_pool")
    zone.frame(470, 620, 470, 84, POOL, "segments that no tenant reserved")
    draw_stock(drawing, 484, 651, 25)
    opens = code_of("tenant_registry", "kept", "Kept::open")
    tell(drawing, 484, 687, [f"{opens} moves as many as a tenant's quota takes to its stock, when it is added"], MOVED)
    for points in [(592, 620), (592, 584)], [(817, 620), (817, 584)], [(932, 620), (932, 426), (896, 426)]:
        drawing.arrow(points, MOVED, dashes="4 3")


def host():
    """A put's path, from the client's request to the cells and back."""
    drawing = Drawing(960, 724, TITLE + ": its path, the tenants with their cells, and the pool of segments")
    drawing.text(20, 30, TITLE, 16, weight="bold")
    draw_threads(drawing)
    draw_tenant(drawing)
    draw_cells(drawing)
    draw_ways(drawing)
    return drawing.written()
