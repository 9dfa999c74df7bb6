"""The pictures of what was measured, each from a table of docs/PERFORMANCE.md."""
from pictures.charts import Panel, Scale, bars, frame, key_of_shades, lines, marks_to, powers_around
from pictures.svg import Drawing
from pictures.tables import Spread, number, read_table, rows_named, spread

CALLS = ["puts", "reads of a key", "ranges of 100 rows"]
STORE_WORK = ["get a key", "get a range of 100 keys", "overwrite a key", "put a new key"]
STORE_BELOW = "With values of 32 bytes:"
GROWTH_SIZES = ["1,000 keys", "10,000 keys", "100,000 keys", "240,000 keys"]
GROWTH_FIRST = ["10,000 keys, at first", "240,000 keys, at first"]
GROWTH_WORK = ["put a new key", "range of all keys, limit 1", "count of all keys", "compaction that drops nothing",
               "overwrite and a compaction that drops one record"]
LEASE_SIZES = ["1,000 leases", "10,000", "100,000"]
LEASE_WORK = ["a revoke, with the lease's key", "a put with a lease", "a renewal", "a grant",
              "a tick at which nothing is due"]


def headed(width, height, says):
    """Paper with a heading."""
    drawing = Drawing(width, height, says)
    drawing.text(20, 28, says, 15, weight="bold")
    return drawing


def server():
    """The server's calls a second, by themselves and beside etcd's and nginx's."""
    columns = ["calls", "connections", "a second", "to etcd's", "to nginx's"]
    picked = rows_named(read_table("The server", columns), CALLS)
    *fewer, most = (row[1] for row in picked[CALLS[0]])
    drawing = headed(960, 352, f"Calls of the server over {', '.join(fewer)} and {most} connections")
    panels = [
        ("The server by itself", "thousand calls a second", lambda row: Spread(*[number(row[2]) / 1000] * 3)),
        ("Beside etcd", "times etcd's calls a second", lambda row: spread(row[3])),
        ("Beside a fixed answer of nginx", "times nginx's calls a second", lambda row: spread(row[4])),
    ]
    for place, (title, unit, spread_of) in enumerate(panels):
        groups = [(name, [spread_of(row) for row in rows]) for name, rows in picked.items()]
        marks = marks_to(max(one.greatest for _, spreads in groups for one in spreads))
        left = 44 + 318 * place
        panel = Panel(drawing, left, left + 268, Scale(marks[0], marks[-1], 282, 88))
        frame(panel, title, unit, marks)
        bars(panel, groups)
    more = "a thin line goes from the least to the greatest round"
    key_of_shades(drawing, 44, 338, "connections", [*fewer, most], more)
    return drawing.written()


def store():
    """Each work of the store beside an ordered map, over numbers of keys."""
    rows = read_table("The store", ["nanoseconds", "keys", "store", "map"], STORE_BELOW)
    picked = rows_named(rows, STORE_WORK)
    drawing = headed(960, 322, f"One tenant's store beside an ordered map, {STORE_BELOW[:-1].lower()}")
    marks = powers_around([number(cell) for found in picked.values() for row in found for cell in row[2:]])
    for place, (name, found) in enumerate(picked.items()):
        left = 60 + 228 * place
        sizes = [number(row[1]) for row in found]
        panel = Panel(drawing, left, left + 168, Scale(marks[0], marks[-1], 276, 88, True))
        frame(panel, name, "nanoseconds", marks, place == 0)
        series = [(who, {number(row[1]): number(row[at]) for row in found}) for at, who in [(2, "store"), (3, "map")]]
        lines(panel, Scale(sizes[0], sizes[-1], left + 8, left + 160, True), sizes, "keys", series)
    return drawing.written()


def leases():
    """What a line of a script takes with more and more leases."""
    picked = rows_named(read_table("Leases", ["microseconds a line", *LEASE_SIZES]), LEASE_WORK)
    sizes = [number(name) for name in LEASE_SIZES]
    series = [(name, dict(zip(sizes, map(number, row[1:])))) for name, (row,) in picked.items()]
    marks = marks_to(max(time for _, points in series for time in points.values()))
    drawing = headed(620, 322, "A line of a script about a lease, beside more and more leases")
    panel = Panel(drawing, 44, 400, Scale(marks[0], marks[-1], 276, 88))
    frame(panel, "The replay program", "microseconds a line", marks)
    lines(panel, Scale(sizes[0], sizes[-1], 60, 390, True), sizes, "leases", series)
    return drawing.written()


def growth():
    """What a line of a script takes with more and more keys, when that was first measured and now."""
    picked = rows_named(read_table("Growth", ["microseconds of processor", *GROWTH_FIRST, *GROWTH_SIZES]), GROWTH_WORK)
    drawing = headed(1100, 352, "A line of a script, beside more and more keys of one tenant")
    marks = powers_around([number(cell) for (row,) in picked.values() for cell in row[1:]])
    panels = [("When it was first measured", GROWTH_FIRST, 1), ("Now", GROWTH_SIZES, 1 + len(GROWTH_FIRST))]
    for place, (title, columns, first) in enumerate(panels):
        sizes = [number(name) for name in columns]
        series = [(name, dict(zip(sizes, map(number, row[first:first + len(sizes)])))) for name, (row,) in picked.items()]
        left = 60 + 540 * place
        panel = Panel(drawing, left, left + 190, Scale(marks[0], marks[-1], 300, 88, True))
        frame(panel, title, "microseconds a line", marks)
        # Those too near to the last have no room for their number.
        told = [size for size in sizes if size * 10 <= sizes[-1] or size == sizes[-1]]
        lines(panel, Scale(sizes[0], sizes[-1], left + 8, left + 182, True), told, "keys", series)
    return drawing.written()
