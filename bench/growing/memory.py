"""The replay program's resident memory: one full tenant, and many small ones."""
from growing.tenant import KEY_CELLS, QUOTA, Asked, Lines, Tenant, call, in_use, key, opening, put_body
from shared.report import table

KEYS = QUOTA // KEY_CELLS
TENANTS, SMALL_QUOTA = 256, 1_024
SMALL_KEYS = SMALL_QUOTA // KEY_CELLS


def resident(program):
    return program.memory()["now"]


def full_tenant(path):
    """Names with bytes. The quota is full of keys; and once they are deleted and kept, each cell holds a record."""
    with Lines(path) as program:
        program.ask([Asked(b"pool 1\n", b"ok")])
        yield "no tenant, and a pool of one segment", resident(program), None
        program.end()
    with Tenant(path, KEYS) as tenant:
        tenant.open()
        yield "one tenant, empty", resident(tenant), QUOTA
        tenant.ask_all(tenant.put(key(number)) for number in tenant.order)
        tenant.check_cells()
        yield f"one tenant, full with {KEYS:,} keys", resident(tenant), QUOTA
        tenant.ask_all(tenant.delete(key(number)) for number in tenant.scattered())
        tenant.check_cells()
        yield "the same, all deleted and kept", resident(tenant), QUOTA
        tenant.end()


def small_tenants(path):
    names = [b"t%d" % number for number in range(TENANTS)]
    with Lines(path) as program:
        program.ask(opening(names, SMALL_QUOTA))
        yield f"{TENANTS} tenants of {SMALL_QUOTA:,} cells, empty", resident(program), TENANTS * SMALL_QUOTA
        bodies = [put_body(key(number)) for number in range(SMALL_KEYS)]
        program.ask_all(Asked(call(b"kv/put", body, name), b'"revision"') for body in bodies for name in names)
        program.ask([in_use(SMALL_QUOTA, name) for name in names])
        yield f"the same, full with {SMALL_KEYS} keys each", resident(program), TENANTS * SMALL_QUOTA
        program.end()


def tell_memory(path):
    rows = []
    for name, size, cells in [*full_tenant(path), *small_tenants(path)]:
        rows.append([name, f"{size:,}", f"{size / cells:.1f}" if cells else "-"])
    print("Resident memory; keys of 9 bytes with values of 32, so a record takes two cells and its delete two.")
    table(["bytes", "all", "a cell"], rows)
