"""What commands tell: what is wrong, how many tests passed, and of measurements numbers out of many and tables of them."""
import subprocess
from statistics import median


class Wrong(Exception):
    """Something is not as it is wanted."""


def want(good, what):
    if not good:
        raise Wrong(what)


def fault_of(test, *given):
    """What a test finds wrong, or nothing."""
    try:
        test(*given)
    except (Wrong, OSError, ValueError, LookupError, TypeError, subprocess.SubprocessError) as fault:
        return str(fault) if isinstance(fault, Wrong) else f"{type(fault).__name__}: {fault}"
    return None


def name_of(test):
    return test.__name__.replace("_", " ")


def tell(results):
    """Prints what is wrong, of each test its name and its fault, and then the last line. It gives the status."""
    passed = failed = 0
    for name, fault in results:
        if fault:
            print(f"{name}: {fault}", flush=True)
        passed, failed = passed + (not fault), failed + bool(fault)
    print(f"{passed} passed, {failed} failed")
    return 1 if failed or not passed else 0


def spread(numbers, form):
    """The middle one, with the least and the greatest."""
    return f"{median(numbers):{form}} ({min(numbers):{form}} to {max(numbers):{form}})"


def part(numbers, hundredth):
    """The number that so many hundredths of them don't pass."""
    return sorted(numbers)[min(len(numbers) * hundredth // 100, len(numbers) - 1)]


def table(heads, rows):
    """Prints rows of text, the first column to the left and the others to the right."""
    rows = [heads, *rows]
    widths = [max(len(row[at]) for row in rows) for at in range(len(heads))]
    for row in rows:
        cells = [cell.rjust(width) for cell, width in zip(row[1:], widths[1:])]
        print("  ".join([row[0].ljust(widths[0]), *cells]).rstrip())
    print()
