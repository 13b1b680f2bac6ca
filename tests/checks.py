"""Counts checks: prints a line for each that failed, and `N passed, M failed` at the end."""


def difference(expected, found):
    """What is wrong with a value, or None if it is the expected one."""
    return None if found == expected else f"expected {expected!s:.500}\n  found    {found!s:.500}"


def status_of(checks):
    """Reports checks, each a name and what is wrong or None. Returns the exit status."""
    passed = failed = 0
    for name, wrong in checks:
        if wrong is None:
            passed += 1
        else:
            failed += 1
            print(f"FAIL {name}: {wrong}", flush=True)
    print(f"{passed} passed, {failed} failed")
    return int(failed > 0)
