"""How a file of small tests tells what came of them."""

from collections.abc import Iterable


def status_of(name: str, what: str, tests: Iterable[tuple[str, bool]]) -> int:
    """Prints which tests failed, each what is said and whether it is so, and returns the status: 1 where one did."""
    told = list(tests)
    failed = [said for said, is_so in told if not is_so]
    print(f"FAILED  {name}: {'; '.join(failed)}" if failed else f"ok      {name}: {len(told)} {what}")
    return 1 if failed else 0
