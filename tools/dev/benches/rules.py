"""The calls of HTTP's rules."""
import os
import re
import shutil

from .common import ARCHIVE, EVENLY, PAGE, TOP, counted, differ, folder, of_c

CALLS = ("parse_request", "reuse_stored", "forward_request", "parse_response", "decide_store", "serve_stored")
TIMES = 50
# The shortest request and a browser's by six stored lines, that by twenty, by six and prepared words.
SORTS = ((0, 0, 0), (1, 0, 0), (1, 1, 0), (1, 0, 1))


def rows(archive):
    how = {"env": {**os.environ, **EVENLY}}
    with folder() as room:
        program = of_c(os.path.join(TOP, "embed", "rules_calls.c"), archive, os.path.join(room, "calls"))
        before = [counted([program, "none", *sort, 0], **how) for sort in SORTS]
        for call in CALLS:
            yield call, [(counted([program, call, *sort, TIMES], **how) - it) // TIMES for sort, it in zip(SORTS, before)]


def kept():
    """The rows of the page."""
    with open(PAGE, encoding="utf-8") as page:
        found = re.findall(r"^\| `(\w+)` \|((?: [\d,]+ \|){4})$", page.read(), re.M)
    return {(call, at): int(it.replace(",", "")) for call, row in found for at, it in enumerate(row.split("|")[:-1])}


def rules_calls(*words):
    """Prints the rows of the page's table. --check fails where one is away from it: a call that got slower is a slip, and one that got faster has an old row."""
    if not shutil.which("valgrind") or not shutil.which("gcc"):
        print("rules-calls: passed over, since valgrind or gcc isn't there")
        return 0
    made = []
    for call, row in rows(next((it for it in words if it != "--check"), ARCHIVE)):
        print(f"| `{call}` | " + " | ".join(f"{it:,}" for it in row) + " |", flush=True)
        made += [((call, at), it) for at, it in enumerate(row)]
    return int("--check" in words and differ("rules-calls", made, kept()))
