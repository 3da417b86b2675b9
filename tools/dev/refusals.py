#!/usr/bin/env python3
"""Runs, over each crate, what the kit's gate refuses by the text alone, before any proof: a module with the name of a library, a clause's word with another
meaning, a link, a file that nothing reads. `rt check` and tools/dev/check.py only warn of it, and the gate would say it after an hour.

    tools/dev/refusals.py [CRATE ..]"""
import os
import sys

sys.dont_write_bytecode = True
TOP = os.path.dirname(os.path.dirname(os.path.dirname(os.path.realpath(__file__))))
sys.path.insert(0, os.path.join(TOP, "tools", "dev", "gate"))

import again  # noqa: E402
import tree  # noqa: E402


def refused(made, crate, every):
    """Whether the kit refuses the crate; it says why."""
    tests = (
        lambda: made.rtlib.stop_on_links(crate.folder),
        lambda: made.rtlib.stop_on_unread(crate.folder, every),
        lambda: made.rtlib.stop_on_text(crate, "verdict"),
        lambda: made.stop_on_words(crate),
    )
    for test in tests:
        try:
            test()
        except SystemExit:
            return True
    return False


def main(names):
    made = again.command()
    if made is None:
        print("passed over, since the kit's command has another form than this one knows: tools/dev/refusals.py")
        return 0
    os.chdir(TOP)
    made.rtlib.Crate = made.Crate
    known = {}
    every = [made.Crate(os.path.join(TOP, "crates", it), TOP, known) for it in sorted(tree.uses_of(TOP))]
    wrong = [it.name for it in every if (not names or it.name in names) and refused(made, it, every)]
    print(f"refusals: {len(names) or len(every)} crates" + (f", FAILED: {', '.join(wrong)}" if wrong else ", none is refused by its text"))
    return int(bool(wrong))


if __name__ == "__main__":
    sys.exit(main(sys.argv[1:]))
