#!/usr/bin/env python3
"""Writes what tells the options of cache-plan and cache-curve: their man pages, and the tables of docs/planning.md. All is made of the two tables
that --help prints: planner/options.py, and crates/tier_curve/src/command.rt.

    option_pages.py            writes them
    option_pages.py --check    fails where one isn't as it would be written
"""
import argparse
import os
import re
import sys

from planner.options import parser_of

TOP = os.path.join(os.path.dirname(os.path.realpath(__file__)), "..", "..")
PAGE, MAN, COMMAND = "docs/planning.md", "release/man/{}.1", "crates/tier_curve/src/command.rt"
# Where the page tells more of an option.
MORE = {"cache-curve": {"misses": "two-tiers", "columns": "columns", "entry-overhead": "heads", "part": "many-machines", "sample": "samples"},
        "cache-plan": {"lengths": "logs-that-are-read", "sample": "samples", "entry-overhead": "heads"}}
NAMED = re.compile(r'\boption\(\s*alloc,\s*"([\w-]+)",\s*"([^"]+)",\s*(?:"([^"]*)"|(\w+)),?\s*\)'
                   r'|Arg::new\(alloc, "([\w-]+)"\)\s*\.long\("[\w-]+"\)\s*\.action\(ArgAction::SetTrue\)\s*\.help\((?:"([^"]*)"|(\w+))\)')


def read(path):
    with open(os.path.join(TOP, path), encoding="utf-8") as file:
        return file.read()


def of_curve():
    """The options of cache-curve: of each its name, its value and what it says."""
    text = read(COMMAND)
    texts = dict(re.findall(r'let (\w+) =\s*"([^"]*)";', text))
    for name, value, said, by, flag, flag_said, flag_by in NAMED.findall(text):
        yield name or flag, value, (said or flag_said or texts[by or flag_by]).replace("\\\\", "\\")


def of_plan():
    """The same of cache-plan."""
    parser = parser_of("", "cache-plan")
    for it in parser._actions:
        if it.option_strings and "-h" not in it.option_strings:
            value = "|".join(it.choices) if it.choices else "" if it.nargs == 0 else it.metavar or it.dest.upper()
            yield it.option_strings[-1][2:], value, (it.help or "").replace("%%", "%")


OPTIONS = {"cache-plan": of_plan, "cache-curve": of_curve}


def rows_of(program):
    """The rows of the page's table."""
    for name, value, said in OPTIONS[program]():
        shown = f"`--{name}{' ' + value if value else ''}`".replace("|", "\\|")
        more = MORE[program].get(name)
        yield f"| {f'[{shown}](#{more})' if more else shown} | {said.replace('|', chr(92) + '|')} |"


def in_page(text, program):
    """The page with the rows of a program's table in the place of those that it has, if it has the table."""
    head = f"| Option of `{program}` | Says |\n|---|---|\n"
    if head not in text:
        return text
    at = text.index(head) + len(head)
    end = re.compile(r"^(?!\|)", re.MULTILINE).search(text, at).start()
    return text[:at] + "".join(it + "\n" for it in rows_of(program)) + text[end:]


def roff(text):
    """A text as man pages have it."""
    text = text.replace("\\", "\\e").replace("-", "\\-")
    return "\\&" + text if text.startswith((".", "'")) else text


def in_man(text, program):
    """The man page with the program's options in its section."""
    made = "".join(f".TP\n.B {roff('--' + name)}{' ' + roff(value) if value else ''}\n{roff(said)}\n" for name, value, said in OPTIONS[program]())
    head, _, rest = text.partition(".SH OPTIONS\n")
    return head + ".SH OPTIONS\n" + made + ".PP\n" + rest.partition(".PP\n")[2]


def pages():
    """The path and the text of each page as it is to be."""
    text = read(PAGE)
    for program in OPTIONS:
        path = MAN.format(program)
        yield path, in_man(read(path), program)
        text = in_page(text, program)
    yield PAGE, text


def main():
    parser = argparse.ArgumentParser(description=__doc__, formatter_class=argparse.RawDescriptionHelpFormatter)
    parser.add_argument("--check", action="store_true", help="fail where a page isn't as it would be written")
    options, old = parser.parse_args(), []
    for path, text in pages():
        if read(path) != text:
            old.append(path)
            if not options.check:
                with open(os.path.join(TOP, path), "w", encoding="utf-8") as file:
                    file.write(text)
    if options.check and old:
        sys.exit(f"option_pages: not as --help tells it: {', '.join(old)}: python3 tools/planner/option_pages.py writes them")


if __name__ == "__main__":
    main()
